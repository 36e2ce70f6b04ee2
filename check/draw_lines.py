"""Lines of formulas: whole ones in any spelling, and damaged ones."""
from decimals import Decimal
from draw_numbers import no_number, number_of_digits, spelled, too_big, too_fine
from language import Formula

LABELS = [b"a", b"up", b"_x9", b"tta", b"P2", b"U_", b"Sx", b"quit1"]

UNKNOWN = [b"b", b"tt1", b"A", b"_", b"aa", b"u", b"p", b"X0"]
RESERVED = [b"S", b"quit", b"P", b"X", b"U", b"tt", b"ff"]
SYMBOLS = [b"&&", b"||", b"!", b"(", b")", b"{", b"}", b"[", b"]", b",", b"~", b"<=", b">=", b"<", b">"]
NO_TOKENS = [b"&", b"|", b"=", b"-", b"+", b"#", b"\"", b"\\", b"\r", b"\x00", b"\xc3\xa9", b";", b":", b"/"]
COMPARISONS = [b"<", b"<=", b">", b">="]
PLAIN_KINDS = ["not", "and", "or", "and", "or"]
KINDS = [*PLAIN_KINDS, "next", "until"]


def draw_tree(draws, size, labels=LABELS, kinds=KINDS):
    """A formula of about so many parts, which are of these kinds."""
    if size <= 1:
        return draw_leaf(draws, labels)
    kind = draws.one_of(kinds)
    if kind == "not":
        return Formula("not", (draw_tree(draws, size - 1, labels, kinds),))
    if kind == "next":
        return Formula("next", (draws.one_of(COMPARISONS), threshold(draws), draw_tree(draws, size - 1, labels, kinds)))
    left = draws.below(size)
    parts = draw_tree(draws, left, labels, kinds), draw_tree(draws, size - 1 - left, labels, kinds)
    if kind != "until":
        return Formula(kind, parts)
    return Formula("until", (draws.one_of(COMPARISONS), threshold(draws), parts[0], bound(draws), parts[1]))


def draw_leaf(draws, labels):
    if not labels:
        return draws.one_of([Formula("tt"), Formula("ff")])
    return draws.mostly(Formula("label", (draws.one_of(labels),)), Formula("tt"), Formula("ff"))


def threshold(draws):
    digits = draws.one_of([0, 1, 2, 18])
    if digits == 0:
        return Decimal(draws.below(2), 0)
    return Decimal(number_of_digits(draws, digits), digits)


def bound(draws):
    if draws.chance(1, 3):
        return None
    upper = Decimal(number_of_digits(draws, draws.between(1, 6)), draws.mostly(0, 1, 6, 18))
    return draws.one_of(["time", "reward"]), upper


def tokens_of(draws, tree, room=0):
    """The texts of the tree's tokens in some spelling. Where the tree stands within `room` 1 it may be a chain of `&&`, within
    2 one part of such a chain; else it may be anything."""
    kind = tree.kind
    needed = (kind == "or" and room >= 1) or (kind == "and" and room >= 2)
    if needed or draws.chance(1, 12):
        return [b"(", *tokens_of(draws, tree), b")"]
    if kind in ("tt", "ff"):
        return [kind.encode()]
    if kind == "label":
        return [tree.parts[0]]
    if kind == "not":
        return [b"!", *tokens_of(draws, tree.parts[0], 2)]
    if kind == "and":
        return [*tokens_of(draws, tree.parts[0], 1), b"&&", *tokens_of(draws, tree.parts[1], 2)]
    if kind == "or":
        return [*tokens_of(draws, tree.parts[0], 0), b"||", *tokens_of(draws, tree.parts[1], 1)]
    comparison, limit, *path = tree.parts
    return [b"P", b"{", comparison, short_spelling(draws, limit), b"}", b"[", *path_tokens(draws, path), b"]"]


def path_tokens(draws, path):
    if len(path) == 1:
        return [b"X", *tokens_of(draws, path[0])]
    live, limit, goal = path
    return [*tokens_of(draws, live), b"U", *bound_tokens(draws, limit), *tokens_of(draws, goal)]


def bound_tokens(draws, limit):
    any_time = [b"[", zero(draws), b",", b"~", b"]"]
    if limit is None:
        return any_time if draws.chance(1, 3) else []
    kind, upper = limit
    front = any_time if kind == "reward" else []
    return [*front, b"[", zero(draws), b",", short_spelling(draws, upper), b"]"]


def zero(draws):
    return draws.mostly(b"0", b"0.0", b"00", b".0", b"0e7", b"0.e-99")


def short_spelling(draws, number):
    """The number in some spelling that a line has room for."""
    while True:
        word = spelled(draws, number)
        if len(word) <= 60:
            return word


def line_of(draws, tokens):
    """The tokens as a line, with blanks where some must be and at times elsewhere."""
    line = b""
    for token in tokens:
        line += b" " if joins(line, token) else b""
        line += draws.mostly(b"", b" ", b"\t", b" \t ") if draws.chance(1, 2) else b""
        line += token
    return line + draws.mostly(b"", b" ", b"\t")


def joins(line, token):
    """Whether the token would run into what stands before it."""
    last, first = line[-1:], token[:1]
    return bool(last) and (last.isalnum() or last in b"_.") and (first.isalnum() or first in b"_.")


def damaged(draws, tokens, labels=LABELS):
    """The tokens with one or two of them changed, left out, or with others between them."""
    tokens = list(tokens)
    for _ in range(draws.mostly(1, 2)):
        place = draws.below(len(tokens) + 1)
        how = draws.below(4)
        if how == 0 and place < len(tokens):
            del tokens[place]
        elif how == 1 and place < len(tokens):
            tokens[place] = other_token(draws, labels)
        elif how == 2:
            tokens = tokens[:place]
        else:
            tokens.insert(place, other_token(draws, labels))
    return tokens


def other_token(draws, labels):
    kind = draws.below(8)
    if kind == 0:
        return draws.one_of(NO_TOKENS)
    if kind == 1:
        return draws.one_of([no_number, too_fine, too_big])(draws)[:40]
    if kind == 2:
        return draws.one_of([b"1.0000001", b"2", b"10e-1", b"1e0", b"1.5"])
    return draws.one_of(draws.one_of([UNKNOWN, RESERVED, SYMBOLS, SYMBOLS, labels or UNKNOWN]))


def nested(draws, depth, inner):
    """A line with so many constructs round its innermost token."""
    line, closing = b"", b""
    constructs = [(b"!", b""), (b"(", b")"), (b"P{<1}[X ", b"]"), (b"P{>=.5}[" + inner + b" U ", b"]"), (b"P{>0}[", b" U " + inner + b"]")]
    for _ in range(depth):
        front, back = draws.one_of(constructs)
        line, closing = line + front, back + closing
    return line + inner + closing


def draw_line(draws, number, labels=LABELS):
    """The line of this number: most kinds come again and again, the long ones seldom."""
    if number % 40 == 39:
        return nested(draws, draws.one_of([63, 64, 65, 66]), (labels or [b"tt"])[0])
    tree = draw_tree(draws, draws.mostly(draws.between(1, 8), draws.between(9, 20)), labels)
    tokens = tokens_of(draws, tree)
    return line_of(draws, damaged(draws, tokens, labels) if draws.chance(1, 2) else tokens)
