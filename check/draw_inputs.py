"""Formula inputs: lines of every kind, blank ones and `quit` among them, in any layout; and inputs at the limits of their length.

Each is drawn for a model and the command's options.
"""
from changed_text import changed_bytes
from command import Options
from decimals import Decimal, canonical_text
from draw_formulas import (draw_earning, draw_next, draw_operator, draw_plain, draw_unbounded, draw_within, spelled_formula,
                           too_long_until)
from draw_lines import COMPARISONS, draw_leaf, draw_line, nested
from draw_models import blank_lines
from draw_nested import draw_joined, draw_nested, draw_some_operators
from draw_numbers import no_number, spelled, too_big, too_fine
from expected import INPUT_LIMIT
from language import MOST_BYTES, MOST_NESTED, bound_text, canonical_line

# Lines over the label a, many of which are of no form.
OTHER_FORMS = [
    b"P{>=0.5}[tt U a]", b"P{>=0.5}[tt U[0,~] a]", b"P{>=0.5}[tt U[0,~][0,1] a]", b"P{>=0.5}[tt U[0,1][0,1] a]",
    b"P{>=0.5}[tt U[1,2] a]", b"P{>=0.5}[tt U[0.0,1] a]", b"P{>=0.5}[tt U[00,1] a]", b"P{>=0.5}[tt U[0,] a]", b"P{>=0.5}[tt U[,1] a]",
    b"P{>=0.5}[tt U[0,-1] a]", b"P{>=0.5}[tt U[0,1]a]", b"P{>=0.5}[ttU[0,1] a]", b"P{>=0.5}[tt U [0,1] a]", b"P{>=0.5}[tt u[0,1] a]",
    b"P{>=0.5}[tt U[0,1]]", b"P{=0.5}[X a]", b"P{==0.5}[X a]", b"P{=<0.5}[X a]", b"P{=>0.5}[X a]", b"P{<<0.5}[X a]", b"P{<>0.5}[X a]",
    b"P{0.5}[X a]", b"P{>=}[X a]", b"P{<=+0.5}[X a]", b"P{>=-0}[X a]", b"P{>=.}[X a]", b"P{>=0.5}[Xa]", b"P{>=0.5}[X ]", b"P{>=0.5}[]",
    b"P{>=0.5}", b"P{>=0.5}[X a", b"P{>=0.5}X a]", b"P>=0.5[X a]", b"S{>=0.5}[X a]", b"p{>=0.5}[X a]", b"P{>=0.5}[x a]",
    b"P{>=0.5}(X a)", b"P{>=0.5}[X a]P{>=0.5}[X a]", b"P{>=0.5}[X a] && a", b"!P{>=0.5}[X a]", b"(P{>=0.5}[X a])",
    b"((P{>=0.5}[tt U[0,1] a]))", b"\xef\xbb\xbfP{>=0.5}[X a]", b"P{>=0.5}[X a] ", b"P{>=0.5}[X a]\t", b"P{>=0.5}[X a]\r",
    b"P{>=0.5}[X a]\x00", b"P{>=0.5}[X a]]", b"P {>= 0.5} [ X\ta ]", b"P{>=0.5}[X quit]", b"P{>=0.5}[X S]", b"P{>=0.5}[X undeclared]",
    b"P{>=1.0000000001}[X a]", b"P{>=10e-1}[X a]", b"S", b"X a", b"tt U a", b"a U[0,1] a", b"a a", b"!", b"a!", b"a &&", b"&& a",
    b"a & a", b"a | a", b"a || && a", b"()", b"(a", b"a)", b"1", b"0.5", b"~", b"a-", b"#a", b"a # b", b"quit a", b"a quit", b"quit quit",
    b"QUIT", b"quit;", b"quit\r", b"\r", b"\x0b", b"\xc2\xa0",
]
FORMS_AN_INPUT = 8

# Over more states it takes too long to know an operator's brackets already where the formula is drawn.
MOST_STATES_KNOWN = 300

QUITS = [b"quit", b"quit", b" quit", b"quit\t", b"\t quit  "]


# Lines of one kind. Each takes draws, the model and the options.

def plain_line(draws, model, options):
    return spelled_formula(draws, draw_plain(draws, model.labels.names, 12))


def next_line(draws, model, options):
    return spelled_formula(draws, draw_next(draws, model))


def until_line(draws, model, options):
    return spelled_formula(draws, draw_within(4)(draws, model, options))


def reward_line(draws, model, options):
    return spelled_formula(draws, draw_within(4, "reward")(draws, model, options))


def unbounded_line(draws, model, options):
    return spelled_formula(draws, draw_unbounded(draws, model, options))


def nested_operators_line(draws, model, options):
    """Over many states with thresholds that know nothing of the chain."""
    if model.chain.states > MOST_STATES_KNOWN:
        return some_operators_line(draws, model, options)
    draw = draws.one_of([draw_nested(2), draw_joined(1), draw_joined(2)])
    return spelled_formula(draws, draw(draws, model, options))


def some_operators_line(draws, model, options):
    return spelled_formula(draws, draw_some_operators(draws, model.labels.names))


def earning_line(draws, model, options):
    """With a bound on the reward somewhere, which knows nothing of the chain."""
    return spelled_formula(draws, draw_earning(draws, model.labels.names))


def drawn_line(draws, model, options):
    """A line of the language, in half of the draws a damaged one."""
    return draw_line(draws, draws.below(40), model.labels.names)


def too_long_line(draws, model, options):
    return spelled_formula(draws, too_long_until(draws, model.labels.names))


def changed_line(draws, model, options):
    """A line changed in a way that knows nothing of the language."""
    return changed_bytes(draws, draws.one_of(ANSWERED_LINES)(draws, model, options))


def number_line(draws, model, options):
    """A threshold or a bound that is no number, or beyond the limits; or a threshold above 1."""
    tree = draw_operator(draws, model.labels.names)
    comparison, limit, *path = tree.parts
    word = draws.one_of([no_number, too_fine, too_big, above_one])(draws)
    if tree.kind == "until" and path[1] is not None and draws.chance(1, 2):
        text = bound_text(path[1])
        return canonical_line(tree).replace(text, text.removesuffix(canonical_text(path[1][1]) + b"]") + word + b"]", 1)
    return canonical_line(tree).replace(comparison + canonical_text(limit), comparison + word, 1)


def above_one(draws):
    return spelled(draws, draws.one_of([Decimal(2, 0), Decimal(10 ** 17 + 1, 17), Decimal(10 ** 18 - 1, 0), Decimal(101, 2)]))


ANSWERED_LINES = [plain_line, next_line, until_line, reward_line, unbounded_line, nested_operators_line]
LINES = [*ANSWERED_LINES, some_operators_line, earning_line, drawn_line, too_long_line, changed_line, number_line]


# Lines at the limit of their length.

def filled(draws, line, size):
    """The line in so many bytes, by blanks before, behind or in it."""
    places = [place for place, byte in enumerate(line) if byte in b" {}[]"] or [0]
    place = draws.one_of([0, len(line), draws.one_of(places)])
    return line[:place] + draws.one_of([b" ", b"\t"]) * (size - len(line)) + line[place:]


def long_number_line(draws, model, size):
    """A next whose threshold has so many zeros at its end that the line has so many bytes."""
    front, back = b"P{%s0.%d" % (draws.one_of(COMPARISONS), draws.below(100)), b"}[X %s]" % leaf_text(draws, model)
    return front + b"0" * (size - len(front) - len(back)) + back


def leaf_text(draws, model):
    return canonical_line(draw_leaf(draws, model.labels.names))


def long_chain(draws, model, size):
    """Parts joined without blanks, in so many bytes; their canonical text is longer by half where the names are short."""
    part = min([b"tt", *model.labels.names], key=len)
    line = part
    while len(line) + 3 + len(part) <= size:
        line += draws.mostly(b"&&", b"||", b"&&!") + part
    return filled(draws, line, size)


def deepest_line(draws, model, options):
    """As many `!` or operators in one another as may be, or none, and within them the longest chain for which there is room."""
    front, back = draws.one_of([(b"", b""), (b"!", b""), (b"P{>0}[X ", b"]"), (b"P{>0}[tt U ", b"]"), (b"P{<1}[", b" U tt]")])
    part = draws.one_of([b"&&", b"||"]) + min([b"tt", *model.labels.names], key=len)
    room = MOST_BYTES - MOST_NESTED * len(front + back)
    return front * MOST_NESTED + (part * ((room + 2) // len(part)))[2:] + back * MOST_NESTED


def any_line_filled(draws, model, size):
    return filled(draws, draws.one_of([*ANSWERED_LINES, earning_line])(draws, model, Options()), size)


def nested_line(draws, model):
    """A line in which some token is enclosed as deep as it may be, or a little deeper."""
    depth = draws.one_of([63, 64, 65, 66])
    front = draws.one_of([b"!", b"("])
    inner = leaf_text(draws, model)
    return draws.mostly(nested(draws, depth, inner), front * depth + inner + b")" * (depth * (front == b"(")))


# Whole inputs.

def laid_out_lines(draws, lines):
    """The lines with blank ones among them, under any ends of line; the last line's end may be missing, or the LF of it."""
    endings = draws.one_of([[b"\n"], [b"\n"], [b"\r\n"], [b"\n", b"\r\n"]])
    text = b"".join(draws.mostly(b"", blank_lines(draws, endings)) + line + draws.one_of(endings) for line in lines)
    text += draws.mostly(b"", blank_lines(draws, endings))
    if draws.chance(1, 4):
        text = text[:-2] if text.endswith(b"\r\n") and draws.chance(1, 2) else text[:-1]
    return text


def with_quit(draws, lines):
    """The lines, and among them or behind them one that ends the input."""
    place = draws.below(len(lines) + 1)
    return [*lines[:place], draws.one_of(QUITS), *lines[place:]]


def draw_lines_of(draws, model, options, kinds, count):
    lines = [draws.one_of(kinds)(draws, model, options) for _ in range(count)]
    return with_quit(draws, lines) if draws.chance(1, 4) else lines


def one_line(make_line):
    return lambda draws, model, options: laid_out_lines(draws, [make_line(draws, model, options)])


def many_lines(kinds, most):
    def draw_input(draws, model, options):
        return laid_out_lines(draws, draw_lines_of(draws, model, options, kinds, draws.between(2, most)))
    return draw_input


def changed_input(draws, model, options):
    return changed_bytes(draws, many_lines(LINES, 5)(draws, model, options))


def other_forms(forms):
    def draw_input(draws, model, options):
        return laid_out_lines(draws, [form.replace(b"a", draws.one_of(model.labels.names or [b"a"])) for form in forms])
    return draw_input


def long_blanks(draws):
    """Blanks, more than a formula's line has room for."""
    return draws.one_of([b" ", b"\t", b" \t"]) * (MOST_BYTES + draws.below(100))


def nothing_asked(front):
    """What `front` draws, and then, where it ends the input, lines that aren't looked at."""
    def draw_input(draws, model, options):
        text = front(draws)
        if b"quit" not in text:
            return text
        return text + draws.one_of([b"", b"\n" + many_lines(LINES, 3)(draws, model, options), b"\n((\n", b"\r\n\xff\xff"])
    return draw_input


# Fronts of inputs without a formula before a `quit`, if there is one.
NOTHING = [
    lambda draws: b"",
    lambda draws: blank_lines(draws, [b"\n", b"\r\n"]),
    lambda draws: long_blanks(draws) + draws.one_of([b"", b"\n"]),
    lambda draws: draws.one_of(QUITS),
    lambda draws: blank_lines(draws, [b"\n", b"\r\n"]) + draws.one_of(QUITS),
    lambda draws: long_blanks(draws) + b"quit" + draws.one_of([b"", long_blanks(draws)]),
]


def lines_of_size(make_line, size):
    """A line of so many bytes, and others round it."""
    def draw_input(draws, model, options):
        line = make_line(draws, model, size)
        return laid_out_lines(draws, draws.shuffled([line, *(plain_line(draws, model, options) for _ in range(draws.below(3)))]))
    return draw_input


def nested_lines(draws, model, options):
    return laid_out_lines(draws, [nested_line(draws, model) for _ in range(draws.between(1, 4))])


# What an input is filled up with, from a text before its end and the number of bytes that are missing.

def filled_behind(draws, model, text, rest):
    return text + draws.one_of([b"\n", b" ", b"\r\n", b"\x00", b"a"]) * rest


def filled_before(draws, model, text, rest):
    return draws.one_of([b"\n", b" \n", b"\r\n"]) * (rest // 2) + b"\n" * (rest % 2) + text


def filled_behind_quit(draws, model, text, rest):
    return b"quit\n" + text + b"(" * rest


def filled_with_thousands(draws, model, text, rest):
    line = plain_line(draws, model, Options())[:300] + b"\n"
    return line * draws.between(1000, 2000) + b"\n" * rest


def input_of_size(fill, size):
    def draw_input(draws, model, options):
        text = many_lines(LINES, 4)(draws, model, options)
        return fill(draws, model, text, max(0, size - len(text)))[:size].ljust(size)
    return draw_input


def other_inputs():
    groups = [OTHER_FORMS[start:start + FORMS_AN_INPUT] for start in range(0, len(OTHER_FORMS), FORMS_AN_INPUT)]
    fills = [filled_behind, filled_before, filled_behind_quit, filled_with_thousands]
    long_lines = [any_line_filled, long_number_line, long_chain]
    yield "bounds on the reward", [many_lines([earning_line], 6)] * 4
    yield "fault", [many_lines([drawn_line, number_line], 8)] * 12
    yield "lines of all kinds", [many_lines(LINES, 12)] * 40
    yield "other forms", [other_forms(forms) for forms in groups]
    yield "changed bytes", [changed_input] * 8
    yield "nothing asked", [nothing_asked(front) for front in NOTHING]
    yield "longest line", [lines_of_size(make_line, MOST_BYTES) for make_line in long_lines]
    yield "line too long", [lines_of_size(make_line, MOST_BYTES + 1) for make_line in long_lines]
    yield "deepest line", [nested_lines] * 4
    yield "greatest length", [input_of_size(fill, INPUT_LIMIT) for fill in fills]
    yield "too long", [*(input_of_size(fill, INPUT_LIMIT + 1) for fill in fills), input_of_size(filled_behind, INPUT_LIMIT + 100_000)]


OTHER_INPUTS = dict(other_inputs())
