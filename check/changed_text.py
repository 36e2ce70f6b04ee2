"""Changes of a text that know nothing of its format."""

ODD_BYTES = b" \t\n\r\x00\x0b\x0c\x7f\x80\xff#_-+.,0123456789eEaXS"


def odd_end_of_line(draws, text):
    """A CR too many before the end of a line, which belongs to the line."""
    lines = text.split(b"\n")
    place = draws.below(len(lines))
    return b"\n".join([*lines[:place], lines[place].rstrip(b"\r") + draws.one_of([b"\r\r", b"\r \r", b"\r "]), *lines[place + 1:]])


def odd_end_of_text(draws, text):
    """A CR without LF, which belongs to the last line, or another byte past the end."""
    return text.rstrip(b"\r\n") + draws.mostly(b"\r", b"\r\n\n", b"\n\r", b"\x1a", b"\x00")


def changed_bytes(draws, text):
    """One to three changes anywhere; what comes out may still be right."""
    changes = [byte_changed, byte_left_out, byte_put_in, line_left_out, line_twice, lines_swapped, cut_off, odd_end_of_line,
               odd_end_of_text]
    for _ in range(draws.between(1, 3)):
        text = draws.one_of(changes)(draws, text)
    return text


def odd_byte(draws):
    return bytes([draws.one_of(ODD_BYTES)])


def byte_changed(draws, text):
    place = draws.below(len(text) + 1)
    return text[:place] + odd_byte(draws) + text[place + 1:]


def byte_left_out(draws, text):
    place = draws.below(len(text) + 1)
    return text[:place] + text[place + 1:]


def byte_put_in(draws, text):
    place = draws.below(len(text) + 1)
    return text[:place] + odd_byte(draws) + text[place:]


def line_left_out(draws, text):
    lines = text.split(b"\n")
    place = draws.below(len(lines))
    return b"\n".join(lines[:place] + lines[place + 1:])


def line_twice(draws, text):
    lines = text.split(b"\n")
    place = draws.below(len(lines))
    return b"\n".join(lines[:place + 1] + lines[place:])


def lines_swapped(draws, text):
    lines = text.split(b"\n")
    place = draws.below(len(lines))
    return b"\n".join(lines[:place] + lines[place + 1:place + 2] + lines[place:place + 1] + lines[place + 2:])


def cut_off(draws, text):
    return text[:draws.below(len(text) + 1)]
