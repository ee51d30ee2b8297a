"""Makes texts safe to print: names of files, and what others have written into logs, scripts and snapshots."""


def shown(text: str, kept: str = "") -> str:
    """Returns the text with each sign that cannot be seen as an escape: the end of a line (also U+0085, U+2028), what
    moves a terminal's cursor or turns the direction of writing, a byte of a file's name that is no UTF-8. `kept` has
    the signs that stay as they are, as the ends of lines in a text of several. A backslash stays one, so the escapes
    cannot be told from a text that looks like them."""
    if text.isprintable():
        return text
    return "".join(sign if sign.isprintable() or sign in kept else escape(sign) for sign in text)


def shown_lines(text: str) -> str:
    """Returns a text of several lines so, in which line feeds and tabs stay."""
    return shown(text, "\n\t")


def escape(sign: str) -> str:
    """Returns `\\xNN` for a byte or a sign below 256, and else `\\uNNNN` or `\\UNNNNNNNN`."""
    number = ord(sign)
    if "\udc80" <= sign <= "\udcff":
        # So Python has read a byte that is no UTF-8.
        number -= 0xDC00
    if number < 0x100:
        return f"\\x{number:02x}"
    return f"\\u{number:04x}" if number < 0x10000 else f"\\U{number:08x}"
