"""Texts as Rust writes them."""


def escaped(text, stands):
    """The inside of a literal. `stands` tells which of the other characters stand as they are."""

    def char(c):
        if c in "\"\\":
            return "\\" + c
        if c in "\n\r\t\0":
            return {"\n": "\\n", "\r": "\\r", "\t": "\\t", "\0": "\\0"}[c]
        if ord(c) < 32 or ord(c) == 127:
            return f"\\x{ord(c):02x}"
        return c if stands(c) else f"\\u{{{ord(c):x}}}"

    return "".join(map(char, text))
