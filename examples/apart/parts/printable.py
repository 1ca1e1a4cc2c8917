"""What may reach a terminal: nothing of a file or of a text but printable characters."""

from __future__ import annotations


def escaped(character: str) -> str:
    """How a character is shown: a control, a bidi mark or the like by its number, and a backslash by two."""
    if character == "\\":
        return "\\\\"
    if character.isprintable():
        return character
    code = ord(character)
    if 0xDC80 <= code <= 0xDCFF:  # a byte that is no UTF-8
        return f"\\x{code - 0xDC00:02x}"
    if code < 0x100:
        return f"\\x{code:02x}"
    return f"\\u{code:04x}" if code < 0x10000 else f"\\U{code:08x}"


def shown(data: bytes | str) -> str:
    """A text as it is shown. Different texts are shown differently."""
    text = data.decode("utf-8", "surrogateescape") if isinstance(data, bytes) else data
    return "".join(map(escaped, text))


def short(data: bytes | str, most: int = 40) -> str:
    """The beginning of a text, as it is shown."""
    text = shown(data)
    return text if len(text) <= most else text[: most - 3] + "..."
