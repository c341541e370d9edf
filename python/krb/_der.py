"""DER (X.690) of what is sent. The library refuses to seal or to frame what is not the one encoding."""


def element(tag: int, content: bytes) -> bytes:
    """The element of this tag and content (8.1.3, 10.1)."""
    size = len(content)
    digits = size.to_bytes((size.bit_length() + 7) // 8, "big")
    return bytes([tag]) + (bytes([size]) if size < 128 else bytes([128 + len(digits)]) + digits) + content


def integer(number: int) -> bytes:
    """The INTEGER of a number that is not negative (8.3)."""
    return element(2, number.to_bytes(number.bit_length() // 8 + 1, "big"))
