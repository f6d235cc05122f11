"""The texts of values in scripts: whether a text is one of a kind, and what a text that isn't could have meant."""
import re, struct

RANGES = {"SByte": (-2**7, 2**7 - 1), "Byte": (0, 2**8 - 1), "Int16": (-2**15, 2**15 - 1), "UInt16": (0, 2**16 - 1), "Int32": (-2**31, 2**31 - 1),
          "UInt32": (0, 2**32 - 1), "Int64": (-2**63, 2**63 - 1), "UInt64": (0, 2**64 - 1), "DateTime": (-2**63, 2**63 - 1)}
SAMPLES = {"Boolean": "true", "Float": "0x3f000000", "Double": "0x3fe0000000000000", "Guid": "72962b91-fa75-4ae6-8d28-b404dc7daf63",
           "ByteString": "0x00ff", "StatusCode": "0x80000000", "String": "A-17"}
SPELLED = {"Boolean": "`true` or `false`", "Float": "`0x` and the 8 lower-case hexadecimal digits of its bits",
           "Double": "`0x` and the 16 lower-case hexadecimal digits of its bits", "Guid": "36 characters with hyphens, in lower case",
           "ByteString": "`0x` and two lower-case hexadecimal digits for each byte", "StatusCode": "`0x` and 8 lower-case hexadecimal digits",
           "String": "each byte from `!` to `~` but `%` as itself, any byte as `%` and two upper-case hexadecimal digits, as `%20`"}
SHAPES = {"Float": r"0x[0-9a-f]{8}", "StatusCode": r"0x[0-9a-f]{8}", "Double": r"0x[0-9a-f]{16}", "Boolean": "true|false",
          "Guid": r"[0-9a-f]{8}(-[0-9a-f]{4}){3}-[0-9a-f]{12}", "ByteString": r"0x([0-9a-f]{2})*", "String": r"([!-$&-~]|%[0-9A-F]{2})*"}


def is_decimal(text, low=0, high=2**64 - 1):
    return bool(re.fullmatch(r"0|-?[1-9]\d*", text)) and low <= int(text) <= high


def bytes_of(text):
    """The bytes of a String's text."""
    return bytes(int(it[1:], 16) if it[0] == "%" else ord(it) for it in re.findall(r"%[0-9A-F]{2}|.", text))


def is_text(kind, cap, text):
    if kind in RANGES:
        return is_decimal(text, *RANGES[kind])
    if not re.fullmatch(SHAPES[kind], text):
        return False
    if kind == "ByteString":
        return (len(text) - 2) // 2 <= cap
    if kind == "String":
        try:
            bytes_of(text).decode("utf-8")
        except UnicodeDecodeError:
            return False
        return len(bytes_of(text)) <= cap
    return True


def spelled(data):
    """A String's text of these bytes."""
    return "".join(chr(it) if 0x21 <= it <= 0x7e and it != 0x25 else f"%{it:02X}" for it in data)


def number_in(text):
    """The number that a text could have meant, or None."""
    for read in (int, lambda it: int(it, 0), float):
        try:
            return read(text)
        except ValueError:
            pass
    return None


def meant(kind, cap, text):
    """A text of the kind: what this one could have meant, else any."""
    number = number_in(text)
    if kind in RANGES:
        low, high = RANGES[kind]
        return str(min(max(int(number), low), high)) if number is not None and abs(number) < 2**64 else "1"
    if kind == "Boolean":
        return "false" if text.lower() in ("false", "0", "no", "off") else "true"
    if kind in ("Float", "Double") and number is not None and not text.lower().startswith("0x"):
        try:
            return "0x" + struct.pack(">f" if kind == "Float" else ">d", number).hex()
        except (OverflowError, struct.error):
            return SAMPLES[kind]
    if kind == "StatusCode":
        return f"0x{int(number):08x}" if isinstance(number, int) and 0 <= number < 2**32 else SAMPLES[kind]
    if kind == "String":
        data = text.encode("utf-8", "replace")[:cap].decode("utf-8", "ignore").encode()
        return spelled(data)
    if kind == "ByteString":
        digits = re.sub("[^0-9a-f]", "", text.lower().removeprefix("0x"))[: 2 * cap]
        return "0x" + digits[: len(digits) // 2 * 2]
    low = text.lower().strip("{}")
    return low if re.fullmatch(SHAPES[kind], low) else SAMPLES[kind]


def how(kind, cap):
    """How a value of the kind is spelled."""
    if kind in RANGES:
        return f"decimal, {RANGES[kind][0]} to {RANGES[kind][1]}"
    return SPELLED[kind] + (f"; {cap} bytes at most" if kind in ("String", "ByteString") else "")
