"""The datagrams of `rows`, and the fields that stand there for each."""
import os

HERE = os.path.dirname(os.path.abspath(__file__))
PREFERENCES = [f"uadp.keys:1:{bytes(range(32)).hex()}:{bytes(range(0x40, 0x50)).hex()}:33333333", "uadp.fields:* * 2: n UInt16, s String 3"]
HEADER = "51 05 01 01 00"
TOLD = {"take": [], "plain": [("publisher_id", "5"), ("message_count", "1"), ("writer_id", "1")]}
TOLD["fields"] = TOLD["plain"] + [("message.type", "0")]


def bytes_of(text):
    return bytes.fromhex(text.replace("|", ""))


def deep(levels):
    """arrays of one Variant in one another, and in the last a Boolean"""
    return bytes_of(HEADER) + bytes_of("01 01 00") + bytes_of("98 01 00 00 00") * levels + b"\x01\x01"


def wide():
    """an array of Booleans that fills the largest datagram of UDP over IPv4"""
    front = bytes_of(HEADER) + bytes_of("01 01 00")
    count = 65507 - len(front) - 5
    return front + b"\x81" + count.to_bytes(4, "little") + b"\x01" * count


def datagram_of(line):
    """the bytes of a line, and what it tells beyond the lines behind it"""
    verb, _, rest = line.partition(" ")
    if verb == "take":
        return bytes_of(rest), []
    if verb == "plain":
        return bytes_of(HEADER + rest), TOLD[verb]
    count, _, rest = rest.partition(" ")
    return bytes_of(HEADER) + b"\x01" + int(count).to_bytes(2, "little") + bytes_of(rest), TOLD[verb] + [("message.field_count", count)]


def rows():
    """the line of each datagram in the file, its bytes and its fields; frames count from 1, and `.` and -1 are this one and the one before"""
    found = []
    with open(os.path.join(HERE, "rows"), encoding="utf-8") as file:
        for at, line in enumerate(file, 1):
            line = line.rstrip("\n")
            if line.startswith("#") or not line:
                continue
            if line.split(" ")[0] in TOLD:
                datagram, told = datagram_of(line)
                found.append((at, datagram, list(told)))
                continue
            name, _, value = line.partition(" ")
            if name == "chunk.reassembled_in":
                value = str(len(found) + (0 if value == "." else int(value)))
            found[-1][2].append((name, value))
    return found
