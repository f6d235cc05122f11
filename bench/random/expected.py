#!/usr/bin/env python3
"""What the rows `random` and `random_chunks` of crates/cases_wire must answer, from the tables of OPC 10000-6 and 10000-14.

It reads rows on its input and writes each with its answer: `grep '^random' crates/cases_wire/stdin | bench/random/expected.py`.
Nothing here is shared with the crates: the readers take slices of bytes as they go, and stop at the first fault."""
import sys

MASK = (1 << 64) - 1


class Fault(Exception):
    """The first fault, by its name in the crates."""


class Numbers:
    """Xorshift with the shifts 13, 7 and 17."""

    def __init__(self, seed):
        self.state = seed

    def next(self):
        self.state ^= self.state << 13 & MASK
        self.state ^= self.state >> 7
        self.state ^= self.state << 17 & MASK
        return self.state

    def below(self, limit):
        return (self.next() >> 8) % limit

    def byte(self):
        number = self.next()
        anything, other = number >> 32 & 0xFF, number >> 40 & 0xFF
        return [0, anything & 0x0F, anything & other, anything][number >> 60 & 3]

    def bytes(self, longest):
        return bytes([self.byte() for _ in range(self.below(longest + 1))])


class Tally:
    """Counts of the answers by their first words, and FNV-1a of all of them."""

    def __init__(self):
        self.counts = {}
        self.checksum = 0x811C9DC5

    def add(self, answer):
        for byte in answer.encode() + b"\n":
            self.checksum = (self.checksum ^ byte) * 0x01000193 & 0xFFFFFFFF
        word = answer.split(" ")[0]
        name = word if word[:1].isalpha() and "=" not in word else "read"
        self.counts[name] = self.counts.get(name, 0) + 1

    def __str__(self):
        return "".join(f"{name} {count}, " for name, count in self.counts.items()) + f"checksum 0x{self.checksum:08x}"


class Reader:
    def __init__(self, data):
        self.data, self.at = data, 0

    def take(self, count):
        if len(self.data) - self.at < count:
            raise Fault("Short")
        self.at += count
        return self.data[self.at - count : self.at]

    def number(self, count, signed=False):
        return int.from_bytes(self.take(count), "little", signed=signed)

    def rest(self):
        return len(self.data) - self.at


def spaced(data):
    return data.hex(" ") or "-"


def digits(data):
    return data.hex() or "-"


def is_utf8(data):
    try:
        data.decode("utf-8")
    except UnicodeDecodeError:
        return False
    return True


# ---- headers (OPC 10000-14 7.2.4.4)


def publisher_id(reader, kind):
    if kind < 4:
        return f"u{8 << kind}:{reader.number(1 << kind)}"
    length = reader.number(4, signed=True)
    if length < -1:
        raise Fault("BadId")
    text = reader.take(max(length, 0))
    if not is_utf8(text):
        raise Fault("BadId")
    return "text:" + digits(text)


def reserved(flags):
    if flags & 0xF0:
        raise Fault("ReservedBits")
    return flags


def extended_flags2(reader, flags):
    second = reader.number(1)
    kind = second >> 2 & 7
    if kind in (1, 2):
        raise Fault("DiscoveryOut")
    if kind or second & 0xE0 or (second & 1 and not flags & 0x40):
        raise Fault("ReservedBits")
    return second


def security_header(reader):
    flags = reserved(reader.number(1))
    token = reader.number(4)
    nonce = reader.take(reader.number(1))
    if flags & 4:
        reader.take(2)
    names = "".join(name for bit, name in enumerate("sefr") if flags >> bit & 1) or "-"
    return f"security={names}:{token}:{digits(nonce)}"


def header(data):
    reader = Reader(data)
    flags = reader.number(1)
    if flags & 0x0F != 1:
        raise Fault(f"Version {{ got: {flags & 0x0F} }}")
    first = reader.number(1) if flags & 0x80 else 0
    if first & 7 > 4:
        raise Fault("BadPublisherType")
    second = extended_flags2(reader, flags) if first & 0x80 else 0
    words = []
    if flags & 0x10:
        words.append("id=" + publisher_id(reader, first & 7))
    if first & 0x08:
        words.append("class=" + reader.take(16).hex())
    if flags & 0x20:
        group = reserved(reader.number(1))
        for bit, (name, size) in enumerate([("group", 2), ("version", 4), ("number", 2), ("sequence", 2)]):
            if group >> bit & 1:
                words.append(f"{name}={reader.number(size)}")
    if flags & 0x40:
        words.append(f"ids=chunk:{reader.number(2)}" if second & 1 else "ids=list:" + digits(reader.take(2 * reader.number(1))))
    if first & 0x20:
        reader.take(8)
    if first & 0x40:
        reader.take(2)
    if second & 2:
        reader.take(reader.number(2))
    if first & 0x10:
        words.append(security_header(reader))
    return f"{' '.join(words) or '-'} end={reader.at}"


# ---- payloads and chunks (OPC 10000-14, the dynamic payload and the chunked NetworkMessage)


def split(count, data):
    if count == 1:
        return f"0-{len(data)}"
    try:
        reader = Reader(data)
        sizes = [reader.number(2) for _ in range(count)]
        parts = []
        for size in sizes:
            start = reader.at
            reader.take(size)
            parts.append(f"{start}-{reader.at}")
    except Fault:
        return "BadSizes"
    return ", ".join(parts) or "none"


def chunk(data):
    reader = Reader(data)
    number, offset, total = reader.number(2), reader.number(4), reader.number(4)
    length = reader.number(4, signed=True)
    if length < -1:
        raise Fault("BadLength")
    return f"{number} {offset} {total} {spaced(reader.take(max(length, 0)))}"


class Joiner:
    """The chunks of the current message as they came: its bytes are those of the last that has each."""

    def __init__(self):
        self.current, self.total, self.chunks = None, 0, []

    def bytes(self):
        found = {offset + i: byte for offset, part in self.chunks for i, byte in enumerate(part)}
        return bytes(found[i] for i in range(self.total)) if len(found) == self.total else None

    def chunk(self, number, offset, total, part):
        if not part or offset + len(part) > total:
            return f"badrange {offset} {total}"
        if total > 4096:
            return f"toolong {total}"
        if number == self.current:
            if self.bytes() is not None:
                return "older"
            if total != self.total:
                return f"differs {self.total} {total}"
        elif self.current is None or (65535 + number - self.current) % 65536 < 16384:
            self.current, self.total, self.chunks = number, total, []
        else:
            return "older"
        self.chunks.append((offset, part))
        return "part" if self.bytes() is None else f"whole {total}"

    def joined(self):
        return "joined " + spaced(self.bytes() or b"" if self.current is not None else b"")


def random_chunks(seed, count):
    numbers, tally, joiner = Numbers(seed), Tally(), Joiner()
    for index in range(count):
        number = (index // 16 + numbers.below(8) // 7) % 65536
        offset = numbers.below(5) * 8
        total = [32, 32, 32, 32, 32, 32, 24, 4097][numbers.below(8)]
        tally.add(joiner.chunk(number, offset, total, numbers.bytes(24)))
        tally.add(joiner.joined())
    return str(tally)


# ---- values (OPC 10000-6 5.2.2)

INTEGERS = {2: ("SByte", 1, True), 3: ("Byte", 1, False), 4: ("Int16", 2, True), 5: ("UInt16", 2, False), 6: ("Int32", 4, True),
            7: ("UInt32", 4, False), 8: ("Int64", 8, True), 9: ("UInt64", 8, False), 13: ("DateTime", 8, True)}
HEXADECIMALS = {10: ("Float", 4), 11: ("Double", 8), 19: ("StatusCode", 4)}


def block(reader):
    length = reader.number(4, signed=True)
    if length < -1 or length > 256:
        raise Fault("BadLength")
    return reader.take(max(length, 0))


def plain_value(reader, kind):
    """The value's text, and how many bytes a text or a blob has."""
    if kind in INTEGERS:
        name, size, signed = INTEGERS[kind]
        return f"{name} {reader.number(size, signed)}", 0
    if kind in HEXADECIMALS:
        name, size = HEXADECIMALS[kind]
        return f"{name} 0x{reader.number(size):0{2 * size}x}", 0
    if kind == 1:
        return f"Boolean {'true' if reader.number(1) else 'false'}", 0
    if kind == 14:
        return "Guid " + spaced(reader.take(16)), 0
    data = block(reader)
    if kind == 12 and not is_utf8(data):
        raise Fault("BadUtf8")
    return f"{'String' if kind == 12 else 'ByteString'} {spaced(data)}", len(data)


def variant(reader):
    kind = reader.number(1)
    if kind not in INTEGERS and kind not in HEXADECIMALS and kind not in (1, 12, 14, 15):
        raise Fault("KindOut")
    return kind, plain_value(reader, kind)


def data_value(reader):
    mask = reader.number(1)
    if mask & 0xC0:
        raise Fault("KindOut")
    value = variant(reader) if mask & 1 else None
    status = reader.number(4) if mask & 2 else 0
    for bit, size in ((0x04, 8), (0x10, 2), (0x08, 8), (0x20, 2)):
        if mask & bit:
            reader.take(size)
    return value, status


def read_variant(data):
    reader = Reader(data)
    return f"{variant(reader)[1][0]}, rest {reader.rest()}"


def read_data_value(data):
    reader = Reader(data)
    value, status = data_value(reader)
    return f"{value[1][0] if value else 'no value'}, status 0x{status:08x}, rest {reader.rest()}"


# ---- frames (OPC 10000-14, UADP DataSetMessage) of a dynamic layout


KINDS = {"Boolean": 1, "Guid": 14, "String": 12, "ByteString": 15}
KINDS |= {name: kind for kind, (name, *_) in (INTEGERS | HEXADECIMALS).items()}


class Meta:
    def __init__(self, word):
        version, *fields = word.split("/")
        self.quality = version.endswith("+quality")
        self.minor = int(version.split("+")[0].split(".")[1])
        words = [field.split(":") for field in fields]
        self.fields = [(KINDS[word[1]], int(word[2]) if len(word) > 2 else 0) for word in words]


def field_value(reader, encoding):
    try:
        value, status = data_value(reader) if encoding == 2 else (variant(reader), 0)
    except Fault as fault:
        raise Fault("BadValue" if str(fault) in ("BadUtf8", "BadLength") else str(fault))
    if value is None:
        raise Fault("BadValue")
    return value, status


def field_text(reader, encoding, meta, index):
    """The field's text, or None where the data set has no such field."""
    (kind, (text, size)), status = field_value(reader, encoding)
    if index >= len(meta.fields):
        return None
    if kind != meta.fields[index][0] or size > meta.fields[index][1]:
        raise Fault("BadValue")
    return f", {index}={text}" + (f" !0x{status:08x}" if meta.quality and status else "")


def frame_flags(reader):
    first = reader.number(1)
    encoding = first >> 1 & 3
    if not first & 1:
        raise Fault("NotValid")
    if encoding not in (0, 2):
        raise Fault("BadEncoding")
    second = reader.number(1) if first & 0x80 else 0
    if second & 15 == 2:
        raise Fault("EventOut")
    if second & 15 > 3 or second & 0xC0:
        raise Fault("ReservedBits")
    return first, second


def frame_fields(reader, encoding, kind, meta, newer):
    texts = {}
    count = reader.number(2)
    if kind == 0 and count != len(meta.fields) and not (newer and count > len(meta.fields)):
        raise Fault(f"WrongCount {{ got: {count} }}")
    for index in range(count):
        if kind == 1:
            index = reader.number(2)
            if index >= len(meta.fields) and not newer:
                raise Fault(f"BadIndex {{ got: {index} }}")
        texts[index] = field_text(reader, encoding, meta, index)
    return "".join(texts[index] for index in sorted(texts) if texts[index] is not None)


def frame(word, data):
    meta, reader = Meta(word), Reader(data)
    first, second = frame_flags(reader)
    text = {0: "whole", 1: "change", 3: "alive"}[second & 15]
    number = reader.number(2) if first & 8 else None
    for is_there, size in ((second & 0x10, 8), (second & 0x20, 2), (first & 0x10, 2)):
        if is_there:
            reader.take(size)
    major = reader.number(4) if first & 0x20 else None
    minor = reader.number(4) if first & 0x40 else None
    for name, value in ((" ", number), (" major ", major), (" minor ", minor)):
        text += "" if value is None else f"{name}{value}"
    if second & 15 != 3:
        newer = minor is not None and minor > meta.minor
        text += frame_fields(reader, first >> 1 & 3, second & 15, meta, newer)
    if any(reader.take(reader.rest())):
        raise Fault("Trailing")
    return text


# ---- rows as RawData (OPC 10000-14, field encoding RawData)


def raw_value(reader, kind, cap):
    if kind not in (12, 15):
        return plain_value(reader, kind)[0]
    length = reader.number(4, signed=True)
    if length < -1 or length > cap:
        raise Fault("BadLength")
    data = reader.take(max(length, 0))
    if kind == 12 and not is_utf8(data):
        raise Fault("BadUtf8")
    reader.take(cap - len(data))
    return f"{'String' if kind == 12 else 'ByteString'} {spaced(data)}"


def raw_row(word, data):
    reader = Reader(data)
    fields = [raw_value(reader, kind, cap) for kind, cap in Meta(word).fields]
    return "row" + "".join(f", {index}={text}" for index, text in enumerate(fields)) + f", rest {reader.rest()}"


# ---- rows of cases


def answered(call, words, data):
    try:
        if call == "split":
            return split(int(words[0]), bytes.fromhex("".join(words[1:])) + data)
        of_meta = {"read_frame": frame, "read_raw": raw_row}
        front = bytes.fromhex("".join(words[1:] if call in of_meta else words))
        if call in of_meta:
            return of_meta[call](words[0], front + data)
        return {"read_header": header, "read_chunk": chunk, "read_variant": read_variant, "read_data_value": read_data_value}[call](front + data)
    except Fault as fault:
        return str(fault)


def random(seed, count, longest, call, words):
    numbers, tally = Numbers(seed), Tally()
    for _ in range(count):
        tally.add(answered(call, words, numbers.bytes(longest)))
    return str(tally)


def main():
    for line in sys.stdin:
        words = line.split()
        if words[0] == "random_chunks":
            answer = random_chunks(int(words[1]), int(words[2]))
        else:
            answer = random(int(words[1]), int(words[2]), int(words[3]), words[4], words[5:])
        print(f"{line.rstrip()} -> {answer}")


if __name__ == "__main__":
    main()
