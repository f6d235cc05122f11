"""The lines of the table, for a program that plays them through a subscriber and a publisher. Numbers are decimal, values and
datagrams hexadecimal; groups, readers, data sets and fields count from 0; moments are in milliseconds.

    subscriber FILE                      a subscriber of the configuration; the one before is closed
    publisher FILE                       a publisher
    take GROUP MOMENT HEX ANSWER         a datagram comes: `taken PARTS MATCHED BAD`, or the status of C that refuses it
    expire MOMENT                        timers are looked at
    holds GROUP READER VALUE ..          the row, a value for each field: KIND=BYTES, as on the wire without a length, !STATUS after it
    waits GROUP READER WHY               there is no row, and why
    noted GROUP READER FAULT BAD MAJOR OTHERS UNNUMBERED OLDER
                                         why the last part that couldn't be read couldn't, and how many there were: a fault of docs/WIRE.md with
                                         what it got, as WrongCount:2, BadRange:150/390; `any`: this isn't told; `-`: there was none. Then the
                                         last other major version, or `-`, and how many messages were passed over for another major version,
                                         without a number, and for an older one
    refused GROUP COUNT STATUS ..        how many datagrams were refused, and why the last one was. Of NOT_OURS: the type and the id of its
                                         PublisherId (of a String no id), its WriterGroupId, GroupVersion and NetworkMessageNumber, `-` where it
                                         had none. Of UNKNOWN_TOKEN and OLD_TOKEN: the token
    number GROUP NUMBER                  from here on the read group takes datagrams with this NetworkMessageNumber alone, 0: any
    set SET FIELD VALUE                  a field of the publisher has this value
    sends MOMENT HEX                     the next datagram that the publisher gives at the moment; `none` where no other is due
    pull SIDE INDEX MOMENT POLICY COUNT URI FIRST NEXT LIFETIME KEY ..   an answer of GetSecurityKeys: so many key sets are made of it
                                         for a key group of the policy, of which, where there are some, the key group of the publisher
                                         or the read group of the subscriber is renewed

A line that begins with `#` is a comment: `##` a part, `#` what the next datagram is."""
import struct

from uadp import STRING, Value


class Reader:
    """What is expected of a reader: its row, or why it waits, and what was noted of its parts."""

    def __init__(self):
        self.row, self.why = None, "start"
        self.fault, self.bad, self.major, self.passed = None, 0, None, dict(major=0, unnumbered=0, older=0)

    def is_given(self, datagram, fault, passed):
        if fault:
            self.fault, self.bad = fault, self.bad + 1
        if passed:
            self.passed[passed] += 1
        if passed == "major":
            self.major = datagram.messages[0].major

    def lines(self, group, reader):
        yield f"waits {group} {reader} {self.why}" if self.row is None else " ".join(["holds", str(group), str(reader), *map(shown, self.row)])
        counts = self.passed
        yield (f"noted {group} {reader} {self.fault or '-'} {self.bad} {or_none(self.major)} {counts['major']} {counts['unnumbered']} "
               f"{counts['older']}")


def or_none(it):
    return "-" if it is None else str(it)


ID_TYPES = ["Byte", "UInt16", "UInt32", "UInt64", "String"]


def got(it, answer):
    """What is told of a datagram that was refused."""
    if answer in ("UNKNOWN_TOKEN", "OLD_TOKEN"):
        return [str(token_of(it))]
    if answer != "NOT_OURS":
        return []
    publisher = "-" if it.publisher is None else f"{ID_TYPES[it.publisher[0]]}:{'-' if it.publisher[0] == STRING else it.publisher[1]}"
    parts = [it.group, it.group_version, it.number] if it.group_header else [None] * 3
    return [publisher, *map(or_none, parts)]


def token_of(it):
    """Of a datagram, or of bytes of the tutorial publisher with keys, whose token begins at byte 11."""
    return struct.unpack_from("<I", it, 11)[0] if isinstance(it, bytes) else it.security.keys.token


def shown(it):
    value, status = it if isinstance(it, tuple) else (it, 0)
    content = (value.content or b"") if value.kind in ("String", "ByteString") else value.bytes()
    return f"{value.kind}={content.hex()}" + (f"!{status:08x}" if status else "")


class Table:
    def __init__(self):
        self.lines, self.now, self.readers, self.refused, self.datagrams, self.cases = [], 0, {}, {}, 0, 0

    def part(self, text):
        self.lines += ["", f"## {text}"]

    def subscriber(self, file, *readers):
        """`readers`: how many readers each read group of the configuration has."""
        self.now, self.refused = 0, {}
        self.readers = {(group, reader): Reader() for group, count in enumerate(readers) for reader in range(count)}
        self.lines.append(f"subscriber {file}")

    def publisher(self, file):
        self.lines.append(f"publisher {file}")

    def case(self, text):
        self.cases += 1
        self.lines.append(f"# {text}")

    def take(self, datagram, answer, group=0, later=10, rows=None, waits=None, faults=None, passed=None):
        """A datagram comes. `rows` has what readers of the group hold then, `waits` why they hold none, `faults` why they couldn't read
        their parts, `passed` why they passed over their messages; the others stay."""
        self.now += later
        self.datagrams += 1
        data = datagram if isinstance(datagram, bytes) else datagram.bytes()
        self.lines.append(f"take {group} {self.now} {data.hex() or '-'} {answer}")
        for reader, row in (rows or {}).items():
            self.readers[group, reader].row = row
        for reader in {**(faults or {}), **(passed or {})}:
            self.readers[group, reader].is_given(datagram, (faults or {}).get(reader), (passed or {}).get(reader))
        self.now_waits(group, waits)
        self.state(group)
        if not answer.startswith("taken"):
            self.refused[group] = self.refused.get(group, 0) + 1
            self.lines.append(" ".join(["refused", str(group), str(self.refused[group]), answer, *got(datagram, answer)]))

    def now_waits(self, group, waits):
        for reader, why in (waits or {}).items():
            self.readers[group, reader].row, self.readers[group, reader].why = None, why

    def state(self, group):
        self.lines += [line for place, reader in self.readers.items() if place[0] == group for line in reader.lines(*place)]

    def expire(self, later, group=0, waits=None):
        self.now += later
        self.lines.append(f"expire {self.now}")
        self.now_waits(group, waits)
        self.state(group)

    def holds(self, text, datagram, *row, group=0, reader=0, **more):
        """A datagram of one message, whose row the reader then holds."""
        self.case(text)
        self.take(datagram, "taken 1 1 0", group, rows={reader: list(row)}, **more)

    def stays(self, text, datagram, answer="taken 1 1 0", passed=None, **more):
        """A datagram that changes no row: refused, or of one message, which is passed over or brings nothing."""
        self.case(text)
        self.take(datagram, answer, passed={0: passed} if passed else None, **more)

    def bad(self, text, datagram, fault, **more):
        """A datagram of one message, which the first reader of the group can't read."""
        self.stays(text, datagram, "taken 1 1 1", faults={0: fault}, **more)

    def pull(self, side, index, moment, policy, count, uri, first, next, lifetime, keys):
        self.lines.append(f"pull {side} {index} {moment} {policy} {count} {uri} {first} {next} {lifetime}" + "".join(f" {it.hex() or '-'}" for it in keys))

    def number(self, group, number):
        self.lines.append(f"number {group} {number}")

    def set(self, data_set, field, value):
        self.lines.append(f"set {data_set} {field} {shown(value)}")

    def sends(self, moment, *datagrams):
        self.datagrams += len(datagrams)
        self.lines += [f"sends {moment} {it.bytes().hex()}" for it in datagrams] + [f"sends {moment} none"]
