#!/usr/bin/env python3
"""The cases of crates/cases_json that are datagrams, behind those of cases.py.

usage: tap_cases.py     (prints the end of crates/cases_json/stdin)"""
import random, struct
from tap import groups, Tap, CONFIGURATIONS

DEMO = groups.Config(CONFIGURATIONS["built-in"]).sets[0]
WIDE, FLAG = groups.Config(CONFIGURATIONS["many"]).sets
U8, TEXT = ("u8", 5), ("text", b"pump-7")


def payload(frames):
    return (b"".join(struct.pack("<H", len(f)) for f in frames) if len(frames) > 1 else b"") + b"".join(frames)


def datagram(publisher, parts, **other):
    header = dict(class_id=None, group=1, version=0, message_number=None, sequence=None, ids=[w for w, _ in parts], chunk=None, security=None)
    header.update(other)
    return groups.write_header(publisher, **header) + payload([f for _, f in parts])


def demo(number, *values):
    return groups.write_frame(DEMO, ("Whole", number, [(v, 0) for v in values]), False)


def case(name, *datagrams):
    print("datagrams", name, *[d if isinstance(d, str) else d.hex() for d in datagrams])


def note(text): print("# " + text)


first = demo(0, 0, 0, 0, 0)
second = demo(1, 7, 0, 0, 0)
note("the two datagrams of the built-in configuration's first run, where a=7 was written before the first tick; the first is known from outside")
run = [datagram(U8, [(1, demo(k, 7, 0, 0, 0))], sequence=k) for k in (0, 1)]
assert run[0].hex(" ") == "71 05 09 01 00 00 00 01 01 00 09 00 00 04 00 07 07 00 00 00 07 00 00 00 00 07 00 00 00 00 07 00 00 00 00"
case("built-in", *run)
note("key frames of two rows")
case("built-in", datagram(U8, [(1, first)]), datagram(U8, [(1, second)]))
note("one that isn't sent gives nothing, and takes no number")
case("built-in", datagram(U8, [(1, first)]), "!" + datagram(U8, [(1, second)]).hex(), datagram(U8, [(1, second)]))
note("a delta, also of nothing, and a keep-alive")
case("built-in", datagram(U8, [(1, groups.write_frame(DEMO, ("Change", 2, [(1, 9, 0), (3, 4294967295, 0)]), False))]),
     datagram(U8, [(1, groups.write_frame(DEMO, ("Change", 3, []), False))]),
     datagram(U8, [(1, groups.write_frame(DEMO, ("Alive", 4, None), False))]))
note("two writers, statuses, versions")
wide = groups.write_frame(WIDE, ("Whole", 65535, [(-32768, 0), ("é\"\\".encode(), 0x80000000)]), True)
on = groups.write_frame(FLAG, ("Whole", 0, [(True, 0)]), False)
case("many", datagram(TEXT, [(1, wide), (258, on)], sequence=7, message_number=3), datagram(TEXT, [(258, on), (258, on), (1, wide)]))
note("a data set that has grown: the fields of the configuration, with the grown minor version; a delta of appended fields alone is empty")
grown = dict(WIDE, minor=5, fields=WIDE["fields"] + [dict(kind="Double", cap=0)])
case("many", datagram(TEXT, [(1, groups.write_frame(grown, ("Whole", 8, [(1, 0), (b"x", 0), (0x3ff0000000000000, 0)]), True))]),
     datagram(TEXT, [(1, groups.write_frame(grown, ("Change", 9, [(2, 0, 0)]), True))]),
     datagram(TEXT, [(1, groups.write_frame(dict(grown, minor=2), ("Change", 9, [(2, 0, 0)]), True))]))
note("skipped: secured, a chunk, no payload header, another writer, no number, one version alone, sizes past the end, a frame cut short")
case("built-in", datagram(U8, [(1, first)], security=(True, False, 1, bytes(8))) + bytes(32), datagram(U8, [], ids=None, chunk=1) + bytes(12) + first,
     datagram(U8, [], ids=None) + first, datagram(U8, [(2, first)]), datagram(U8, [(1, bytes([1]) + first[3:])]),
     datagram(U8, [(1, bytes([1 | 8 | 32, 0, 0, 1, 0, 0, 0]) + first[3:])]), datagram(U8, [(1, first), (1, second)])[:-1], datagram(U8, [(1, first[:-1])]))
note("no list of ids at all, an empty one, one bad frame among good ones, padding behind a frame, bytes that are no header")
case("built-in", datagram(U8, [], ids=None), datagram(U8, []), datagram(U8, [(1, first), (1, first[:-1]), (1, second)]),
     datagram(U8, [(1, first)]) + bytes(5), datagram(U8, [(1, first)]) + b"\x01", b"", b"\x70", bytes(40))
note("publishers: numbers of each size, texts of 0, 256 and 257 bytes, none")
for publisher in (("u8", 255), ("u16", 65535), ("u32", 4294967295), ("u64", 18446744073709551615), ("text", b""), ("text", b"a" * 256), ("text", b"a" * 257), ("text", "µ".encode())):
    case("built-in", datagram(publisher, [(1, first)]))
whole = datagram(U8, [(1, first)])
case("built-in", bytes([whole[0] & ~0x10]) + whole[2:])
note("no case")
print("datagrams other 71")
print("datagrams built-in 7x")
note("by chance: each byte of a good datagram may be another")
chance = random.Random(2024)
good = [datagram(TEXT, [(1, wide), (258, on)]), datagram(TEXT, [(258, on)], sequence=1), datagram(TEXT, [(1, wide)])]
for _ in range(60):
    made = []
    for _ in range(8):
        d = bytearray(chance.choice(good))
        for _ in range(chance.choice((0, 1, 1, 2))): d[chance.randrange(len(d))] = chance.choice((0, 1, 2, 3, 8, 9, 12, chance.randrange(256)))
        if chance.random() < 0.1: d = d[:chance.randrange(len(d))]
        made.append(bytes(d))
    case("many", *made)
