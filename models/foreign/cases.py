#!/usr/bin/env python3
"""Datagrams that publishers of other makers send, spelled from the tables of OPC 10000-14 and OPC 10000-6 alone, and what a subscriber
of this repository makes of them by the tables of docs/WIRE.md; and datagrams of its publishers, spelled the same way. It knows nothing
of the crates. None of the named software was run: what it sends by default is told from memory of its public sources.

usage: cases.py            the table, as models/foreign/table has it; table.py has its form
       cases.py masks      the rows of docs/CONFIGURATION.md that tell the content masks of what is published
       cases.py count      how many datagrams and cases there are"""
import struct, sys, uuid
from table import Table
from uadp import (BAD, BAD_COMMUNICATION, BYTE, DATA_VALUE, DELTA, EVENT, KEEP_ALIVE, RAW, RESERVED, STRING, UINT16, UINT32, UINT64,
                  UNCERTAIN, VARIANT, Keys, Message, Network, Security, Value, array, bit, data_value, of_raw, variant)

STAMP = 134_116_128_000_000_000      # 2025-12-31 as a DateTime, in steps of 100 ns since 1601


def date_time(seconds):
    return Value("DateTime", STAMP + seconds * 10_000_000)


def u32(number):
    return Value("UInt32", number)


# ---------------------------------------------------------------- the tutorial publisher

def clock(seconds, **more):
    """A key frame of the tutorial's one field, with a time stamp and the version of its data set."""
    parts = dict(fields=[variant(date_time(seconds))], timestamp=STAMP, major=3, minor=1)
    return Message(**{**parts, **more})


def tutorial(*messages, **more):
    parts = dict(publisher=(UINT16, 2234), group=100, writers=[62541], messages=list(messages))
    return Network(**{**parts, **more})


def tutorial_plain(t):
    t.part("The tutorial publisher of open62541: no numbers, a time stamp and versions in each message")
    t.subscriber("examples/foreign/tutorial.toml", 1)
    t.holds("key frame with time stamp and versions", tutorial(clock(1)), date_time(1))
    t.holds("the next one", tutorial(clock(2)), date_time(2))
    t.holds("the same one again, since nothing tells them apart", tutorial(clock(2)), date_time(2))
    t.holds("an earlier one that comes late", tutorial(clock(1)), date_time(1))
    t.holds("key frame with neither", tutorial(clock(3, timestamp=None, major=None, minor=None)), date_time(3))
    t.holds("with a major version alone", tutorial(clock(4, timestamp=None, minor=None)), date_time(4))
    t.holds("with a minor version alone", tutorial(clock(5, timestamp=None, major=None)), date_time(5))
    t.holds("with time stamp, picoseconds and status", tutorial(clock(6, picoseconds=500, status=0)), date_time(6))
    t.holds("with a status of the message that is Bad, which is read past", tutorial(clock(7, status=BAD >> 16)), date_time(7))
    t.holds("with a number, which isn't looked at", tutorial(clock(8, sequence=9)), date_time(8))
    t.holds("of a lower minor version", tutorial(clock(9, minor=0)), date_time(9))
    t.holds("of a greater minor version, with a field more", tutorial(clock(10, minor=2, fields=[variant(date_time(10)), variant(u32(5))])),
            date_time(10))
    t.bad("a field more, and the same minor version", tutorial(clock(11, fields=[variant(date_time(11)), variant(u32(5))])), "WrongCount:2")
    t.bad("no field, and a greater minor version", tutorial(clock(11, minor=2, fields=[])), "WrongCount:0")
    t.bad("a count of two with one field, and a greater minor version", tutorial(clock(11, minor=2, count=2)), "Short")
    t.holds("DataValue with its source time", tutorial(clock(12, encoding=DATA_VALUE, fields=[data_value(date_time(12), source=STAMP)])),
            date_time(12))
    t.holds("DataValue with all six parts, its status Bad: this data set has no quality", tutorial(clock(13, encoding=DATA_VALUE, fields=[
        data_value(date_time(13), BAD, STAMP, 1, STAMP, 2)])), date_time(13))
    t.holds("zeros after the message", tutorial(clock(14, more=bytes(6))), date_time(14))
    t.bad("another byte after the message", tutorial(clock(15, more=b"\x00\x01")), "Trailing")
    t.stays("delta frame: without numbers nobody can tell whether one is missing",
            tutorial(clock(16, kind=DELTA, indexes=[0])), passed="unnumbered")
    t.stays("keep-alive", tutorial(clock(16, kind=KEEP_ALIVE)))


def tutorial_versions(t):
    t.part("Another major version, and one that is made of the moment of a start")
    t.subscriber("examples/foreign/tutorial.toml", 1)
    t.holds("the major version that is asked for", tutorial(clock(19)), date_time(19))
    t.stays("major version 4", tutorial(clock(20, major=4)), passed="major")
    t.stays("a keep-alive of major version 4", tutorial(clock(20, major=4, kind=KEEP_ALIVE)), passed="major")
    t.stays("the major version is the start's seconds since 2000", tutorial(clock(20, major=815_702_400, minor=815_702_400)),
            passed="major")
    t.stays("and a later one, of the next start", tutorial(clock(20, major=815_702_460, minor=815_702_460)), passed="major")
    t.subscriber("models/foreign/tutorial-restarted.toml", 1)
    t.holds("which is read where `major` is set to it", tutorial(clock(21, major=815_702_400, minor=815_702_400)), date_time(21))
    t.stays("and the version before isn't", tutorial(clock(22)), passed="major")


def tutorial_fields(t):
    t.part("Fields that a data set of one DateTime can't have")
    t.subscriber("examples/foreign/tutorial.toml", 1)
    t.holds("a value", tutorial(clock(1)), date_time(1))
    for text, field, fault in [
            ("a StatusCode in the value's place, as the standard has a Bad field", variant(Value("StatusCode", BAD)), "BadValue"),
            ("a null Variant", variant(None), "KindOut"), ("an Int64", variant(Value("Int64", 5)), "BadValue"),
            ("an array of DateTimes", array([date_time(1), date_time(2)]), "KindOut"),
            ("a LocalizedText", variant(Value("LocalizedText", b"noon")), "KindOut"),
            ("a type that the standard reserves, 26", b"\x1a\x00", "KindOut"),
            ("a DateTime that ends early", variant(date_time(2))[:-1], "Short")]:
        t.bad(text, tutorial(clock(2, fields=[field])), fault)
    for text, field, fault in [("DataValue without a value, whose status is Bad", data_value(None, BAD), "BadValue"),
                               ("DataValue of a null Variant", b"\x01" + variant(None), "KindOut"),
                               ("DataValue of nothing", data_value(None), "BadValue"),
                               ("DataValue of an Int32, of status Good", data_value(Value("Int32", 1), 0), "BadValue"),
                               ("DataValue with a reserved bit of its mask", b"\x41" + variant(date_time(2)), "KindOut")]:
        t.bad(text, tutorial(clock(2, encoding=DATA_VALUE, fields=[field])), fault)
    t.bad("RawData after a payload header", tutorial(clock(2, encoding=RAW, fields=[date_time(2).raw()])), "BadEncoding")
    t.bad("a delta frame of RawData", tutorial(clock(2, encoding=RAW, kind=DELTA, indexes=[0], fields=[date_time(2).raw()])), "BadEncoding")
    t.bad("an event message", tutorial(clock(2, kind=EVENT)), "EventOut")
    t.bad("the field encoding that is reserved", tutorial(clock(2, encoding=RESERVED)), "BadEncoding")
    t.bad("a kind of message that is reserved, 4", tutorial(clock(2, kind=4)), "ReservedBits")
    t.bad("a bit of DataSetFlags2 that is reserved", tutorial(clock(2, flags2=0x40)), "ReservedBits")
    t.bad("a message that says that it isn't valid", tutorial(clock(2, valid=False)), "NotValid")
    t.bad("an index past the fields, in a delta frame", tutorial(clock(2, kind=DELTA, indexes=[1])), "BadIndex:1")
    t.holds("a value again", tutorial(clock(3)), date_time(3))
    t.case("990 ms later it is still held")
    t.expire(990)
    t.bad("a StatusCode in the value's place begins no new timeout", tutorial(clock(4, fields=[variant(Value("StatusCode", BAD))])), "BadValue")
    t.case("so the row goes")
    t.expire(0, waits={0: "timeout"})


def tutorial_messages(t):
    t.part("Headers of the tutorial publisher")
    t.subscriber("examples/foreign/tutorial.toml", 1)
    t.case("two writers, ours first")
    other = Message([variant(u32(7))])
    t.take(tutorial(clock(1), other, writers=[62541, 62542]), "taken 2 1 0", rows={0: [date_time(1)]})
    t.case("two writers, ours last")
    t.take(tutorial(other, clock(2), writers=[62542, 62541]), "taken 2 1 0", rows={0: [date_time(2)]})
    t.case("another writer alone")
    t.take(tutorial(other, writers=[62542]), "taken 1 0 0")
    t.case("our writer twice: the later one holds")
    t.take(tutorial(clock(3), clock(4), writers=[62541, 62541]), "taken 2 2 0", rows={0: [date_time(4)]})
    t.stays("no writer", tutorial(writers=[]), "taken 0 0 0")
    t.stays("sizes that pass the end", tutorial(clock(5), other, writers=[62541, 62542], sizes=[200, 3]), "SIZES")
    t.stays("no room for the sizes", tutorial(b"\x01", writers=[62541, 62542], sizes=[]), "SIZES")
    t.stays("no payload header", tutorial(clock(5), writers=None), "NO_IDS")
    t.holds("a time stamp of the NetworkMessage", tutorial(clock(6), timestamp=STAMP), date_time(6))
    t.holds("a time stamp and picoseconds", tutorial(clock(7), timestamp=STAMP, picoseconds=3), date_time(7))
    t.holds("promoted fields", tutorial(clock(8), promoted=[variant(u32(7))]), date_time(8))
    t.holds("a class id, where none is asked for", tutorial(clock(9), class_id=bytes(range(16))), date_time(9))
    t.holds("version, number and SequenceNumber of the group", tutorial(clock(10), group_version=4, number=1, sequence=5), date_time(10))
    t.holds("the same SequenceNumber of the group again, which isn't looked at", tutorial(clock(11), sequence=5), date_time(11))
    for text, datagram in [("another group", tutorial(clock(12), group=101)), ("no GroupHeader", tutorial(clock(12), group_header=False)),
                           ("a GroupHeader without WriterGroupId", tutorial(clock(12), group=None)),
                           ("another publisher", tutorial(clock(12), publisher=(UINT16, 2235))),
                           ("the same id as a UInt32", tutorial(clock(12), publisher=(UINT32, 2234))),
                           ("the same id as a UInt64", tutorial(clock(12), publisher=(UINT64, 2234))),
                           ("the id as a text", tutorial(clock(12), publisher=(STRING, b"2234"))),
                           ("no PublisherId", tutorial(clock(12), publisher=None))]:
        t.stays(text, datagram, "NOT_OURS")
    t.stays("a discovery probe", Network(group_header=False, message_type=1), "DISCOVERY")
    t.stays("a discovery announcement of this publisher", tutorial(message_type=2, messages=[bytes(4)]), "DISCOVERY")
    t.stays("UADP version 2", tutorial(clock(12), version=2), "VERSION")
    t.stays("a type of the PublisherId that is reserved", bytes.fromhex("b105ba08016400"), "PUBLISHER_TYPE")
    t.stays("a bit of GroupFlags that is reserved", tutorial(clock(12), more_group_flags=0x10), "RESERVED")
    t.stays("a bit of ExtendedFlags2 that is reserved", tutorial(clock(12), more_flags2=0x20), "RESERVED")
    t.stays("a type of message that is reserved, 3", tutorial(clock(12), message_type=3), "RESERVED")
    t.stays("a JSON message", b'{"MessageId":"1","MessageType":"ua-data"}', "VERSION")
    truncated(t, tutorial(clock(13)))


def truncated(t, datagram):
    """All beginnings of a datagram of one message."""
    whole, header = datagram.bytes(), len(datagram.front())
    for length in range(len(whole)):
        if length < header:
            t.stays(f"the first {length} bytes", whole[:length], "HEADER_SHORT")
        else:
            t.bad(f"the first {length} bytes", whole[:length], "Short")


# ---------------------------------------------------------------- the tutorial publisher with keys

ZERO_KEYS = Keys(1, bytes(32), bytes(16), bytes(4))


def secured(number, seconds, keys=ZERO_KEYS, **more):
    """Each datagram draws four bytes of its nonce anew, and counts the others."""
    random = struct.pack(">I", 0x9e3779b9 * (number + seconds + 1) & 0xffffffff)
    return tutorial(clock(seconds), security=Security(keys, random, number, **more))


def tutorial_encrypted(t):
    t.part("The tutorial publisher with keys: PubSub-Aes128-CTR under zero keys, the first block's number 1")
    t.subscriber("examples/foreign/tutorial-encrypted.toml", 1)
    for number in range(1, 5):
        t.holds(f"the number {number}", secured(number, number), date_time(number))
    t.stays("the number 4 again", secured(4, 4), "REPEATED")
    t.stays("the number 4 again, of another message", secured(4, 5), "REPEATED")
    t.holds("the number 7", secured(7, 7), date_time(7))
    t.holds("the number 6 after it: without numbers of messages an older row is held", secured(6, 6), date_time(6))
    t.holds("the number 0", secured(0, 8), date_time(8))
    t.holds("the number 1030", secured(1030, 9), date_time(9))
    t.stays("the number 6 again is too old", secured(6, 6), "TOO_OLD")
    t.stays("the number 5, which never came, is too old", secured(5, 5), "TOO_OLD")
    t.holds("the number 1029", secured(1029, 10), date_time(10))
    t.stays("token 2", secured(1031, 11, Keys(2, bytes(32), bytes(16), bytes(4))), "UNKNOWN_TOKEN")
    t.stays("other signing keys", secured(1031, 11, Keys(1, b"\x01" + bytes(31), bytes(16), bytes(4))), "SIGNATURE")
    t.bad("other encrypting keys: the signature is right, and the message can't be read", secured(1031, 11, Keys(1, bytes(32), b"\x01" + bytes(15),
                                                                                                               bytes(4))), "any")
    t.bad("the first block's number 0", secured(1032, 12, first_block=0), "any")
    t.bad("and again", secured(1033, 13, first_block=0), "any")
    t.stays("neither signed nor encrypted", tutorial(clock(14)), "MODE")
    t.stays("signed alone", secured(1034, 14, encrypted=False), "MODE")
    t.stays("encrypted alone", secured(1034, 14, signed=False), "MODE")
    t.stays("a security header that says neither", secured(1034, 14, signed=False, encrypted=False), "MODE")
    t.stays("a footer", secured(1034, 14, footer=bytes(4)), "FOOTER")
    t.stays("a footer of no bytes", secured(1034, 14, footer=b""), "FOOTER")
    t.stays("force key reset", secured(1034, 14, reset=True), "KEY_RESET")
    t.stays("a nonce of 12 bytes", secured(1034, 14, message_nonce=bytes(12)), "NONCE")
    t.stays("no nonce", secured(1034, 14, message_nonce=b""), "NONCE")
    t.stays("a bit of SecurityFlags that is reserved", secured(1034, 14, more_flags=0x10), "RESERVED")
    whole = secured(1034, 14).bytes()
    for length in range(0, len(whole), 3):
        answer = "HEADER_SHORT" if length < 24 else "NO_SIGNATURE" if length < 56 else "SIGNATURE"
        t.stays(f"the first {length} bytes", whole[:length], answer)
    for at, answer in [(8, "SIGNATURE"), (12, "UNKNOWN_TOKEN"), (16, "SIGNATURE"), (20, "SIGNATURE"), (24, "SIGNATURE"), (84, "SIGNATURE")]:
        t.stays(f"a bit of byte {at} turned", whole[:at] + bytes([whole[at] ^ 0x40]) + whole[at + 1:], answer)
    t.holds("the number 1034 as it was sent", whole, date_time(14))


def tutorial_restart(t):
    t.part("A peer that restarts under its token, whose numbers begin at 1 again")
    t.subscriber("examples/foreign/tutorial-encrypted.toml", 1)
    for number in range(1, 4):
        t.holds(f"the number {number}", secured(number, number), date_time(number))
    t.stays("after the restart the number 1", secured(1, 60), "REPEATED")
    t.stays("and 3", secured(3, 62), "REPEATED")
    t.holds("and 4, which is new", secured(4, 63), date_time(63))
    t.holds("the number 5000", secured(5000, 100), date_time(100))
    t.stays("after a later restart the number 1", secured(1, 160), "TOO_OLD")
    t.case("and after the timeout still")
    t.expire(1000, waits={0: "timeout"})
    t.stays("the number 2", secured(2, 161), "TOO_OLD")
    t.subscriber("examples/foreign/tutorial-encrypted.toml", 1)
    t.holds("a subscriber that is opened anew takes it", secured(3, 162), date_time(162))


# ---------------------------------------------------------------- RawData after a payload header

def simple(toggle, first, second, seconds):
    return [Value("Boolean", toggle), Value("Int32", first), Value("Int32", second), date_time(seconds)]


def all_types(number):
    return [Value("Boolean", True), Value("Byte", number), Value("Int16", -number), Value("Int32", -number), Value("SByte", -number),
            Value("UInt16", number), Value("UInt32", number), Value("Float", number / 4), Value("Double", number / 8)]


def raw_message(row, sequence, **more):
    parts = dict(fields=[it.raw() for it in row], encoding=RAW, sequence=sequence, status=0, configured=32)
    return Message(**{**parts, **more})


def net(sequence, *messages, **more):
    parts = dict(publisher=(UINT16, 1), group=1, group_version=0, number=1, sequence=sequence, writers=[1, 2], messages=list(messages))
    return Network(**{**parts, **more})


def both(number, **more):
    return net(number, raw_message(simple(True, number, 100 * number, number), number), raw_message(all_types(number), number), **more)


def net_rows(number):
    return {0: simple(True, number, 100 * number, number), 1: all_types(number)}


def net_default(t):
    t.part("The .NET reference publisher's default: RawData after a payload header, each message padded to 32 bytes")
    t.subscriber("examples/foreign/net.toml", 2)
    for number in range(1, 5):
        t.case(f"a datagram with both messages, number {number}")
        t.take(both(number), "taken 2 2 0", rows=net_rows(number))
    t.case("a number was lost: the next key frame holds at once")
    t.take(both(6), "taken 2 2 0", rows=net_rows(6))
    t.case("the number 5 comes late, and is passed over")
    t.take(both(5), "taken 2 2 0", passed={0: "older", 1: "older"})
    t.case("the same number again")
    t.take(both(6), "taken 2 2 0", passed={0: "older", 1: "older"})
    t.case("statuses of both messages are Bad, and read past")
    t.take(net(7, raw_message(simple(False, 7, 7, 7), 7, status=BAD >> 16), raw_message(all_types(7), 7, status=BAD >> 16)), "taken 2 2 0",
           rows={0: simple(False, 7, 7, 7), 1: all_types(7)})
    t.case("another GroupVersion, where none is asked for")
    t.take(both(8, group_version=815_702_400), "taken 2 2 0", rows=net_rows(8))
    net_refused(t)


def net_refused(t):
    t.case("the first message alone: the header is shorter, and no slot is whole")
    t.take(net(9, raw_message(simple(True, 9, 9, 9), 9), writers=[1]), "taken 2 2 2", faults={0: "Missing", 1: "Missing"})
    t.case("three messages: the header is longer, and both slots begin amidst others")
    third = raw_message(all_types(9), 9)
    t.take(net(9, raw_message(simple(True, 9, 9, 9), 9), third, third, writers=[1, 2, 3]), "taken 2 2 2",
           faults={0: "NotValid", 1: "NotValid"})
    t.case("the writers in the other order: the first slot's message has bytes too many, and the second one's are held as another row")
    mistaken = of_raw([it.kind for it in all_types(9)], b"".join(it.raw() for it in simple(True, 9, 9, 9)) + bytes(10))
    t.take(net(9, raw_message(all_types(9), 9), raw_message(simple(True, 9, 9, 9), 9), writers=[2, 1]), "taken 2 2 1", rows={1: mistaken},
           faults={0: "Trailing"})
    t.case("the second message isn't valid")
    t.take(net(9, raw_message(simple(True, 9, 9, 9), 9), raw_message(all_types(9), 9, valid=False)), "taken 2 2 1",
           rows={0: simple(True, 9, 9, 9)}, faults={1: "NotValid"})
    t.case("a keep-alive of the second writer, with the number that comes next")
    t.take(net(10, raw_message(simple(True, 10, 10, 10), 10), Message(kind=KEEP_ALIVE, sequence=10, status=0, configured=32)), "taken 2 2 0",
           rows={0: simple(True, 10, 10, 10)})
    t.case("a delta frame of RawData in the first slot")
    t.take(net(11, Message([Value("Int32", 11).raw()], DELTA, RAW, sequence=11, status=0, indexes=[1], configured=32),
               raw_message(all_types(11), 11)), "taken 2 2 1", rows={1: all_types(11)}, faults={0: "BadEncoding"})
    t.case("a time stamp in the header moves all slots")
    t.take(both(12, timestamp=STAMP), "taken 2 2 2", faults={0: "NotValid", 1: "NotValid"})
    t.case("cut within the second message")
    t.take(both(12).bytes()[:80], "taken 2 2 1", rows={0: net_rows(12)[0]}, faults={1: "Missing"})
    t.case("cut within the first message")
    t.take(both(13).bytes()[:40], "taken 2 2 2", faults={0: "Missing", 1: "Missing"})
    for text, datagram in [("another group", both(14, group=2)), ("another publisher", both(14, publisher=(UINT16, 3)))]:
        t.stays(text, datagram, "NOT_OURS")
    t.part("The same datagrams for a dynamic read group: RawData outside a fixed layout isn't read")
    t.subscriber("models/foreign/net-dynamic.toml", 2)
    t.stays("both messages", both(1), "taken 2 2 2", faults={0: "BadEncoding", 1: "BadEncoding"})
    t.bad("the first one alone", net(1, raw_message(simple(True, 1, 1, 1), 1), writers=[1]), "BadEncoding")
    t.case("Variants in their place are read")
    variants = [Message([variant(it) for it in row], sequence=2, status=0) for row in net_rows(2).values()]
    t.take(net(2, *variants), "taken 2 2 0", rows=net_rows(2))


# ---------------------------------------------------------------- Annex A: periodic fixed

def axis(position, homed):
    return [Value("Int32", position), Value("Boolean", homed)]


def motor(current):
    return [Value("Float", current)]


def slot(row, sequence, **more):
    """A DataSetMessage of the layout: RawData, a number and a status."""
    parts = dict(fields=[it.raw() for it in row], encoding=RAW, sequence=sequence, status=0)
    return Message(**{**parts, **more})


def controller(sequence, *messages, **more):
    parts = dict(publisher=(UINT16, 11), group=3, group_version=600_000_000, number=1, sequence=sequence, messages=list(messages))
    return Network(**{**parts, **more})


def axes(number, **more):
    return controller(number, slot(axis(-number, True), number), slot(motor(number / 2), number), **more)


def axes_rows(number):
    return {0: axis(-number, True), 1: motor(number / 2)}


def periodic_fixed(t):
    t.part("UADP-Periodic-Fixed: no payload header, a status in each message, slots at 15 and 25")
    t.subscriber("examples/foreign/periodic-fixed.toml", 2)
    for number in (65534, 65535, 0, 1):
        t.case(f"both messages, number {number}")
        t.take(axes(number), "taken 2 2 0", rows=axes_rows(number))
    t.case("the number before comes late")
    t.take(axes(0), "taken 2 2 0", passed={0: "older", 1: "older"})
    t.case("the first message's status is Bad, and read past")
    t.take(controller(2, slot(axis(2, False), 2, status=BAD >> 16), slot(motor(2), 2)), "taken 2 2 0", rows={0: axis(2, False), 1: motor(2)})
    t.case("the first message isn't valid")
    t.take(controller(3, slot(axis(3, False), 3, valid=False), slot(motor(3), 3)), "taken 2 2 1", rows={1: motor(3)},
           faults={0: "NotValid"})
    t.case("the first slot is zeros, as of a writer that is off")
    t.take(controller(4, bytes(10), slot(motor(4), 4)), "taken 2 2 1", rows={1: motor(4)}, faults={0: "NotValid"})
    t.case("without statuses, each filled up to its slot")
    t.take(controller(5, slot(axis(5, False), 5, status=None, configured=10), slot(motor(5), 5, status=None, configured=9)), "taken 2 2 0",
           rows={0: axis(5, False), 1: motor(5)})
    t.case("without statuses, and not filled up: the second message begins two bytes early")
    t.take(controller(6, slot(axis(6, False), 6, status=None), slot(motor(6), 6, status=None)), "taken 2 2 2",
           faults={0: "Trailing", 1: "Missing"})
    t.case("Variants don't fit the slots")
    t.take(controller(6, Message([variant(it) for it in axis(6, True)], sequence=6, status=0)), "taken 2 2 2", faults={0: "Short", 1: "Missing"})
    for text, more in [("another GroupVersion", dict(group_version=600_000_001)), ("no GroupVersion", dict(group_version=None)),
                       ("another group", dict(group=4)), ("another publisher", dict(publisher=(UINT16, 12)))]:
        t.stays(text, axes(7, **more), "NOT_OURS")
    t.stays("security, where the read group has none", axes(7, security=Security(CONTROLLER_KEYS, bytes(4), 7, encrypted=False)), "MODE")
    for length in range(15):
        t.stays(f"the first {length} bytes", axes(7).bytes()[:length], "HEADER_SHORT")
    for number, length, bad in [(7, 15, 2), (7, 24, 2), (7, 25, 1), (8, 33, 1)]:
        t.case(f"the first {length} bytes")
        t.take(axes(number).bytes()[:length], f"taken 2 2 {bad}", rows={0: axes_rows(number)[0]} if bad == 1 else None,
               faults={1: "Missing"} if bad == 1 else {0: "Missing", 1: "Missing"})
    two_in_a_cycle(t)


def two_in_a_cycle(t):
    t.part("Two NetworkMessages in a cycle, whose headers differ in NetworkMessageNumber alone")
    t.subscriber("examples/foreign/periodic-fixed.toml", 2)
    t.case("the first NetworkMessage")
    t.take(axes(1), "taken 2 2 0", rows=axes_rows(1))
    t.case("the second one: another axis and another motor stand at the same offsets, and are held")
    other = controller(2, slot(axis(1_000_000, False), 2), slot(motor(99), 2), number=2)
    t.take(other, "taken 2 2 0", rows={0: axis(1_000_000, False), 1: motor(99)})
    t.case("where both count their messages apart, the second one's are late")
    other = controller(3, slot(axis(1_000_000, False), 1), slot(motor(99), 1), number=2)
    t.take(other, "taken 2 2 0", passed={0: "older", 1: "older"})
    t.case("a second NetworkMessage of one Double: its first five bytes are read as ours, and the second slot isn't there")
    t.take(controller(4, slot([Value("Double", -1.5)], 3), number=2), "taken 2 2 1", rows={0: axis(0, False)}, faults={1: "Missing"})
    t.part("The same, for a read group that is told to take the first NetworkMessage alone")
    t.subscriber("examples/foreign/periodic-fixed.toml", 2)
    t.number(0, 1)
    t.case("the first NetworkMessage")
    t.take(axes(1), "taken 2 2 0", rows=axes_rows(1))
    other = controller(2, slot(axis(1_000_000, False), 2), slot(motor(99), 2), number=2)
    t.stays("the second one", other, "NOT_OURS")
    t.stays("one without a number", controller(3, slot(axis(3, True), 3), number=None), "NOT_OURS")
    t.stays("another group's first one", axes(3, group=4), "NOT_OURS")
    t.stays("the first bytes of the second one", other.bytes()[:14], "HEADER_SHORT")
    t.number(0, 2)
    t.case("told to take the second one alone")
    t.take(other, "taken 2 2 0", rows={0: axis(1_000_000, False), 1: motor(99)})
    t.stays("the first one", axes(3), "NOT_OURS")
    t.number(0, 0)
    t.case("told to take any")
    t.take(axes(3), "taken 2 2 0", rows=axes_rows(3))


CONTROLLER_KEYS = Keys(4, bytes(range(32)), bytes(range(0x20, 0x40)), bytes(range(0x40, 0x44)))


def periodic_fixed_encrypted(t):
    t.part("UADP-Periodic-Fixed with PubSub-Aes256-CTR: 14 bytes of security header, and a slot at 29")
    t.subscriber("examples/foreign/periodic-fixed-encrypted.toml", 1)

    def sent(number, **more):
        return controller(number, slot(axis(number, True), number), security=Security(CONTROLLER_KEYS, b"abcd", number, **more))
    for number in (1, 2, 3):
        t.holds(f"the number {number}", sent(number), *axis(number, True))
    t.stays("the number 3 again", sent(3), "REPEATED")
    t.stays("signed alone", sent(4, encrypted=False), "MODE")
    t.stays("no security", controller(4, slot(axis(4, True), 4)), "MODE")
    t.bad("the first block's number 0", sent(4, first_block=0), "any")
    t.stays("the first 40 bytes", sent(5).bytes()[:40], "NO_SIGNATURE")
    t.stays("the first 70 bytes", sent(5).bytes()[:70], "SIGNATURE")
    t.bad("a slot that isn't there: the message is cut, and signed", controller(5, slot(axis(5, True), 5).bytes()[:8],
                                                                               security=Security(CONTROLLER_KEYS, b"abcd", 5)), "Missing")
    t.holds("the number 6", sent(6), *axis(6, True))


# ---------------------------------------------------------------- Annex A: dynamic

def tank(level, label):
    return [Value("Double", level), Value("String", label)]


def tank_message(row, sequence, **more):
    parts = dict(fields=[variant(it) for it in row], sequence=sequence, status=0, minor=0)
    return Message(**{**parts, **more})


def dynamic_of(*messages, **more):
    parts = dict(publisher=(UINT64, 1_000_000_000_001), group_header=False, writers=[40], timestamp=STAMP, messages=list(messages))
    return Network(**{**parts, **more})


def dynamic(t):
    t.part("UADP-Dynamic: a UInt64 publisher, no GroupHeader, a time stamp in the header")
    t.subscriber("examples/foreign/dynamic.toml", 1)
    t.stays("a delta frame before any key frame", dynamic_of(tank_message(tank(0, b"")[:1], 9, kind=DELTA, indexes=[0])), waits={0: "start"})
    t.holds("key frame 10", dynamic_of(tank_message(tank(1.5, b"a"), 10)), *tank(1.5, b"a"))
    t.holds("delta frame 11, of the level", dynamic_of(tank_message(tank(2.5, b"")[:1], 11, kind=DELTA, indexes=[0])), *tank(2.5, b"a"))
    t.holds("delta frame 12, of the label", dynamic_of(tank_message(tank(0, b"bc")[1:], 12, kind=DELTA, indexes=[1])), *tank(2.5, b"bc"))
    t.holds("delta frame 13, of both, the last first", dynamic_of(tank_message(list(reversed(tank(3, b"d"))), 13, kind=DELTA, indexes=[1, 0])),
            *tank(3, b"d"))
    t.holds("delta frame 14, of nothing", dynamic_of(tank_message([], 14, kind=DELTA, indexes=[])), *tank(3, b"d"))
    t.stays("keep-alive, the next number is 15", dynamic_of(tank_message([], 15, kind=KEEP_ALIVE)))
    t.holds("key frame 15 with both versions", dynamic_of(tank_message(tank(4, b"e"), 15, major=2)), *tank(4, b"e"))
    t.holds("key frame 16 with a time stamp of its own", dynamic_of(tank_message(tank(5, b"f"), 16, timestamp=STAMP)), *tank(5, b"f"))
    t.stays("delta frame 15 late", dynamic_of(tank_message(tank(6, b"")[:1], 15, kind=DELTA, indexes=[0])), passed="older")
    t.stays("delta frame 18 where 17 is due", dynamic_of(tank_message(tank(7, b"")[:1], 18, kind=DELTA, indexes=[0])), waits={0: "gap"})
    t.stays("delta frame 19", dynamic_of(tank_message(tank(8, b"")[:1], 19, kind=DELTA, indexes=[0])))
    t.stays("keep-alive, the next number is 20", dynamic_of(tank_message([], 20, kind=KEEP_ALIVE)))
    t.holds("key frame 20, whose label is null", dynamic_of(tank_message(tank(9, None), 20)), *tank(9, b""))
    t.stays("keep-alive, the next number is 23 where 21 is due", dynamic_of(tank_message([], 23, kind=KEEP_ALIVE)), waits={0: "gap"})
    t.holds("key frame 23", dynamic_of(tank_message(tank(10, b"g"), 23)), *tank(10, b"g"))
    t.bad("delta frame 24, its field a StatusCode", dynamic_of(Message([variant(Value("StatusCode", BAD_COMMUNICATION))], DELTA, sequence=24,
                                                                       status=0, minor=0, indexes=[0])), "BadValue")
    t.stays("so after it the delta frame 25 finds a number missing",
            dynamic_of(tank_message(tank(11, b"")[:1], 25, kind=DELTA, indexes=[0])), waits={0: "gap"})
    t.bad("a label of 17 bytes", dynamic_of(tank_message(tank(12, bytes(range(0x61, 0x72))), 26)), "BadValue")
    t.bad("a label that isn't UTF-8", dynamic_of(tank_message(tank(12, b"\xff"), 26)), "BadValue")
    t.bad("a delta frame's index 2", dynamic_of(tank_message(tank(12, b"")[:1], 26, kind=DELTA, indexes=[2])), "BadIndex:2")
    t.stays("a delta frame's index 2, of a greater minor version", dynamic_of(tank_message(tank(12, b"")[:1], 26, kind=DELTA, indexes=[2],
                                                                                           minor=1)))
    t.stays("a key frame of major version 1", dynamic_of(tank_message(tank(12, b"h"), 27, major=1)), passed="major")
    t.stays("a key frame without a number", dynamic_of(tank_message(tank(12, b"h"), None)), passed="unnumbered")
    t.holds("key frame 27", dynamic_of(tank_message(tank(13, b"i"), 27)), *tank(13, b"i"))
    t.case("two messages of the writer in one datagram")
    t.take(dynamic_of(tank_message(tank(14, b"j"), 28), tank_message(tank(15, b"")[:1], 29, kind=DELTA, indexes=[0]), writers=[40, 40]),
           "taken 2 2 0", rows={0: tank(15, b"j")})
    t.holds("with a GroupHeader it is read too", dynamic_of(tank_message(tank(16, b"k"), 30), group_header=True, group=77), *tank(16, b"k"))
    t.stays("another publisher", dynamic_of(tank_message(tank(17, b"k"), 31), publisher=(UINT64, 1_000_000_000_003)), "NOT_OURS")
    t.case("the timeout passes")
    t.expire(3000, waits={0: "timeout"})
    t.stays("a late number after it is taken for the first one", dynamic_of(tank_message(tank(18, b"")[:1], 5, kind=DELTA, indexes=[0])))
    t.holds("and a key frame holds", dynamic_of(tank_message(tank(19, b"l"), 6)), *tank(19, b"l"))


# ---------------------------------------------------------------- a publisher with the version of its group and its data set

def measures(running, count, name):
    return [Value("Boolean", running), u32(count), Value("String", name)]


def s2opc_of(row, sequence, **more):
    network = {key: more.pop(key) for key in list(more) if key in ("group", "group_version", "writers", "publisher", "security")}
    parts = dict(fields=[variant(it) for it in row], sequence=sequence, major=1)
    message = Message(**{**parts, **more})
    return Network(**{**dict(publisher=(UINT64, 42), group=14, group_version=1, writers=[50], messages=[message]), **network})


def s2opc(t):
    t.part("S2OPC: WriterGroupId and GroupVersion, numbers and the major version of messages")
    t.subscriber("examples/foreign/s2opc.toml", 1)
    row = measures(True, 7, b"press 4")
    for sequence in (65535, 0, 1):
        t.holds(f"key frame {sequence}", s2opc_of(row, sequence), *row)
    row = measures(False, 8, b"")
    t.holds("key frame 2 with both versions", s2opc_of(row, 2, minor=0), *row)
    t.holds("key frame 3 with flags that have no version", s2opc_of(row, 3, major=None), *row)
    t.stays("key frame 3 again", s2opc_of(measures(True, 9, b"x"), 3), passed="older")
    t.stays("no number", s2opc_of(measures(True, 9, b"x"), None), passed="unnumbered")
    t.stays("major version 2", s2opc_of(measures(True, 9, b"x"), 4, major=2), passed="major")
    t.stays("keep-alive, the next number is 4", s2opc_of([], 4, kind=KEEP_ALIVE))
    t.stays("another version of the group", s2opc_of(row, 4, group_version=2), "NOT_OURS")
    t.stays("another group", s2opc_of(row, 4, group=15), "NOT_OURS")
    t.stays("the id as a UInt32", s2opc_of(row, 4, publisher=(UINT32, 42)), "NOT_OURS")
    t.stays("secured", s2opc_of(row, 4, security=Security(ZERO_KEYS, bytes(4), 1)), "MODE")
    t.stays("another writer", s2opc_of(row, 4, writers=[51]), "taken 1 0 0")
    t.bad("a Byte for the Boolean", s2opc_of([Value("Byte", 1), u32(7), Value("String", b"x")], 4), "BadValue")
    t.bad("two fields of three", s2opc_of(row[:2], 4), "WrongCount:2")
    t.holds("key frame 4", s2opc_of(measures(True, 10, b"y"), 4), *measures(True, 10, b"y"))


# ---------------------------------------------------------------- Bad fields

def sensor_of(sequence, *fields, **more):
    message = Message(**{**dict(fields=list(fields), encoding=DATA_VALUE, sequence=sequence), **more})
    return Network(publisher=(UINT32, 70000), group=8, writers=[3], messages=[message])


def bad_fields(t):
    t.part("Fields that are Bad, for a data set with statuses")
    t.subscriber("examples/foreign/quality.toml", 1)
    celsius = Value("Double", 21.5)
    t.holds("both Good", sensor_of(0, data_value(celsius), data_value(u32(1))), celsius, u32(1))
    t.holds("DataValue whose status is Bad, with its last value", sensor_of(1, data_value(celsius, BAD_COMMUNICATION), data_value(u32(2))),
            (celsius, BAD_COMMUNICATION), u32(2))
    t.holds("DataValue whose status is Uncertain, with stamps", sensor_of(2, data_value(celsius, UNCERTAIN, STAMP, 5, STAMP, 6), data_value(u32(3))),
            (celsius, UNCERTAIN), u32(3))
    t.holds("Variants, which are Good", sensor_of(3, variant(celsius), variant(u32(4)), encoding=VARIANT), celsius, u32(4))
    for text, field, fault in [("DataValue of a status alone, which has no value", data_value(None, BAD), "BadValue"),
                               ("DataValue whose value is a StatusCode", data_value(Value("StatusCode", BAD)), "BadValue"),
                               ("DataValue whose value is a null Variant, and a status", b"\x03\x00" + struct.pack("<I", BAD), "KindOut")]:
        t.bad(text, sensor_of(4, field, data_value(u32(5))), fault)
    t.bad("a StatusCode in the place of the first value", sensor_of(4, variant(Value("StatusCode", BAD)), variant(u32(5)), encoding=VARIANT),
          "BadValue")
    t.bad("a null Variant in the place of the second value", sensor_of(4, variant(celsius), variant(None), encoding=VARIANT), "KindOut")
    t.holds("until it is Good again", sensor_of(5, data_value(celsius), data_value(u32(6))), celsius, u32(6))
    t.bad("a StatusCode, and nothing else for the timeout", sensor_of(6, variant(Value("StatusCode", BAD)), variant(u32(7)), encoding=VARIANT),
          "BadValue")
    t.case("the timeout lets the old row go")
    t.expire(490, waits={0: "timeout"})
    t.holds("DataValue whose status is Bad, with a value of zero", sensor_of(7, data_value(Value("Double", 0), BAD), data_value(u32(8))),
            (Value("Double", 0), BAD), u32(8))


# ---------------------------------------------------------------- numbers and chunks

def plain_row(count, text=b"", blob=b""):
    return [u32(count), Value("String", text), Value("ByteString", blob)]


def plain_message(row, sequence, **more):
    return Message(**{**dict(fields=[variant(it) for it in row], sequence=sequence), **more})


def peer(*messages, **more):
    parts = dict(publisher=(UINT32, 70000), group=8, writers=[3], messages=list(messages))
    return Network(**{**parts, **more})


def numbers(t):
    t.part("Messages with no number, with older ones, and with some missing")
    t.subscriber("models/foreign/plain.toml", 1)
    t.stays("no number, before any row", peer(plain_message(plain_row(1), None)), passed="unnumbered")
    t.holds("number 16383", peer(plain_message(plain_row(2), 16383)), *plain_row(2))
    for number in (16383, 16382, 0, 65535, 32768):
        t.stays(f"number {number} counts as older", peer(plain_message(plain_row(3), number)), passed="older")
    t.holds("number 32767 counts as newer", peer(plain_message(plain_row(3), 32767)), *plain_row(3))
    t.stays("no number", peer(plain_message(plain_row(4), None)), passed="unnumbered")
    t.stays("no number and major version 5", peer(plain_message(plain_row(4), None, major=5)), passed="major")
    t.stays("major version 5", peer(plain_message(plain_row(4), 32768, major=5)), passed="major")
    t.stays("a delta frame of major version 7", peer(plain_message(plain_row(4)[:1], 32768, major=7, kind=DELTA, indexes=[0])), passed="major")
    t.holds("the number that is due, a delta frame", peer(plain_message(plain_row(4)[:1], 32768, kind=DELTA, indexes=[0])), *plain_row(4))
    t.stays("keep-alive without a number", peer(plain_message([], None, kind=KEEP_ALIVE)), passed="unnumbered")
    t.stays("a publisher that begins at 0 again is older", peer(plain_message(plain_row(5), 0)), passed="older")
    t.stays("and at 1", peer(plain_message(plain_row(6), 1)), passed="older")
    t.case("until the timeout passes")
    t.expire(2000, waits={0: "timeout"})
    t.holds("then the number 2 holds", peer(plain_message(plain_row(7), 2)), *plain_row(7))
    truncated(t, peer(plain_message(plain_row(8, b"ab", b"c"), 3)))
    t.holds("the whole of it", peer(plain_message(plain_row(8, b"ab", b"c"), 3)), *plain_row(8, b"ab", b"c"))


def chunk(number, whole, first, last, writer=3, size=None, **more):
    return peer(writers=None, chunk=(writer, number, first, len(whole) if size is None else size, whole[first:last]), **more)


def chunks(t):
    t.part("Chunks")
    t.subscriber("models/foreign/plain.toml", 1)
    row = [plain_row(number, bytes([0x60 + number]) * 180, bytes([number]) * 190) for number in range(1, 6)]
    whole = [plain_message(it, number).bytes() for number, it in enumerate(row)]
    t.stays("the first of three chunks", chunk(0, whole[0], 0, 150))
    t.stays("the second one", chunk(0, whole[0], 150, 300))
    t.holds("the third one", chunk(0, whole[0], 300, None), *row[0])
    t.stays("the last one first", chunk(1, whole[1], 300, None))
    t.stays("the first one", chunk(1, whole[1], 0, 150))
    t.stays("the first one again", chunk(1, whole[1], 0, 150))
    t.holds("and the second one, with a byte of each neighbour", chunk(1, whole[1], 149, 301), *row[1])
    t.stays("the last one again", chunk(1, whole[1], 300, None))
    t.stays("the first one of number 2", chunk(2, whole[2], 0, 150))
    t.stays("a chunk of number 3, which gives it up", chunk(3, whole[3], 0, 150))
    t.stays("a chunk of number 2 again", chunk(2, whole[2], 150, None))
    t.holds("the rest of number 3", chunk(3, whole[3], 150, None), *row[3])
    t.bad("a chunk of no bytes", chunk(4, whole[4], 0, 0), f"BadRange:0/{len(whole[4])}")
    t.bad("a chunk past the message's size", chunk(4, whole[4], 0, 150, size=149), "BadRange:0/149")
    t.bad("a message of 4,097 bytes", chunk(4, whole[4], 0, 150, size=4097), "TooLong:4097")
    t.stays("a chunk of number 4", chunk(4, whole[4], 0, 150))
    t.bad("another size of the same message", chunk(4, whole[4], 150, 300, size=len(whole[4]) + 1), f"Differs:{len(whole[4]) + 1}/{len(whole[4])}")
    second = chunk(4, whole[4], 150, 300)
    length = len(second.front()) + 10
    t.bad("a chunk that ends early", second.bytes()[:-1], "ChunkShort")
    t.bad("a chunk that ends within its length", second.bytes()[:length + 3], "ChunkShort")
    t.bad("a chunk whose length is -1", second.bytes()[:length] + b"\xff\xff\xff\xff", f"BadRange:150/{len(whole[4])}")
    t.bad("a chunk whose length is -2", second.bytes()[:length] + b"\xfe\xff\xff\xff", "ChunkBadLength")
    t.stays("a chunk of another writer", chunk(4, whole[4], 150, None, writer=4), "taken 1 0 0")
    t.holds("what was missing, and bytes after it", chunk(4, whole[4], 150, None).bytes() + b"\x01\x02", *row[4])
    t.bad("a message of another data set, joined", chunk(5, plain_message([u32(1)], 5).bytes(), 0, None), "WrongCount:1")
    t.stays("a chunk without a payload header", peer(writers=None, messages=[whole[4]], more_flags2=1), "RESERVED")
    t.holds("the next message, whole", peer(plain_message(plain_row(9), 6)), *plain_row(9))


# ---------------------------------------------------------------- who is asked for

def level_of(publisher, number, **more):
    parts = dict(publisher=publisher, group=2, writers=[1], messages=[Message([variant(u32(number))], sequence=number)])
    return Network(**{**parts, **more})


def who(t):
    t.part("Publishers, groups, versions and classes")
    t.subscriber("models/foreign/ids.toml", 1, 1, 1, 1)
    class_id = uuid.UUID("72962b91-fa75-4ae6-8d28-b404dc7daf63").bytes_le
    ids = [((BYTE, 42), 0), ((STRING, b"line-4"), 1), ((UINT32, 42), 2), ((UINT16, 42), 3)]
    more = [{}, {}, dict(group_version=9), dict(class_id=class_id)]
    for publisher, group in ids:
        t.holds(f"{publisher[1]} of the type {publisher[0]}", level_of(publisher, 1, **more[group]), u32(1), group=group)
        for other, _ in ids:
            if other != publisher:
                t.stays(f"{other[1]} of the type {other[0]} in its place", level_of(other, 2, **more[group]), "NOT_OURS", group=group)
    t.holds("any group, where none is asked for", level_of((BYTE, 42), 2, group=9), u32(2), group=0)
    t.holds("no GroupHeader, where no group is asked for", level_of((BYTE, 42), 3, group_header=False), u32(3), group=0)
    t.stays("another group", level_of((STRING, b"line-4"), 2, group=3), "NOT_OURS", group=1)
    t.stays("no group", level_of((STRING, b"line-4"), 2, group=None), "NOT_OURS", group=1)
    t.stays("a text that differs in its last byte", level_of((STRING, b"line-5"), 2), "NOT_OURS", group=1)
    t.stays("a text that goes on", level_of((STRING, b"line-44"), 2), "NOT_OURS", group=1)
    t.stays("a null text", level_of((STRING, None), 2), "NOT_OURS", group=1)
    t.stays("a text that isn't UTF-8", level_of((STRING, b"line\xff4"), 2), "PUBLISHER_ID", group=1)
    t.stays("another version of the group", level_of((UINT32, 42), 2, group_version=8), "NOT_OURS", group=2)
    t.stays("no version of the group", level_of((UINT32, 42), 2), "NOT_OURS", group=2)
    t.stays("another class", level_of((UINT16, 42), 2, class_id=bytes(16)), "NOT_OURS", group=3)
    t.stays("no class", level_of((UINT16, 42), 2), "NOT_OURS", group=3)


# ---------------------------------------------------------------- kinds

FIRST = [Value("Boolean", 1), Value("SByte", -128), Value("Byte", 255), Value("Int16", -32768), Value("UInt16", 65535), Value("Int32", -2**31),
         u32(2**32 - 1), Value("Int64", -2**63), Value("UInt64", 2**64 - 1), Value("Float", 1.5), Value("Double", -0.1),
         Value("String", "\u00e4\u20ac\U0001f600".encode()[:5]), Value("DateTime", STAMP), Value("Guid", bytes(range(16))),
         Value("ByteString", b"\x00\xff"), Value("StatusCode", BAD_COMMUNICATION)]
ZEROS = [Value("Boolean", 0), Value("SByte", 0), Value("Byte", 0), Value("Int16", 0), Value("UInt16", 0), Value("Int32", 0), u32(0),
         Value("Int64", 0), Value("UInt64", 0), Value("Float", 0), Value("Double", 0), Value("String", None), Value("DateTime", 0),
         Value("Guid", bytes(16)), Value("ByteString", None), Value("StatusCode", 0)]


def kinds_of(message):
    return Network(publisher=(UINT16, 20), group=1, writers=[1], messages=[message])


def slot_of(message):
    """Its header has seven bytes."""
    return Network(publisher=(UINT16, 20), group=1, messages=[message])


def kinds(t):
    t.part("A field of each kind, in each encoding")
    t.subscriber("models/foreign/kinds.toml", 1, 1)
    for number, row in enumerate([FIRST, ZEROS]):
        t.holds("Variants", kinds_of(Message([variant(it) for it in row], sequence=3 * number)), *row)
        stamped = [data_value(it, None, STAMP, 5, STAMP, 6) for it in row]
        t.holds("DataValues with stamps", kinds_of(Message(stamped, encoding=DATA_VALUE, sequence=3 * number + 1)), *row)
        bad = [data_value(it, BAD + place) for place, it in enumerate(row)]
        t.holds("DataValues with a status each", kinds_of(Message(bad, encoding=DATA_VALUE, sequence=3 * number + 2)),
                *[(it, BAD + place) for place, it in enumerate(row)])
        raw = [it.raw(8) for it in row]
        t.holds("RawData", slot_of(Message(raw, encoding=RAW, sequence=2 * number, configured=120)), *row, group=1)
        t.holds("Variants in a slot", slot_of(Message([variant(it) for it in row], sequence=2 * number + 1, configured=120)), *row, group=1)
    t.holds("a Boolean of the byte ff is true", kinds_of(Message([b"\x01\xff"] + [variant(it) for it in ZEROS[1:]], sequence=7)), FIRST[0], *ZEROS[1:])
    t.bad("RawData whose String has 9 bytes of 8", slot_of(Message([it.raw(8) for it in ZEROS[:11]] + [b"\x09\x00\x00\x00"], encoding=RAW,
                                                                   sequence=9, configured=120)), "BadValue", group=1)
    t.bad("RawData after a payload header, for the dynamic read group", kinds_of(Message(raw, encoding=RAW, sequence=9)), "BadEncoding")


# ---------------------------------------------------------------- numbers of a group that are counted apart

PLANT_KEYS = Keys(1, bytes(range(32)), bytes(range(0x20, 0x30)), bytes(range(0x40, 0x44)))


def level_in(group, number, **more):
    """Both groups have their own numbers under the token, and their own random bytes."""
    security = Security(PLANT_KEYS, bytes([group]) * 4, number, encrypted=False)
    message = Message([variant(u32(100 * group + number))], sequence=number % 65536)
    return Network(publisher=(UINT16, 300), group=group, writers=[10 * group], messages=[message], security=security, **more)


def groups_apart(t):
    t.part("WriterGroups that count their numbers apart under one token: a read group for each")
    t.subscriber("examples/foreign/groups-apart.toml", 1, 1)
    for number in (1, 2, 3):
        for group in (1, 2):
            t.holds(f"group {group}, number {number}", level_in(group, number), u32(100 * group + number), group=group - 1)
            t.stays("the other read group refuses it", level_in(group, number), "NOT_OURS", group=2 - group)
    t.stays("a restart of group 1 alone", level_in(1, 1), "REPEATED", group=0)
    t.stays("a jump of 16,384 and more cuts the reader, and the same message holds", level_in(1, 3 + 16384), "taken 1 1 0", group=0,
            rows={0: [u32(100 + 3 + 16384)]})
    t.part("One read group for both")
    t.subscriber("models/foreign/groups-together.toml", 2)
    t.case("group 1, number 1")
    t.take(level_in(1, 1), "taken 1 1 0", rows={0: [u32(101)]})
    t.stays("group 2, number 1", level_in(2, 1), "REPEATED")
    t.case("group 2, number 2")
    t.take(level_in(2, 2), "taken 1 1 0", rows={1: [u32(202)]})
    t.stays("group 1, number 2", level_in(1, 2), "REPEATED")


# ---------------------------------------------------------------- the way back: what our publishers send

# Each layout with what it is set by, its datagram and the first message of it: of these docs/CONFIGURATION.md has the masks.
LAYOUTS = []


def sent(t, moment, keys, *datagrams):
    """What goes out at a moment. `keys` has the keys of a configuration that decide over the layout of each datagram, or None."""
    t.case(f"at {moment} ms")
    t.sends(moment, *datagrams)
    LAYOUTS.extend((key, it) for key, it in zip(keys, datagrams) if key is not None)


def ours(row, sequence, **more):
    """A message of ours: Variants and a number; the versions where the writer has `versions`."""
    return Message(**{**dict(fields=[variant(it) for it in row], sequence=sequence), **more})


def slot_of_ours(row, sequence, **more):
    return Message(**{**dict(fields=[it.raw() for it in row], encoding=RAW, sequence=sequence), **more})


def back_to_tutorial(t):
    t.part("The way back: what the subscribers of tutorials read")
    t.publisher("examples/foreign/tutorial-back.toml")
    for number in (0, 1):
        t.set(0, 0, date_time(number))
        message = ours([date_time(number)], number, major=3, minor=1)
        sent(t, 100 * (number + 1), [None if number else "`sequence = false`; `versions`"], tutorial(message))
    t.publisher("examples/foreign/tutorial-encrypted.toml")
    for number in (0, 1):
        t.set(0, 0, date_time(number))
        security = Security(ZERO_KEYS, bytes.fromhex("0a0b0c0d"), number + 1)
        message = ours([date_time(number)], number, major=3, minor=1)
        sent(t, 100 * (number + 1), [None], tutorial(message, publisher=(UINT16, 2235), security=security))


def back_to_others(t):
    t.part("The way back: a .NET reader, a reader of UADP-Periodic-Fixed, of UADP-Dynamic, and S2OPC")
    t.publisher("examples/foreign/net-back.toml")
    row = [Value("Boolean", 1), Value("Int32", -5)]
    for field, it in enumerate(row):
        t.set(0, field, it)
    sent(t, 1000, ["`version`; `message_number`; `versions`"], Network(publisher=(UINT16, 2), group=1, group_version=7, number=1, sequence=0,
                                                               writers=[1], messages=[ours(row, 0, major=1, minor=0)]))
    t.publisher("examples/foreign/periodic-fixed.toml")
    t.set(0, 0, Value("Int32", -70000))
    t.set(0, 1, Value("Boolean", 1))
    t.set(1, 0, Value("Float", 2.25))
    messages = [slot_of_ours(axis(-70000, 1), 0), slot_of_ours(motor(2.25), 0)]
    sent(t, 10, ["`version`; `message_number`"], Network(publisher=(UINT16, 12), group=5, group_version=700_000_000, number=1, sequence=0,
                                                          messages=messages))
    back_to_dynamic(t)
    t.publisher("examples/foreign/s2opc.toml")
    row = measures(1, 12, b"press 4")
    for field, it in enumerate(row):
        t.set(0, field, it)
    sent(t, 50, ["`version`; `sequence = false`; `versions`"], Network(publisher=(UINT64, 43), group=14, group_version=1, writers=[50],
                                                                        messages=[ours(row, 0, major=1, minor=0)]))


def back_to_dynamic(t):
    t.publisher("examples/foreign/dynamic.toml")

    def turn(moment, sequence, message, key=None):
        sent(t, moment, [key], Network(publisher=(UINT64, 1_000_000_000_002), group=9, sequence=sequence, writers=[40], messages=[message]))
    versions = dict(major=2, minor=0)
    t.set(0, 0, Value("Double", 1.25))
    t.set(0, 1, Value("String", b"rain"))
    turn(500, 0, ours(tank(1.25, b"rain"), 0, **versions), "`versions`")
    t.set(0, 0, Value("Double", 1.5))
    turn(1000, 1, ours(tank(1.5, b"")[:1], 1, kind=DELTA, indexes=[0], **versions))
    sent(t, 1500, [])
    turn(2000, 2, Message(kind=KEEP_ALIVE, sequence=2, **versions))
    turn(2500, 3, ours(tank(1.5, b"rain"), 2, **versions))


def layouts(t):
    t.part("The layouts of our own, by the keys of a group")
    t.publisher("models/foreign/layouts.toml")
    t.set(0, 0, u32(9))
    t.set(1, 0, u32(8))
    plain, valued = ours([u32(9)], 0), Message([data_value(u32(8))], encoding=DATA_VALUE, sequence=0)
    class_id = uuid.UUID("72962b91-fa75-4ae6-8d28-b404dc7daf63").bytes_le

    def of(group, messages, **more):
        return Network(**{**dict(publisher=(BYTE, 5), group=group, sequence=0, messages=messages), **more})
    sent(t, 100, ["none", "`class_id`", "none", "`sequence = false`; `versions`"], of(1, [plain, valued], writers=[1, 2]),
         of(2, [plain], writers=[3], class_id=class_id), of(3, [slot_of_ours([u32(9)], 0)]),
         of(4, [slot_of_ours([u32(9)], 0, major=1, minor=0)], sequence=None))


# ---------------------------------------------------------------- keys of a service of another maker (8.3.2, GetSecurityKeys)

POLICY = "http://opcfoundation.org/UA/SecurityPolicy#PubSub-Aes{}-CTR"


def served(token, encrypting=16):
    """A key of the service, by its token: the ByteString has the signing key, the encrypting key and the nonce."""
    return Keys(token, bytes([token % 256]) * 32, bytes([token % 256 ^ 0xff]) * encrypting, bytes([token % 256, 1, 2, 3]))


def key_data(keys):
    return keys.signing + keys.encrypting + keys.nonce


def pulled_keys(t):
    t.part("Keys of a GetSecurityKeys answer: at 5,000 ms the current key is that of token 7, for 250.5 ms more, each is used for 1,000 ms")
    keys = [served(7), served(8), served(9)]
    answer = dict(uri=POLICY.format(128), first=7, next=250.5, lifetime=1000.0, keys=[key_data(it) for it in keys])
    t.publisher("examples/foreign/pulled-keys.toml")
    t.subscriber("examples/foreign/pulled-keys.toml", 1)
    t.pull("publisher", 0, 5000, "aes128", 3, **answer)
    t.pull("subscriber", 0, 5000, "aes128", 3, **answer)
    turns = [(5100, keys[0], 1, True), (5200, keys[0], 2, False), (5300, keys[1], 1, True), (6200, keys[1], 2, False), (6300, keys[2], 1, True)]
    for sequence, (moment, key, number, is_first) in enumerate(turns):
        t.set(0, 0, u32(moment))
        message = ours([u32(moment)], sequence) if is_first else ours([u32(moment)], sequence, kind=DELTA, indexes=[0])
        sent(t, moment, [None], Network(publisher=(UINT16, 12), group=6, sequence=sequence, writers=[1], messages=[message],
                                        security=Security(key, bytes.fromhex("0a0b0c0d"), number)))

    def from_peer(key, number):
        message = Message([variant(u32(100 * key.token + number))], sequence=key.token * 10 + number)
        return Network(publisher=(UINT16, 11), group=6, writers=[1], messages=[message], security=Security(key, b"abcd", number))
    t.now = 5000
    t.stays("the configuration's own key isn't in the ring", from_peer(Keys(0, bytes(32), bytes(16), bytes(4)), 1), "UNKNOWN_TOKEN")
    t.holds("token 7", from_peer(keys[0], 1), u32(701))
    t.holds("token 8, before its moment", from_peer(keys[1], 1), u32(801))
    t.stays("token 7 after it", from_peer(keys[0], 2), "OLD_TOKEN")
    t.holds("token 9", from_peer(keys[2], 1), u32(901))
    t.stays("token 10, which wasn't pulled", from_peer(served(10), 1), "UNKNOWN_TOKEN")
    pulled_refused(t, answer)


def pulled_refused(t, answer):
    t.case("answers that aren't taken: another policy, another length of a key, no spans")
    for policy, more in [("aes256", {}), ("aes128", dict(uri=POLICY.format(256))), ("aes128", dict(uri="PubSub-Aes128-CTR")),
                         ("aes128", dict(keys=[key_data(served(7, 32))])), ("aes128", dict(keys=[key_data(served(7)), b""])),
                         ("aes128", dict(next=float("nan"))), ("aes128", dict(lifetime=-1.0)), ("aes128", dict(lifetime=float("inf"))),
                         ("aes128", dict(keys=[]))]:
        t.pull("subscriber", 0, 5000, policy, 0, **{**answer, **more})
    t.case("tokens that begin anew after the greatest one, and more keys than a ring has")
    t.pull("subscriber", 0, 5000, "aes128", 2, **{**answer, "first": 2**32 - 2})
    t.pull("subscriber", 0, 5000, "aes128", 16, **{**answer, "keys": answer["keys"] * 6})
    t.case("a clock that stands at 0, and spans below a millisecond")
    t.pull("subscriber", 0, 0, "aes128", 3, **{**answer, "next": 0.0, "lifetime": 0.25})


# ---------------------------------------------------------------- content masks (6.3.1.1.4, 6.3.1.3.2 and 6.2.4.2)

def network_mask(it):
    parts = [it.publisher, it.group_header or None, it.group, it.group_version, it.number, it.sequence, it.writers, it.timestamp,
             it.picoseconds, it.class_id, it.promoted]
    return sum(bit(place, part) for place, part in enumerate(parts))


def message_mask(it):
    parts = [it.timestamp, it.picoseconds, it.status, it.major, it.minor, it.sequence]
    return sum(bit(place, part) for place, part in enumerate(parts))


# Of DataValues, which carry a status where it isn't Good, StatusCode.
FIELD_MASKS = {VARIANT: 0, RAW: 0x20, DATA_VALUE: 0x01}


def mask_row(first, it, message):
    flags = it.bytes()[:1].hex(), it.group_bytes()[:1].hex(), message.bytes()[:1].hex()
    masks = network_mask(it), message_mask(message), FIELD_MASKS[message.encoding]
    return "| " + " | ".join([first] + [f"`{flag}`" for flag in flags] + [f"{mask} (0x{mask:x})" for mask in masks]) + " |"


def mask_rows():
    """The rows by layout, those with the fewest keys first."""
    found = []
    for keys, it in LAYOUTS:
        for message in it.messages:
            named = keys if message.encoding != DATA_VALUE else "`quality`"
            layout = "`dynamic`" if it.writers else "`fixed`"
            found.append((layout, "" if named == "none" else named, mask_row(f"{layout} | {named}", it, message)))
    return list(dict.fromkeys(row for _, _, row in sorted(found)))


PARTS = [tutorial_plain, tutorial_versions, tutorial_fields, tutorial_messages, tutorial_encrypted, tutorial_restart, net_default, periodic_fixed, periodic_fixed_encrypted, dynamic,
         s2opc, bad_fields, numbers, chunks, who, kinds, groups_apart, back_to_tutorial, back_to_others, layouts, pulled_keys]


def main(words):
    if words not in ([], ["masks"], ["count"]):
        print(__doc__.split("\n\n")[1], file=sys.stderr)
        return 2
    t = Table()
    for part in PARTS:
        part(t)
    if words == ["masks"]:
        print("\n".join(mask_rows()))
    elif words == ["count"]:
        print(f"{t.datagrams} datagrams, {t.cases} cases")
    else:
        print("# Made by models/foreign/cases.py; the form of a line stands in table.py beside it.")
        print("\n".join(t.lines))
    return 0


if __name__ == "__main__":
    sys.exit(main(sys.argv[1:]))
