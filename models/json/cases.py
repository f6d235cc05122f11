#!/usr/bin/env python3
"""Prints the cases of crates/cases_json that are messages in the JSON mapping, one a line; behind them stand those of tap_cases.py."""
import base64, json, sys

ZERO = dict(a=False, b=0, c=0, d=0, e=0, f=0, g=0, h="0", i="0", j="0x00000000", k="0x0000000000000000", l="", m="0",
            n="00000000-0000-0000-0000-000000000000", o="", p=0)
KINDS = dict(a="Boolean", b="SByte", c="Byte", d="Int16", e="UInt16", f="Int32", g="UInt32", h="Int64", i="UInt64", j="Float",
             k="Double", l="String", m="DateTime", n="Guid", o="ByteString", p="StatusCode")
DEMO = dict(a=7, b=0, c=0, d=0)
MEASURED = dict(zz=dict(Value=0), s=dict(Value=""), b0=dict(Value=""), t=dict(Value=False))
LEAST = dict(a=False, b=-128, c=0, d=-2**15, e=0, f=-2**31, g=0, h=str(-2**63), i="0", j="0x00000000", k="0x" + "0" * 16, l="",
             m=str(-2**63), n="0" * 8 + "-0000-0000-0000-" + "0" * 12, o="", p=0)
MOST = dict(a=True, b=127, c=255, d=2**15 - 1, e=2**16 - 1, f=2**31 - 1, g=2**32 - 1, h=str(2**63 - 1), i=str(2**64 - 1),
            j="0xffffffff", k="0x" + "f" * 16, l="x" * 20, m=str(2**63 - 1), n="f" * 8 + "-ffff-ffff-ffff-" + "f" * 12,
            o=base64.b64encode(b"\xff" * 20).decode(), p=2**32 - 1)
# just past what a kind has, or another kind's form
PAST = dict(a=[0, 1, "true", None], b=[-129, 128, "0", 0.5], c=[-1, 256], d=[-2**15 - 1, 2**15], e=[-1, 2**16],
            f=[-2**31 - 1, 2**31], g=[-1, 2**32], h=[str(-2**63 - 1), str(2**63), 0, "00", "-0", "+1", "1 ", ""],
            i=["-1", str(2**64), 0, "01"], j=["0x0000000", "0x000000000", "0X00000000", "0xABCDEF00", "0", 0.0, "0xabcdef0g"],
            k=["0x00000000", "0x" + "F" * 16], l=["x" * 21, "\u00e9" * 11, 0, None], m=[str(2**63), "2020-01-01T00:00:00Z"],
            n=["0" * 32, "F" * 8 + "-ffff-ffff-ffff-" + "f" * 12, "{" + "0" * 8 + "-0000-0000-0000-" + "0" * 12 + "}"],
            o=["AA", "AA=", "AA==", "AB==", "AAA=", "AAB=", "AAAA", "AAAA=", "A", "=", "AA==AA==", "A A=", "_w==", "/w==", 0,
               base64.b64encode(bytes(21)).decode()], p=[-1, 2**32, "0x00000000"])


def text(value):
    return json.dumps(value, ensure_ascii=False, separators=(",", ":"))


def element(word="ua-keyframe", writer=3, number=0, **more):
    return {"DataSetWriterId": writer, "SequenceNumber": number, "MessageType": word, **more}


def message(*elements, **more):
    return {"MessageType": "ua-data", "PublisherId": "5", "Messages": list(elements), **more}


def delta(**payload):
    return message(element("ua-deltaframe", Payload=payload))


def note(words):
    print(f"\n# {words}")


def show(value):
    print(text(value))


def without(value, name):
    return {k: v for k, v in value.items() if k != name}


def worked():
    note("two messages as they are written, with their numbers from 0 on, and the first with another sequence number")
    for n in (0, 1):
        print('{"MessageId":"%d","MessageType":"ua-data","Messages":[{"DataSetWriterId":1,"MessageType":"ua-keyframe","Payload":'
              '{"a":7,"b":0,"c":0,"d":0},"SequenceNumber":%d}],"PublisherId":"5"}' % (n, n))
    print('{"MessageId":"0","MessageType":"ua-data","Messages":[{"DataSetWriterId":1,"MessageType":"ua-keyframe","Payload":'
          '{"a":7,"b":0,"c":0,"d":0},"SequenceNumber":65537}],"PublisherId":"5"}')


def kinds():
    note("a key frame with each kind at its least, at its most, and all zero")
    for row in (LEAST, MOST, ZERO): show(message(element(Payload=row)))
    note("each kind in a delta frame, at its least and at its most")
    for name in KINDS:
        for row in (LEAST, MOST): show(delta(**{name: row[name]}))
    note("each kind just past what it has, or in another kind's form")
    for name in KINDS:
        for value in PAST[name]: show(delta(**{name: value}))
    note("texts: escapes, other scripts, and one of the whole cap")
    for value in ('"\\/', "\b\f\n\r\t\x00\x1f\x7f", "\u00e9\u20ac\U0001f600", "\u00e9" * 10): show(delta(l=value))
    print('{"MessageType":"ua-data","PublisherId":"5","Messages":[{"DataSetWriterId":3,"SequenceNumber":0,"MessageType":'
          '"ua-deltaframe","Payload":{"l":"\\ud83d\\ude00\\u0041\\/"}}]}')


def frames():
    note("the three types of message")
    show(message(element(Payload=ZERO), element("ua-deltaframe", number=1, Payload=dict(c=7)), element("ua-keepalive", number=2)))
    note("a key frame with a field too few, and one with a member too many")
    for name in ("a", "h", "p"): show(message(element(Payload=without(ZERO, name))))
    show(message(element(Payload=dict(ZERO, other=1))))
    note("a delta frame with no field, with all of them, and with members of no field")
    for payload in ({}, ZERO, dict(other=[1], c=1)): show(delta(**payload))
    note("a keep-alive with a payload that nobody reads")
    show(message(element("ua-keepalive", Payload=7)))
    note("a payload that isn't there, or is no object")
    for word in ("ua-keyframe", "ua-deltaframe"):
        show(message(element(word)))
        for payload in ([], None, "x", 0): show(message(element(word, Payload=payload)))
    note("types that aren't known, or aren't there")
    for word in ("ua-event", "UA-KEYFRAME", "", 1, None): show(message(element(word, Payload=ZERO)))
    show(message(without(element(Payload=ZERO), "MessageType")))


def numbers():
    note("sequence numbers: the least, the most, and others")
    for n in (0, 1, 65535, 65536, 65537, 2**32 - 1, 2**32, -1, "0", 0.5, None, True): show(message(element("ua-keepalive", number=n)))
    show(message(without(element("ua-keepalive"), "SequenceNumber")))
    note("writers: one that is named twice, one at the end, others, and none")
    for w in (1, 2, 65535): show(message(element("ua-keepalive", writer=w)))
    show(message(element(writer=1, Payload=DEMO)))
    for w in (0, 4, 65534): show(message(element("ua-keepalive", writer=w)))
    for w in (65536, -1, "1", 1.5, None): show(message(element("ua-keepalive", writer=w)))
    show(message(without(element("ua-keepalive"), "DataSetWriterId")))
    note("an element of another writer is skipped, whatever it holds; elements that are no objects give no frame")
    show(message(element(writer=4), element("x", writer=4, number=-1), {"DataSetWriterId": 4}))
    show(message(1, None, [], "x", {}, element("ua-keepalive")))
    note("numbers that are floats: -0, 1e0, 1.0")
    for number in ("-0", "1e0", "1.0", "1E+2", "0", "00", "-", "1.", ".5", "1e", "1E400", "-1E400", "1e-400",
                   "18446744073709551615", "18446744073709551616"):
        print('{"MessageType":"ua-data","PublisherId":"5","Messages":[{"DataSetWriterId":3,"SequenceNumber":%s,"MessageType":'
              '"ua-keepalive"}]}' % number)
    for number in ("-0", "1e0", "1.0"):
        print('{"MessageType":"ua-data","PublisherId":"5","Messages":[{"DataSetWriterId":3,"SequenceNumber":0,"MessageType":'
              '"ua-deltaframe","Payload":{"f":%s}}]}' % number)


def versions():
    note("versions: both, none, one, others, out of range")
    for v in (dict(MajorVersion=1, MinorVersion=2), dict(MajorVersion=0, MinorVersion=0),
              dict(MajorVersion=2**32 - 1, MinorVersion=2**32 - 1), {}, dict(MajorVersion=1), dict(MinorVersion=1),
              dict(MajorVersion=2**32, MinorVersion=1), dict(MajorVersion=1, MinorVersion=2**32),
              dict(MajorVersion=-1, MinorVersion=1), dict(MajorVersion="1", MinorVersion=1),
              dict(MajorVersion=1, MinorVersion=None), dict(MajorVersion=1, MinorVersion=2, other=3), [1, 2], 1, None):
        show(message(element("ua-keepalive", MetaDataVersion=v)))
    show(message(element(Payload=ZERO, MetaDataVersion=dict(MinorVersion=8, MajorVersion=7))))


def quality():
    note("a data set with statuses: none, Good, another, out of range")
    show(message(element(writer=2, Payload=MEASURED)))
    for status in (0, 1, 2**31, 2**32 - 1, 2**32, -1, "0", None):
        show(message(element("ua-deltaframe", writer=2, Payload=dict(t=dict(Value=True, StatusCode=status)))))
    show(message(element(writer=2, Payload=dict(MEASURED, zz=dict(StatusCode=0x80000000, Value=-1)))))
    note("a value that isn't in an object, an object without a value, and one with more members")
    for value in (True, {}, dict(StatusCode=1), dict(Value=True, other=1), dict(Value=1), [True]):
        show(message(element("ua-deltaframe", writer=2, Payload=dict(t=value))))
    note("an object in a data set without statuses")
    show(delta(a=dict(Value=True)))
    note("a text and a ByteString of 256 bytes, and of 257")
    for n in (256, 257):
        show(message(element("ua-deltaframe", writer=2, Payload=dict(s=dict(Value="x" * n)))))
        show(message(element("ua-deltaframe", writer=2, Payload=dict(b0=dict(Value=base64.b64encode(bytes(n)).decode())))))


def refusals():
    note("NotJson: no JSON, two values, no UTF-8, a lone surrogate")
    for line in ("{", "{}}", "{} {}", "x", "{'a':1}", '{"a":1,}', "[1,]", "NaN", "-Infinity", '{"a"}', '"\\x"', '"\\u12"', "01",
                 '{"MessageType":"ua-data","PublisherId":"\\ud800","Messages":[]}',
                 '{"MessageType":"ua-data","PublisherId":"\\udc00\\ud800","Messages":[]}'):
        print(line)
    for data in (b"", b" ", b"\xff", b'"\xc0\x80"', b'"\xed\xa0\x80"', b'"\t"', b"\xef\xbb\xbf{}", b"{}\x00"): print("bytes", data.hex())
    note("NotData: no object, or another type")
    for value in ({}, {"MessageType": "ua-metadata"}, {"MessageType": "ua-data "}, {"MessageType": None}, [], 1, "ua-data", None, True,
                  {"MessageType": ["ua-data"]}):
        show(value)
    note("BadPublisher: none, no text, one of 257 bytes; and one of 256")
    data = {"MessageType": "ua-data"}
    for more in ({}, dict(PublisherId=5), dict(PublisherId=None), dict(PublisherId="x" * 257), dict(PublisherId="\u00e9" * 129)):
        show({**data, **more, "Messages": []})
    for publisher in ("x" * 256, "\u00e9" * 128, "", "5", "a \"b\" \\"): show(message(PublisherId=publisher))
    note("NoMessages: none, or no array")
    show({**data, "PublisherId": "5"})
    for messages in ({}, None, "x", 1): show({**data, "PublisherId": "5", "Messages": messages})
    note("the first of several refusals")
    show({"MessageType": "ua-metadata", "PublisherId": 5})
    show({"MessageType": "ua-data", "PublisherId": 5, "Messages": 1})
    note("127 levels, and 128")
    for n in (124, 125, 126): print('{"MessageType":"ua-data","PublisherId":"5","Messages":[%s]}' % ("[" * n + "]" * n))
    for n in (127, 128): print("[" * n + "]" * n)
    note("members that aren't named, spaces, and members in another order")
    show(message(MessageId=9, other={"x": [1]}))
    print(' { "PublisherId" : "5" , "Messages" : [ ] , "MessageType" : "ua-data" } ')
    note("two equal members: the last counts")
    print('{"MessageType":"ua-metadata","PublisherId":"5","Messages":[],"MessageType":"ua-data"}')
    print('{"MessageType":"ua-data","PublisherId":"5","Messages":[],"MessageType":"ua-metadata"}')
    print('{"MessageType":"ua-data","PublisherId":"5","Messages":[{"DataSetWriterId":3,"SequenceNumber":0,"MessageType":'
          '"ua-deltaframe","Payload":{"c":300,"c":7}},{"DataSetWriterId":3,"SequenceNumber":0,"MessageType":"ua-deltaframe",'
          '"Payload":{"c":7,"c":300}}]}')


def main():
    print("# Messages in the JSON mapping, read for three data sets and written again. Made by models/json/cases.py.")
    for part in (worked, kinds, frames, numbers, versions, quality, refusals): part()
    return 0


sys.stdout.reconfigure(encoding="utf-8", newline="\n")
sys.exit(main())
