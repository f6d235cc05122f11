#!/usr/bin/env python3
"""An independent model of messages in the JSON mapping (OPC 10000-14 section 7.2.5, OPC 10000-6 section 5.4) over Python's
own `json`, made from docs/JSON.md, without a look at the crates.

usage: model.py < CASES     (the lines that cases.py prints: prints what the beginning of crates/cases_json/stdout has to be)"""
import base64, json, math, re, sys

# the data sets that the cases are read for: (name, kind, cap) of each field, and whether there are statuses
DEMO = [(name, "UInt32", 0) for name in "abcd"]
PLAIN = [("a", "Boolean", 0), ("b", "SByte", 0), ("c", "Byte", 0), ("d", "Int16", 0), ("e", "UInt16", 0), ("f", "Int32", 0),
         ("g", "UInt32", 0), ("h", "Int64", 0), ("i", "UInt64", 0), ("j", "Float", 0), ("k", "Double", 0), ("l", "String", 20),
         ("m", "DateTime", 0), ("n", "Guid", 0), ("o", "ByteString", 20), ("p", "StatusCode", 0)]
MEASURED = [("zz", "Int32", 0), ("s", "String", 256), ("b0", "ByteString", 256), ("t", "Boolean", 0)]
METAS = [(DEMO, False), (MEASURED, True), (PLAIN, False)]
# the data set of each writer; of two pairs with one writer the first counts
SETS = [(1, 0), (2, 1), (3, 2), (1, 2), (65535, 0)]

NUMBERS = {"SByte": (-128, 127), "Byte": (0, 255), "Int16": (-2**15, 2**15 - 1), "UInt16": (0, 2**16 - 1),
           "Int32": (-2**31, 2**31 - 1), "UInt32": (0, 2**32 - 1), "StatusCode": (0, 2**32 - 1)}
DECIMALS = {"Int64": (-2**63, 2**63 - 1), "UInt64": (0, 2**64 - 1), "DateTime": (-2**63, 2**63 - 1)}
TEXTS = {"Float": r"0x[0-9a-f]{8}", "Double": r"0x[0-9a-f]{16}",
         "Guid": r"[0-9a-f]{8}-[0-9a-f]{4}-[0-9a-f]{4}-[0-9a-f]{4}-[0-9a-f]{12}"}


class Refused(Exception):
    pass


class Bad(Exception):
    """The element gives no frame."""


# ---------------------------------------------------------------- JSON

def levels(text):
    """How deep arrays and objects stand in one another."""
    depth = most = 0
    inside = escaped = False
    for c in text:
        if inside:
            if escaped: escaped = False
            elif c == "\\": escaped = True
            elif c == '"': inside = False
        elif c == '"': inside = True
        elif c in "[{":
            depth += 1
            most = max(most, depth)
        elif c in "]}": depth -= 1
    return most


def whole(text):
    """A number without point and exponent: a float where it is -0 or has more than 64 bits."""
    n = int(text)
    return n if text != "-0" and -2**63 <= n < 2**64 else float(n)


def broken(text):
    x = float(text)
    if math.isinf(x): raise Refused
    return x


def no_constant(_):
    raise Refused


def has_surrogate(v):
    if isinstance(v, str): return any(0xd800 <= ord(c) < 0xe000 for c in v)
    if isinstance(v, list): return any(map(has_surrogate, v))
    return False


def members(pairs):
    if any(has_surrogate(k) or has_surrogate(v) for k, v in pairs): raise Refused
    return dict(pairs)                                                    # of equal names the last counts


def parse(data):
    try:
        text = data.decode("utf-8")
        if text.startswith("\ufeff") or levels(text) > 127: raise Refused
        value = json.loads(text, parse_int=whole, parse_float=broken, parse_constant=no_constant, object_pairs_hook=members)
    except (ValueError, RecursionError, OverflowError):
        raise Refused
    if has_surrogate(value): raise Refused
    return value


# ---------------------------------------------------------------- values

def is_whole(v):
    return isinstance(v, int) and not isinstance(v, bool)


def within(v, lowest, highest):
    if not is_whole(v) or not lowest <= v <= highest: raise Bad
    return v


def read_value(kind, cap, v):
    """The value as it is written again."""
    if kind in NUMBERS: return within(v, *NUMBERS[kind])
    if kind == "Boolean":
        if not isinstance(v, bool): raise Bad
        return v
    if not isinstance(v, str): raise Bad
    if kind in DECIMALS:
        if not re.fullmatch(r"-?(0|[1-9][0-9]*)", v) or v == "-0" or len(v) > 20: raise Bad
        within(int(v), *DECIMALS[kind])
    elif kind in TEXTS:
        if not re.fullmatch(TEXTS[kind], v): raise Bad
    elif kind == "String":
        if len(v.encode()) > cap: raise Bad
    else:
        try: data = base64.b64decode(v.encode("ascii"), validate=True)
        except ValueError: raise Bad
        if base64.b64encode(data).decode() != v or len(data) > cap: raise Bad
    return v


def read_field(quality, kind, cap, v):
    if not quality: return read_value(kind, cap, v)
    if not isinstance(v, dict) or "Value" not in v: raise Bad
    written = {"Value": read_value(kind, cap, v["Value"])}
    status = within(v.get("StatusCode", 0), 0, 2**32 - 1)
    if status: written["StatusCode"] = status
    return written


# ---------------------------------------------------------------- messages

def read_part(element):
    """The element as it is written again, or None where its writer is another's."""
    if not isinstance(element, dict): raise Bad
    writer = within(element.get("DataSetWriterId"), 0, 65535)
    named = [s for w, s in SETS if w == writer]
    if not named: return None
    fields, quality = METAS[named[0]]
    number = within(element.get("SequenceNumber"), 0, 2**32 - 1)
    word = element.get("MessageType")
    if word not in ("ua-keyframe", "ua-deltaframe", "ua-keepalive"): raise Bad
    written = {"DataSetWriterId": writer, "MessageType": word, "SequenceNumber": number % 65536}
    if word != "ua-keepalive":
        payload = element.get("Payload")
        if not isinstance(payload, dict): raise Bad
        written["Payload"] = {name: read_field(quality, kind, cap, payload[name]) for name, kind, cap in fields if name in payload}
        if word == "ua-keyframe" and len(written["Payload"]) != len(fields): raise Bad
    versions = element.get("MetaDataVersion")
    try:
        if isinstance(versions, dict):
            written["MetaDataVersion"] = {n: within(versions.get(n), 0, 2**32 - 1) for n in ("MajorVersion", "MinorVersion")}
    except Bad: pass
    return written


def read(data, number):
    try: message = parse(data)
    except Refused: return "NotJson"
    if not isinstance(message, dict) or message.get("MessageType") != "ua-data": return "NotData"
    publisher = message.get("PublisherId")
    if not isinstance(publisher, str) or len(publisher.encode()) > 256: return "BadPublisher"
    if not isinstance(message.get("Messages"), list): return "NoMessages"
    parts, bad = [], 0
    for element in message["Messages"]:
        try: parts.append(read_part(element))
        except Bad: bad += 1
    written = {"MessageId": str(number), "MessageType": "ua-data", "PublisherId": publisher, "Messages": [p for p in parts if p]}
    return f"bad {bad} " + json.dumps(written, ensure_ascii=False, separators=(",", ":"), sort_keys=True)


def main():
    number = 0
    for line in sys.stdin.buffer.read().decode("utf-8").split("\n")[:-1]:
        if not line or line.startswith("#"):
            print(line)
            continue
        print(f"{line} -> {read(bytes.fromhex(line[6:]) if line.startswith('bytes ') else line.encode(), number)}")
        number += 1


sys.stdout.reconfigure(encoding="utf-8", newline="\n")
main()
