#!/usr/bin/env python3
"""An independent model of a tap: which datagrams are spelled in the JSON mapping, and how, made from OPC 10000-14 and docs/JSON.md over
the headers and frames of models/groups, without a look at the crates.

usage: tap.py < CASES     (the lines that tap_cases.py prints: prints what the end of crates/cases_json/stdout has to be)"""
import base64, importlib.util, json, os, struct, sys, tomllib, uuid


def model(name):
    path = os.path.join(os.path.dirname(os.path.abspath(__file__)), "..", name, "model.py")
    spec = importlib.util.spec_from_file_location(name + "_model", path)
    module = importlib.util.module_from_spec(spec)
    spec.loader.exec_module(module)
    return module


groups, session = model("groups"), model("session")

MANY = """[publisher]
id = "text:pump-7"
[[dataset]]
name = "wide"
quality = true
major = 3
minor = 2
field = [{ name = "t", kind = "Int16" }, { name = "s", kind = "String", cap = 8 }]
[[dataset]]
name = "flag"
field = [{ name = "on", kind = "Boolean" }]
[[group]]
name = "g1"
id = 1
interval = 100
writer = [{ name = "w1", id = 1, dataset = "wide", versions = true }, { name = "w2", id = 258, dataset = "flag" }]
"""
CONFIGURATIONS = {"built-in": session.BUILT_IN, "many": MANY}


def value_json(kind, value):
    if kind in ("Int64", "UInt64", "DateTime"): return str(value)
    if kind == "String": return value.decode()
    if kind == "ByteString": return base64.b64encode(value).decode()
    if kind in ("Float", "Double", "Guid"): return groups.value_text(kind, value)
    return value


def field_json(meta, kind, value, status):
    if not meta["quality"]: return value_json(kind, value)
    return {"Value": value_json(kind, value), **({"StatusCode": status} if status else {})}


class Tap:
    def __init__(self, text):
        self.metas = groups.Config(text).sets
        tables = tomllib.loads(text)
        self.names = [[f["name"] for f in s["field"]] for s in tables["dataset"]]
        index = {s["name"]: i for i, s in enumerate(tables["dataset"])}
        self.sets = {w["id"]: index[w["dataset"]] for g in tables["group"] for w in g["writer"]}
        self.lines, self.skipped = [], 0

    def part(self, writer, data):
        """the element of a frame, or None where the line has none"""
        if writer not in self.sets: return None
        place = self.sets[writer]
        meta, names = self.metas[place], self.names[place]
        try: name, number, major, minor, content = groups.read_frame(meta, data)
        except groups.Bad: return None
        if number is None or (major is None) != (minor is None): return None
        word = {"Whole": "ua-keyframe", "Change": "ua-deltaframe", "Alive": "ua-keepalive"}[name]
        element = {"DataSetWriterId": writer, "MessageType": word, "SequenceNumber": number}
        if major is not None: element["MetaDataVersion"] = {"MajorVersion": major, "MinorVersion": minor}
        if content is not None:
            fields = enumerate(content) if name == "Whole" else content.items()
            element["Payload"] = {names[i]: field_json(meta, meta["fields"][i]["kind"], *x) for i, x in fields}
        return element

    def message(self, datagram):
        try: header, at = groups.read_header(datagram)
        except groups.Refused: return None
        if header["security"] is not None or header["ids"] is None or header["publisher"] is None: return None
        kind, publisher = header["publisher"]
        text = publisher.decode() if kind == "text" else str(publisher)
        if len(text.encode()) > 256: return None
        ids, payload = header["ids"], datagram[at:]
        pieces = [payload]
        if len(ids) != 1:
            sizes = struct.unpack(f"<{len(ids)}H", payload[:2 * len(ids)]) if len(payload) >= 2 * len(ids) else None
            if sizes is None or 2 * len(ids) + sum(sizes) > len(payload): return None
            pieces, at = [], 2 * len(ids)
            for size in sizes:
                pieces.append(payload[at:at + size])
                at += size
        elements = [self.part(writer, piece) for writer, piece in zip(ids, pieces)]
        if any(e is None for e in elements): return None
        return {"MessageId": str(len(self.lines)), "MessageType": "ua-data", "Messages": elements, "PublisherId": text}

    def sent(self, datagram):
        message = self.message(datagram)
        if message is None: self.skipped += 1
        else: self.lines.append(json.dumps(message, ensure_ascii=False, separators=(",", ":"), sort_keys=True))


def answer(line):
    _, name, *words = line.split()
    if name not in CONFIGURATIONS: return "not a case"
    tap = Tap(CONFIGURATIONS[name])
    try: datagrams = [(word, bytes.fromhex(word.removeprefix("!"))) for word in words]
    except ValueError: return "not a case"
    for word, datagram in datagrams:
        if not word.startswith("!"): tap.sent(datagram)
    return " ".join(tap.lines + [f"skipped {tap.skipped}"])


def main():
    for line in sys.stdin.buffer.read().decode("utf-8").split("\n")[:-1]:
        print(line if not line or line.startswith("#") else f"{line} -> {answer(line)}")


if __name__ == "__main__":
    sys.stdout.reconfigure(encoding="utf-8", newline="\n")
    main()
