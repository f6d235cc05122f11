#!/usr/bin/env python3
"""An independent model of the command `json`: the sessions of models/session, the tap of tap.py, and readers of its lines by Python's own
`json` and the definition *Records* (maxima over lists of places, no 16-bit comparison), made from docs/JSON.md, without a look at the crates.

usage: command.py < CASES     (the lines behind `command json` in crates/cases_command/stdin: prints what the runner has to print)

It refuses no text itself: a note `# status N` says what the next `json` ends with, without a text."""
import base64, json, sys
from tap import groups, session, Tap


def session_of(text, script, sends, receives):
    """the closed session of the script"""
    lines = session.lines_of(script)
    played = session.Session(text, session.Link(session.fates_of(lines), sends, receives))
    for words in lines: played.line(words)
    played.tick(0, True)
    played.pump()
    return played


# ---------------------------------------------------------------- which readers

def is_plain(part): return part["layout"] == "dynamic" and part["security"] == "none"


def is_matched(config, readers, reader):
    return any(is_plain(g) and readers["publisher"] == config.publisher and readers["group"] in (0, g["id"]) and readers["version"] in (0, g["version"])
               and (readers["class_id"] is None or readers["class_id"] == g["class_id"])
               and any(w["id"] == reader["writer"] and w["set"] == reader["set"] for w in g["writers"]) for g in config.groups)


# ---------------------------------------------------------------- what is read of a line

def value_text(kind, v):
    """the text of a report of a value in the JSON mapping"""
    if kind in ("Float", "Double", "Guid", "Int64", "UInt64", "DateTime"): return v
    if kind == "String": return groups.value_text(kind, v.encode())
    if kind == "ByteString": return groups.value_text(kind, base64.b64decode(v))
    return groups.value_text(kind, v)


def fields_of(meta, names, payload):
    """the fields of a payload: index, text, status"""
    found = {}
    for index, (name, field) in enumerate(zip(names, meta["fields"])):
        if name not in payload: continue
        v, status = payload[name], 0
        if meta["quality"]: v, status = v["Value"], v.get("StatusCode", 0)
        found[index] = (value_text(field["kind"], v), status)
    return found


def frames_for(tap, reader):
    """(word, number, major, fields) of each message of the reader's writer, in order"""
    meta, names = tap.metas[reader["set"]], tap.names[reader["set"]]
    for line in tap.lines:
        for element in json.loads(line)["Messages"]:
            if element["DataSetWriterId"] != reader["writer"]: continue
            versions = element.get("MetaDataVersion")
            yield (element["MessageType"], element["SequenceNumber"], versions and versions["MajorVersion"],
                   fields_of(meta, names, element.get("Payload", {})))


# ---------------------------------------------------------------- Records

def near(number, greatest):
    """the place with this number that is at most 16,384 above and at most 49,151 below"""
    return next(p for p in range(greatest - 49151, greatest + 16385) if p % 65536 == number)


def held(frames, numbering, major):
    """(number, row), or why nothing is held"""
    frames = [f for f in frames if f[2] is None or f[2] == major]
    if numbering == "none":
        wholes = [f[3] for f in frames if f[0] == "ua-keyframe"]
        return ("-", wholes[-1]) if wholes else "start"
    items, records = [], []
    for word, number, _, fields in frames:
        stands = (number - 1) % 65536 if word == "ua-keepalive" else number
        place = near(stands, max(p for p, _, _ in items)) if items else 65536 + stands
        if all(place > p for p, _, _ in items): records.append((place, word, fields))
        items.append((place, word, fields))
    breaks = [k for k in range(1, len(records)) if records[k][1] == "ua-keepalive" or records[k][0] != records[k - 1][0] + 1]
    whole = max((k for k, r in enumerate(records) if r[1] == "ua-keyframe"), default=None)
    if whole is None or any(k > whole for k in breaks): return "gap" if breaks else "start"
    row = dict(records[whole][2])
    for _, _, fields in records[whole + 1:]: row.update(fields)
    return str(records[-1][0] % 65536), row


# ---------------------------------------------------------------- the command

def reader_line(tap, name, reader):
    meta, names = tap.metas[reader["set"]], tap.names[reader["set"]]
    found = held(frames_for(tap, reader), reader["numbering"], meta["major"])
    if isinstance(found, str): return f"jsonreader {name} waits {found}"
    words = "".join(f" {names[i]}" + (f"!0x{s:08x}" if s else "") + f"={x}" for i, (x, s) in sorted(found[1].items()))
    return f"jsonreader {name} number {found[0]}:{words}"


def told(text, script, sends, receives):
    text = text or session.BUILT_IN
    played, tap, config = session_of(text, script, sends, receives), Tap(text), groups.Config(text)
    for k in sorted(played.link.sent): tap.sent(played.link.sent[k])
    lines = list(tap.lines)
    for r, readers in enumerate(config.readgroups):
        for i, reader in enumerate(readers["readers"]):
            if is_plain(readers) and is_matched(config, readers, reader): lines.append(reader_line(tap, played.reader_at[r][i].name, reader))
    return lines + [f"json lines {len(tap.lines)} skipped {tap.skipped}", "end", "status 0"]


def main():
    text, script, sends, receives, status = None, "", [], [], None
    for line in sys.stdin.buffer.read().decode("utf-8").split("\n")[:-1]:
        if line != "json": print(line)
        word, _, rest = line.partition(" ")
        if line.startswith("# status "): status = line[9:]
        rest = rest.replace("\\n", "\n")
        if word == "config": text = rest
        elif word == "no_config": text = None
        elif word == "script": script = rest
        elif word == "sends": sends = [int(k) for k in rest.split()]
        elif word == "receives": receives = [int(k) for k in rest.split()]
        elif word == "json":
            answers = [f"status {status}"] if status else told(text, script, sends, receives)
            print("json ->", answers[0]) if len(answers) == 1 else print("json ->", *answers, sep="\n")
            status = None


if __name__ == "__main__":
    sys.stdout.reconfigure(encoding="utf-8", newline="\n")
    main()
