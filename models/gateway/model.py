#!/usr/bin/env python3
"""An independent model of the command `relay`: a gateway over the sessions of models/session, made from OPC 10000-14 and the documents of
docs/ (GATEWAY, SCRIPT, REPORT, CONFIGURATION), without a look at the crates.

usage: model.py < CASES     (the lines behind `command relay` in crates/cases_command/stdin: prints what the runner has to print)

It refuses no text itself but by C26: a note `# ends STATUS TEXT` says how the next `relay` ends where a file is refused or a call fails."""
import importlib.util, os, sys, tomllib


def session_model():
    """models/session/model.py"""
    path = os.path.join(os.path.dirname(os.path.abspath(__file__)), "..", "session", "model.py")
    spec = importlib.util.spec_from_file_location("session_model", path)
    module = importlib.util.module_from_spec(spec)
    spec.loader.exec_module(module)
    return module


session = session_model()
Link, Session = session.Link, session.Session


# ---- which writer a reader is matched to

def matched(document, r, i):
    """the group and the writer in it that the reader i of the read group r is matched to, or nothing"""
    read = document["readgroup"][r]
    reader = read["reader"][i]
    for g, group in enumerate(document.get("group", [])):
        fixed = read.get("layout", "dynamic") == "fixed"
        same = lambda key, none=None: read.get(key, none) == group.get(key, none)
        agrees = (read["publisher"] == document["publisher"]["id"]
                  and (read.get("group", 0) == group["id"] or read.get("group", 0) == 0 and not fixed)
                  and read.get("version", 0) in (0, group.get("version", 0))
                  and ("class_id" not in read or same("class_id"))
                  and same("layout", "dynamic") and same("security", "none") and same("keygroup"))
        for w, writer in enumerate(group.get("writer", [])):
            slot = not fixed or all(reader.get(key, 0) == writer.get(key, 0) for key in ("offset", "size"))
            if agrees and reader["writer"] == writer["id"] and reader["dataset"] == writer["dataset"] and slot: return g, w
    return None


# ---- where the data sets come from

def named(document, name):
    return next(t for t in document["dataset"] if t["name"] == name)


def meta_of(table):
    return [(f["name"], f["kind"], f.get("cap")) for f in table["field"]], table.get("major", 1), table.get("quality", False)


def source(first, table):
    """the place of the reader that a data set comes from, or nothing"""
    for r, read in enumerate(first.get("readgroup", [])):
        for i, reader in enumerate(read.get("reader", [])):
            if reader["name"] != table["name"]: continue
            good = matched(first, r, i) and reader.get("numbering", "message") == "message" and meta_of(named(first, reader["dataset"])) == meta_of(table)
            return (r, i) if good else None
    return None


class Unsourced(Exception):
    pass


class Stored:
    """what a reader had of its last store"""
    def __init__(self, number, part):
        self.number, self.part = number, part


class Gateway(Session):
    """a session in which nothing is switched, and whose samples are what the first session's readers have stored"""
    def __init__(self, text, link, first, first_text):
        super().__init__(text, link)
        self.first, self.document = first, tomllib.loads(text)
        self.sources = []
        for k, table in enumerate(self.document.get("dataset", [])):
            place = source(tomllib.loads(first_text), table)
            if place is None: raise Unsourced(k)
            self.sources.append(place)
        self.kept = [[(0, "0")] for _ in self.sources]
    def collect(self):
        for k, (r, i) in enumerate(self.sources):
            stores = self.first.stores.get((r, i), [])
            if stores: self.rows[k] = list(stores[-1][1])
            self.threads[k] = [0] * len(stores)
            if len(stores) != self.kept[k][-1][0]: self.kept[k].append((len(stores), self.origin(r, i, stores[-1][0])))
    def origin(self, r, i, number):
        """the version in the first program's log of a message number, as a report prints it"""
        return self.first.version(r, Stored(number, self.first.reads[r].readers[i].part))
    def lines(self):
        for g, group in enumerate(self.groups):
            for c, w in zip(self.writer_at[g], group.writers):
                yield f"gateway {c.name} {len(w.log)}:" + "".join(f" {p}={s}" for p, s in w.log)
        for r, group in enumerate(self.reads):
            for i, (c, x) in enumerate(zip(self.reader_at[r], group.readers)):
                place = matched(self.document, r, i)
                if place is not None: yield self.relayed(c.name, x, *place)
        yield f"gateway link sent {self.link.done} failed {self.link.failed} received {self.link.got}"
    def relayed(self, name, x, g, w):
        if x.row is None: return f"relayed {name} waits {x.why.lower()}"
        logged = [s for p, s in self.groups[g].writers[w].log if x.number is not None and p % 65536 == x.number]
        store = logged[-1] if logged else None
        version = next((v for s, v in self.kept[x.part["set"]] if s == store), "-")
        told = lambda it: "-" if it is None else it
        return f"relayed {name} number {told(x.number)} store {told(store)} version {version}:" + self.row_words(x)


def relayed(first_text, second_text, script, lab_fails, wire_fails):
    lines = session.lines_of(script)
    first = Session(first_text, Link(session.fates_of(lines), *lab_fails))
    gateway = Gateway(second_text, Link({}, *wire_fails), first, first_text)
    def follow(ms, closing):
        gateway.collect()
        gateway.tick(ms, closing)
        gateway.pump()
    for words in lines:
        first.line(words)
        if words[0] == "tick": follow(int(words[1]), False)
    first.tick(0, True)
    first.pump()
    follow(0, True)
    return first.report()[:-1] + list(gateway.lines()) + ["end"]


class Case:
    def __init__(self):
        self.texts, self.fails, self.ends = {}, {}, None
    def line(self, line):
        word, _, rest = line.partition(" ")
        if line.startswith("# ends "): self.ends = line[7:]
        elif word in ("first", "second", "script"): self.texts[word] = rest.replace("\\n", "\n")
        elif word in ("sends", "receives", "wire_sends", "wire_receives"): self.fails[word] = [int(k) for k in rest.split()]
        elif word == "relay": return self.relay()
        return None
    def relay(self):
        if self.ends is not None:
            status, _, text = self.ends.partition(" ")
            return [f"status {status} [{text}]"]
        fails = [[self.fails.get(prefix + call, []) for call in ("sends", "receives")] for prefix in ("", "wire_")]
        try:
            return relayed(self.texts["first"], self.texts["second"], self.texts["script"], *fails) + ["status 0 []"]
        except Unsourced as unsourced:
            return [f"status 3 [config: C26 NoSource dataset[{unsourced.args[0]}]]"]


def main():
    case = Case()
    for line in sys.stdin.read().splitlines():
        told = case.line(line)
        if told is None: print(line)
        else:
            print(line + (" ->\n" if len(told) > 1 else " -> ") + "\n".join(told))
            case = Case()


if __name__ == "__main__": main()
