#!/usr/bin/env python3
"""Prints cases of the command `relay` by chance, for crates/cases_command and models/gateway/model.py: FILE and the script as
models/session/random_cases.py makes them, a SECOND whose data sets are what FILE's readers offer, and failing sends and receives of both links.
One pair of five has a data set that is spoilt in one way, so that C26 refuses it; a note `# spoilt WAY` says how.

usage: random_cases.py FIRST COUNT     (the seeds FIRST to FIRST + COUNT - 1)

A seed that ends with 9 is wide, as those of sessions are; one that ends with 8 is busy, and loses what its readers of SECOND then wait for."""
import copy, importlib.util, os, re, sys, tomllib

def module(name, *path):
    path = os.path.join(os.path.dirname(os.path.abspath(__file__)), *path)
    sys.path.insert(0, os.path.dirname(path))
    spec = importlib.util.spec_from_file_location(name, path)
    made = importlib.util.module_from_spec(spec)
    spec.loader.exec_module(made)
    sys.path.pop(0)
    return made

sessions = module("session_cases", "..", "session", "random_cases.py")
gateway = module("gateway_model", "model.py")

WAYS = ["name", "unmatched", "numbering", "fields", "major", "quality"]
OTHER_CLASS = "00000000-0000-0000-0000-00000000000a"
LONGEST = 1024

class First(sessions.Case):
    """FILE and the script"""
    def __init__(self, seed):
        super().__init__(seed)
        for s in self.sets: s["major"] = self.r.choice([1, 1, 1, 0, 7])
        for _ in range(4):
            if self.sources(): break
            self.reads = [self.readgroup(k) for k in range(self.r.choice([1, 1, 2, 3]))]
    def config(self):
        return with_majors(super().config(), self.sets)
    def write(self, s):
        while True:
            line = super().write(s)
            if len(line) <= LONGEST: return line
    def script(self, busy):
        """where it is busy, something is written before each tick"""
        writes = [self.write(self.r.choice(self.sets)) for _ in range(20 if busy else 0)]
        lines = super().script().split("\n")[:-1]
        for at in reversed([at for at, line in enumerate(lines) if line.startswith("tick ")]) if busy else []: lines.insert(at, self.r.choice(writes))
        names = [w["name"] for g in self.groups for w in g["writers"]] + [x["name"] for g in self.reads for x in g["readers"]]
        still = [n for n in names if f"disable {n}" not in lines]
        if still and self.r.random() < 0.3:
            name, places = self.r.choice(still), sorted(self.r.randrange(len(lines) + 1) for _ in range(2))
            for at, word in zip(reversed(places), ("enable", "disable")): lines.insert(at, f"{word} {name}")
        return "\n".join(lines) + "\n"
    def readers(self):
        """each read group with each of its readers"""
        return [(g, x) for g in self.reads for x in g["readers"]]
    def matched(self):
        """those that are matched"""
        document = tomllib.loads(self.config())
        return [(g, x) for r, g in enumerate(self.reads) for i, x in enumerate(g["readers"]) if gateway.matched(document, r, i)]
    def sources(self):
        return [(g, x) for g, x in self.matched() if x["numbering"] == "message"]

class Second(sessions.Case):
    """a configuration of these data sets"""
    def __init__(self, first, sets):
        r = self.r = first.r
        self.wide, self.sets = first.wide, sets
        self.publisher = r.choice(["u8:6", "u8:5", "u16:2234", "u32:70000", "u64:5000000000", "text:line-2"])
        self.keys = [self.keygroup(k) for k in range(r.choice([0, 1, 1, 2]))]
        self.writer_ids = iter(range(1, 100))
        self.groups = [self.group(g) for g in range(r.choice([3, 4]) if self.wide else r.choice([1, 1, 2, 3]))] if sets else []
        self.reads = [self.readgroup(k) for k in range(r.choice([2, 4]) if self.wide else r.choice([0, 1, 2, 2, 3]))] if sets else []
    def config(self):
        return with_majors(super().config(), self.sets)

def with_majors(text, sets):
    for s in sets: text = text.replace(f'[[dataset]]\nname = "{s["name"]}"\n', f'[[dataset]]\nname = "{s["name"]}"\nmajor = {s["major"]}\n')
    return text

# ---- what is spoilt

def spoilt(first, way):
    """a data set that has no source in the end, and how it was spoilt; FILE is altered where the way is one of its readers'"""
    r = first.r
    may = first.sources()
    if way == "name" or not may:
        return offered(r, r.choice(["x9", first.sets[0]["name"], first.groups[0]["name"], first.groups[0]["writers"][0]["name"]]), r.choice(first.sets)), "name"
    g, x = r.choice(may)
    if way == "unmatched": way += " " + unmatch(first, g, x)
    if way == "numbering": x["numbering"] = "none"
    it = offered(r, x["name"], x["set"])
    if way == "major": it["major"] = r.choice([n for n in (0, 1, 2, 7) if n != it["major"]])
    if way == "quality": it["quality"] = not it["quality"]
    if way == "fields": way += " " + other_fields(r, it["fields"])
    return it, way

def unmatch(first, read, x):
    """alters one key of a read group, or of a reader of it, so that this reader is matched no more"""
    r = first.r
    fixed, secured = read["layout"] == "fixed", read["security"] != "none"
    group = dict(publisher="u8:99", group=r.choice([0, 77]) if fixed else 77, version=8, class_id=OTHER_CLASS)
    reader = dict(writer=95)
    if fixed: group["layout"] = "dynamic"
    if secured: group["security"] = "sign" if read["security"] == "encrypt" else "encrypt"
    others = [k["name"] for k in first.keys if secured and k["name"] != read["keygroup"]]
    if others: group["keygroup"] = others[0]
    sets = [s for s in first.sets if s is not x["set"]]
    if sets and not fixed: reader["set"] = r.choice(sets)
    if fixed and x["offset"] == max(y["offset"] for y in read["readers"]): reader.update(size=x["size"] + 1, offset=x["offset"] + 1)
    rare = [key for key in ("layout", "security", "keygroup", "size", "offset") if key in group or key in reader]
    key = r.choice(sorted(group) + sorted(reader) + rare * 4)
    it, to = (group, read) if key in group else (reader, x)
    to[key] = it[key]
    return key

def other_fields(r, fields):
    """alters a data set's fields in one way"""
    k = max(r.sample(range(len(fields)), min(2, len(fields))), key=lambda at: fields[at]["cap"])
    ways = ["name", "kind", "more"] + ["fewer", "order"] * (len(fields) > 1) + ["cap"] * 3 * (fields[k]["cap"] > 1)
    way = r.choice(ways)
    if way == "name": fields[k]["name"] = "other"
    if way == "kind": fields[k].update(kind=r.choice([n for n in sessions.SIZES if n not in (fields[k]["kind"], "Guid")]), cap=0)
    if way == "more": fields.append(dict(name="other", kind="Byte", cap=0))
    if way == "fewer": fields.pop(k)
    if way == "order": fields.insert((k + 1) % len(fields), fields.pop(k))
    if way == "cap": fields[k]["cap"] -= 1
    while sessions.words_of(fields) > 125: fields.pop()
    return way

def offered(r, name, s):
    """a data set of this name with another's fields"""
    return dict(name=name, fields=copy.deepcopy(s["fields"]), quality=s["quality"], minor=r.choice([s["minor"], s["minor"], 0, 7]), major=s["major"])

# ---- the cases

def failing(r):
    """the numbers of the calls that fail: none, a few, many, or all from one on"""
    what = r.choice(["none"] * 5 + ["few", "few", "many", "from"])
    if what == "from": return list(range(r.randrange(60), 200))
    return sorted(r.sample(range(60), 12) if what == "many" else r.sample(range(12), r.choice([1, 3]) if what == "few" else 0))

def pair(seed):
    """FILE, SECOND, and how SECOND is spoilt"""
    first = First(seed)
    r, bad, way = first.r, None, None
    if r.random() < 0.2: bad, way = spoilt(first, r.choice(WAYS))
    may = [x for _, x in first.sources() if bad is None or x["name"] != bad["name"]]
    taken = r.sample(may, min(len(may), r.choice([4, 7]) if first.wide else r.choice([1, 1, 2, 3])))
    sets = [offered(r, x["name"], x["set"]) for x in taken]
    if bad is not None: sets.insert(r.randrange(len(sets) + 1), bad)
    return first, Second(first, sets), way

CALLS = ["sends", "receives", "wire_sends", "wire_receives"]

def lossy(r, files, fails):
    """such failing calls of wire that a reader of SECOND waits in the end for want of a message, if a few tries find any"""
    for _ in range(30):
        fails.update(wire_sends=sorted(r.sample(range(25), 3)), wire_receives=list(range(r.randrange(40), 400)))
        told = gateway.relayed(files["first"], files["second"], files["script"], [fails["sends"], fails["receives"]], [fails["wire_sends"], fails["wire_receives"]])
        if any(re.match(r"relayed \w+ waits (gap|newtoken)", line) for line in told): return

def main():
    first, count = int(sys.argv[1]), int(sys.argv[2])
    for seed in range(first, first + count):
        one, other, way = pair(seed)
        busy = way is None and seed % 10 == 8
        for w in [w for g in other.groups for w in g["writers"] if busy and g["layout"] == "dynamic"]: w["kfc"] = 10
        files = dict(first=one.config(), second=other.config(), script=one.script(busy))
        fails = {call: failing(one.r) for call in CALLS}
        if busy: lossy(one.r, files, fails)
        print(f"# seed {seed}")
        if way: print(f"# spoilt {way}")
        for word, text in files.items(): print(f"{word} " + text.replace("\n", "\\n"))
        for word, calls in fails.items():
            if calls: print(word + "".join(f" {k}" for k in calls))
        print("relay")

if __name__ == "__main__": main()
