#!/usr/bin/env python3
"""Prints cases of whole sessions by chance, for crates/cases_command and models/session/model.py: a configuration, a script, failing sends
and receives, and datagrams that come besides: copies of what was sent before, whole, cut, lengthened or with a bit altered, and bytes by chance.

usage: random_cases.py FIRST COUNT     (the seeds FIRST to FIRST + COUNT - 1)

A seed that ends with 9 is wide: up to 8 data sets of up to 40 fields, 4 groups of 4 writers, 4 read groups and 120 lines; the others have up to
3 data sets of up to 7 fields, 3 groups of 3 writers, 3 read groups and 40 lines."""
import os, random, sys
sys.path.insert(0, os.path.dirname(os.path.abspath(__file__)))
from model import Link, Session, value_text

SIZES = dict(Boolean=1, SByte=1, Byte=1, Int16=2, UInt16=2, Int32=4, UInt32=4, Int64=8, UInt64=8, Float=4, Double=8, DateTime=8, Guid=16, StatusCode=4)
RANGES = dict(SByte=(-2**7, 2**7 - 1), Byte=(0, 2**8 - 1), Int16=(-2**15, 2**15 - 1), UInt16=(0, 2**16 - 1), Int32=(-2**31, 2**31 - 1),
              UInt32=(0, 2**32 - 1), Int64=(-2**63, 2**63 - 1), UInt64=(0, 2**64 - 1), DateTime=(-2**63, 2**63 - 1),
              Float=(0, 2**32 - 1), Double=(0, 2**64 - 1), StatusCode=(0, 2**32 - 1))
KINDS = list(SIZES) + ["String", "ByteString"]

def value(r, kind, cap):
    if kind == "Boolean": return r.random() < 0.5
    if kind == "Guid": return r.randbytes(16)
    if kind == "String": return "".join(r.choice("xyzABC %é~!") for _ in range(r.randrange(cap // 2 + 1))).encode()
    if kind == "ByteString": return r.randbytes(r.randrange(cap + 1))
    low, high = RANGES[kind]
    return r.choice([low, high, r.randint(low, high), max(low, min(high, r.randrange(4)))])

def raw_size(field):
    return 4 + field["cap"] if field["kind"] in ("String", "ByteString") else SIZES[field["kind"]]

def words_of(fields):
    """the words of a row (docs/LIMITS.md)"""
    return sum({"Guid": 2}.get(f["kind"], 1 + (f["cap"] + 7) // 8) for f in fields) + (len(fields) + 1) // 2

def field(r, name):
    kind = r.choice(KINDS + ["UInt32"] * 8)
    return dict(name=name, kind=kind, cap=r.choice([1, 5, 40, 200]) if kind in ("String", "ByteString") else 0)

def inline(pairs):
    return "{" + ", ".join(f"{k} = {v}" for k, v in pairs if v is not None) + "}"

def text(t): return f'"{t}"'

class Case:
    def __init__(self, seed):
        r = self.r = random.Random(seed)
        self.wide = seed % 10 == 9
        self.sets = []
        for i in range(r.choice([4, 8]) if self.wide else r.choice([1, 1, 2, 3])):
            fields = [field(r, f"f{k}") for k in range(r.choice([7, 20, 40]) if self.wide else r.choice([1, 2, 4, 7]))]
            while words_of(fields) > 125: fields.pop()
            self.sets.append(dict(name=f"d{i}", fields=fields, quality=r.random() < 0.25, minor=r.choice([0, 0, 3])))
        self.publisher = r.choice(["u8:5", "u16:2234", "u32:70000", "u64:5000000000", "text:line-1"])
        self.keys = [self.keygroup(k) for k in range(r.choice([0, 1, 2]))]
        self.writer_ids = iter(range(1, 100))
        self.groups = [self.group(g) for g in range(r.choice([3, 4]) if self.wide else r.choice([1, 1, 2, 3]))]
        self.reads = [self.readgroup(k) for k in range(r.choice([2, 4]) if self.wide else r.choice([0, 1, 1, 2, 3]))]

    def keygroup(self, k):
        r = self.r
        long = r.random() < 0.5
        moments = [0] + sorted(r.sample(range(50, 2000, 50), r.choice([0, 0, 1, 2])))
        first = r.choice([1, 1, 7])
        ring = [dict(token=first + i, start=at, signing=r.randbytes(32).hex(), encrypting=r.randbytes(32 if long else 16).hex(), nonce=r.randbytes(4).hex())
                for i, at in enumerate(moments)]
        used = r.choice([0, 0, 0, 4294966270, 4294966268])
        return dict(name=f"k{k}", policy="aes256" if long else "aes128", random=r.randbytes(4).hex(), first_block=r.choice([0, 1]), used=used, ring=ring)

    def group(self, g):
        r = self.r
        security = r.choice(["none", "none", "sign", "encrypt"]) if self.keys else "none"
        fixed = r.random() < 0.2
        it = dict(name=f"g{g}", id=g + 1, interval=r.choice([10, 100, 100, 250]), security=security, keygroup=r.choice(self.keys)["name"] if security != "none" else None,
                  layout="fixed" if fixed else "dynamic", version=r.choice([0, 0, 9]), sequence=r.random() < 0.8, message_number=r.random() < 0.2,
                  class_id="72962b91-fa75-4ae6-8d28-b404dc7daf63" if r.random() < 0.15 else None, max_size=1400, writers=[])
        plain = [s for s in self.sets if not s["quality"]]
        if fixed and not plain: it["layout"] = "dynamic"
        for _ in range(r.choice([2, 4]) if self.wide else r.choice([1, 1, 2, 3])): it["writers"].append(self.writer(it, plain))
        if self.slots_end(it) > 1300: it["layout"] = "dynamic"
        if it["layout"] == "fixed": self.lay_out(it)
        elif r.random() < 0.3: it["max_size"] = r.choice([128, 200, 400])
        return it

    def writer(self, group, plain):
        r = self.r
        n = next(self.writer_ids)
        fixed = group["layout"] == "fixed"
        return dict(name=f"w{n}", id=n, set=r.choice(plain if fixed else self.sets), kfc=1 if fixed else r.choice([1, 2, 3, 10]),
                    keep=0 if fixed else r.choice([0, 0, max(group["interval"], 200)]), first=r.choice([0, 0, 65534]), versions=r.random() < 0.6, offset=0, size=0)

    def header_size(self, it):
        kind, _, name = self.publisher.partition(":")
        size = 1 + (kind != "u8" or it["class_id"] is not None or it["security"] != "none")
        size += dict(u8=1, u16=2, u32=4, u64=8).get(kind, 4 + len(name)) + (16 if it["class_id"] else 0) + 3
        return size + (4 if it["version"] else 0) + (2 if it["message_number"] else 0) + (2 if it["sequence"] else 0) + (14 if it["security"] != "none" else 0)

    def slots_end(self, it):
        """where the slots end at most"""
        return self.header_size(it) + 3 + sum(13 + sum(map(raw_size, w["set"]["fields"])) for w in it["writers"])

    def lay_out(self, it):
        at = self.header_size(it) + self.r.choice([0, 0, 3])
        for w in it["writers"]:
            w["offset"], w["size"] = at, (11 if w["versions"] else 3) + sum(map(raw_size, w["set"]["fields"])) + self.r.choice([0, 0, 2])
            at += w["size"]

    def readgroup(self, k):
        """mostly of a group of this program, matched or nearly so"""
        r = self.r
        g = r.choice(self.groups)
        readers = []
        for n, w in enumerate(r.sample(g["writers"], r.randint(1, len(g["writers"])))):
            readers.append(dict(name=f"r{k}{n}", writer=w["id"] if r.random() < 0.95 else 90 + n, set=w["set"] if g["layout"] == "fixed" or r.random() < 0.9 else r.choice(self.sets),
                                timeout=r.choice([0, 0, 250, 500]), numbering=r.choice(["message"] * 5 + ["none"]), offset=w["offset"], size=w["size"]))
        return dict(name=f"rg{k}", publisher=self.publisher if r.random() < 0.9 else "u8:77", group=g["id"] if r.random() < 0.7 else 0, version=r.choice([0, g["version"]]),
                    class_id=g["class_id"] if r.random() < 0.5 else None, layout=g["layout"], security=g["security"], keygroup=g["keygroup"], readers=readers)

    # ---- the texts
    def config(self):
        out = ["[publisher]", f"id = {text(self.publisher)}"]
        for s in self.sets:
            fields = ", ".join(inline([("name", text(f["name"])), ("kind", text(f["kind"])), ("cap", f["cap"] or None)]) for f in s["fields"])
            out += ["[[dataset]]", f"name = {text(s['name'])}", f"minor = {s['minor']}", f"quality = {str(s['quality']).lower()}", f"field = [{fields}]"]
        for k in self.keys:
            ring = ", ".join(inline([("token", e["token"]), ("from", e["start"]), ("signing", text(e["signing"])), ("encrypting", text(e["encrypting"])), ("nonce", text(e["nonce"]))])
                             for e in k["ring"])
            out += ["[[keygroup]]", f"name = {text(k['name'])}", f"policy = {text(k['policy'])}", f"random = {text(k['random'])}", f"first_block = {k['first_block']}",
                    f"used = {k['used']}", f"key = [{ring}]"]
        for g in self.groups:
            out += ["[[group]]", f"name = {text(g['name'])}", f"id = {g['id']}", f"interval = {g['interval']}", f"max_size = {g['max_size']}", f"sequence = {str(g['sequence']).lower()}",
                    f"message_number = {str(g['message_number']).lower()}"] + self.common(g)
            writers = ", ".join(inline([("name", text(w["name"])), ("id", w["id"]), ("dataset", text(w["set"]["name"])), ("key_frame_count", w["kfc"]), ("keep_alive", w["keep"]),
                                        ("first_number", w["first"]), ("versions", str(w["versions"]).lower()), ("offset", w["offset"] or None), ("size", w["size"] or None)])
                                for w in g["writers"])
            out.append(f"writer = [{writers}]")
        for g in self.reads:
            out += ["[[readgroup]]", f"name = {text(g['name'])}", f"publisher = {text(g['publisher'])}", f"group = {g['group']}"] + self.common(g)
            readers = ", ".join(inline([("name", text(x["name"])), ("writer", x["writer"]), ("dataset", text(x["set"]["name"])), ("timeout", x["timeout"]),
                                        ("numbering", text(x["numbering"])), ("offset", x["offset"] or None), ("size", x["size"] or None)]) for x in g["readers"])
            out.append(f"reader = [{readers}]")
        return "\n".join(out) + "\n"

    def common(self, g):
        out = [f"layout = {text(g['layout'])}", f"security = {text(g['security'])}"]
        if g["version"]: out.append(f"version = {g['version']}")
        if g["keygroup"]: out.append(f"keygroup = {text(g['keygroup'])}")
        if g["class_id"]: out.append(f"class_id = {text(g['class_id'])}")
        return out

    def script(self):
        r = self.r
        out, on, appended, fates = [], {}, 0, set()
        names = ["root", "connection"] + [g["name"] for g in self.groups + self.reads] + [w["name"] for g in self.groups for w in g["writers"]]
        names += [x["name"] for g in self.reads for x in g["readers"]]
        for _ in range(r.choice([40, 120]) if self.wide else r.choice([3, 10, 25, 40])):
            what = r.random()
            if what < 0.35: out.append(self.write(r.choice(self.sets)))
            elif what < 0.75: out.append(f"tick {r.choice([1, 10, 50, 100, 100, 100, 250, 400])}")
            elif what < 0.83:
                name = r.choice(names)
                on[name] = not on.get(name, True)
                out.append(("enable " if on[name] else "disable ") + name)
            elif what < 0.9:
                k = r.randrange(40)
                if k not in fates:
                    fates.add(k)
                    out.append(f"fate {k} " + r.choice(["drop", f"repeat {r.randint(2, 8)}", f"hold {k + r.randint(1, 5)}", f"again {k + r.randint(1, 9)}"]))
            elif what < 0.95 and any(g["readers"] for g in self.reads):
                readers = [x["name"] for g in self.reads for x in g["readers"]]
                out.append(f"watch {r.randrange(8)} {r.choice(readers)} {r.randint(1, 3)}")
            elif appended < 4:
                grown = self.append(appended)
                if grown: out.append(grown); appended += 1
        return "\n".join(out) + "\n"

    def write(self, s):
        r = self.r
        words = []
        for f in r.sample(s["fields"], r.randint(1, min(3, len(s["fields"])))):
            status = f"!0x{r.choice([0x80000000, 0x40920000]):08x}" if s["quality"] and r.random() < 0.3 else ""
            words.append(f"{f['name']}{status}={value_text(f['kind'], value(r, f['kind'], f['cap']))}")
        return f"write {r.randrange(8)} {s['name']} " + " ".join(words)

    def append(self, nth):
        r = self.r
        may = [s for s in self.sets if all(w["versions"] and g["layout"] == "dynamic" for g in self.groups for w in g["writers"] if w["set"] is s)]
        if not may: return None
        s = r.choice(may)
        f = field(r, f"x{nth}")
        if words_of(s["fields"] + [f]) > 125: return None
        s["fields"].append(f)
        return f"append {s['name']} {f['name']} {f['kind']}" + (f" {f['cap']}" if f["cap"] else "")

def sent_by(config, script):
    """what the session sends, in order"""
    session = Session(config, Link({}))
    for line in script.split("\n"):
        if line: session.line(line.split())
    session.tick(0, True)
    return [session.link.sent[k] for k in sorted(session.link.sent)]

def altered(r, datagram):
    """as it was, a bit altered, cut, lengthened, or other bytes"""
    bytes_ = bytearray(datagram)
    what = r.choice(["whole", "bit", "bit", "bits", "cut", "longer", "other"])
    for _ in range(dict(bit=1, bits=3).get(what, 0)): bytes_[r.randrange(len(bytes_))] ^= 1 << r.randrange(8)
    if what == "cut": return bytes(bytes_[:r.randrange(len(bytes_))])
    if what == "longer": return bytes(bytes_) + r.randbytes(r.randrange(1, 9))
    return r.randbytes(r.randrange(40)) if what == "other" else bytes(bytes_)

def injected(r, config, script):
    """lines of datagrams that come besides, each behind one that was sent before or just then"""
    if r.random() < 0.5: return
    sent = sent_by(config, script)
    for _ in range(r.choice([1, 2, 5])):
        if not sent: return
        after = r.randrange(len(sent))
        yield f"inject {after} {altered(r, sent[r.randrange(after + 1)]).hex() or '-'}"

def main():
    first, count = int(sys.argv[1]), int(sys.argv[2])
    for seed in range(first, first + count):
        case = Case(seed)
        print(f"# seed {seed}")
        config, script = case.config(), case.script()
        print("config " + config.replace("\n", "\\n"))
        print("script " + script.replace("\n", "\\n"))
        for word in ("sends", "receives"):
            fails = sorted(case.r.sample(range(12), case.r.choice([0, 0, 0, 1, 3])))
            if fails: print(word + "".join(f" {k}" for k in fails))
        for line in injected(case.r, config, script): print(line)
        print("play")

if __name__ == "__main__": main()
