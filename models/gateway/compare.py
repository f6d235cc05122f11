#!/usr/bin/env python3
"""Compares the program cases_command with model.py over the cases that random_cases.py makes of seeds.

usage: compare.py PROGRAM FROM TO     (the seeds FROM to TO - 1; PROGRAM is crates/cases_command/out/cases_command, which `rt run` builds there,
                                      or - for the model alone)

It names each seed whose answers differ, with the first line that does, and prints how many cases have each of some traits, and last how many it
compared and how many differ. The status is 1 where one differs."""
import os, re, subprocess, sys, tomllib
HERE = os.path.dirname(os.path.abspath(__file__))
AT_ONCE = 50

SECURED = ("sign", "encrypt")

class Case:
    """a case with the model's answer"""
    def __init__(self, text, answer):
        lines = [line.partition(" ") for line in text.split("\n")]
        self.text, self.answer = text, answer.partition("\nrelay ->")[2]
        files = {word: rest.replace("\\n", "\n") for word, _, rest in lines if word in ("first", "second", "script")}
        self.first, self.second = (tomllib.loads(files[word]) for word in ("first", "second"))
        self.script = "\n" + files["script"]
        self.sets = {t["name"] for t in self.second.get("dataset", [])}
        self.sourcing = [g for g in self.first.get("readgroup", []) if any(x["name"] in self.sets for x in g["reader"])]
        self.readers = [x for g in self.second.get("readgroup", []) for x in g["reader"]]
    def says(self, pattern):
        """whether a line of the answer begins so"""
        return re.search("^" + pattern, self.answer, re.M) is not None
    def refused(self, way=""):
        """whether C26 refuses SECOND, which is spoilt in this way"""
        return "C26" in self.answer and f"# spoilt {way}" in self.text
    def secured(self, document):
        return any(g["security"] in SECURED for g in document.get("group", []))
    def slotted(self, document):
        return any(g["layout"] == "fixed" for g in document.get("group", []))
    def small(self):
        return any(g["max_size"] < 1400 for g in self.second.get("group", []))
    def keyed(self, has):
        return any(has(k) for k in self.second.get("keygroup", []))
    def logs(self, has):
        """whether a writer's log has stores that are so"""
        return any(has([int(s) for s in re.findall(r"=(\d+)", log)]) for log in re.findall(r"^gateway \w+ \d+:(.*)", self.answer, re.M))
    def relayed_alike(self):
        """whether two readers of SECOND that stand in the answer have one writer"""
        told = set(re.findall(r"^relayed (\w+) ", self.answer, re.M))
        writers = [x["writer"] for x in self.readers if x["name"] in told]
        return len(writers) != len(set(writers))
    def restarted(self):
        """whether a source, or what is above it, is disabled and enabled again"""
        names = {"root", "connection"} | {g["name"] for g in self.sourcing} | self.sets
        return any(f"\nenable {n}\n" in self.script.partition(f"\ndisable {n}\n")[2] for n in names)

REFUSED = [("refused by C26", lambda c: c.refused()), ("not at the first data set", lambda c: c.refused() and "dataset[0]" not in c.answer)]
REFUSED += [(f"of {way}", lambda c, way=way: c.refused(way)) for way in [
    "name", "unmatched", "numbering", "fields", "major", "quality", "unmatched publisher", "unmatched group", "unmatched version", "unmatched class_id",
    "unmatched layout", "unmatched security", "unmatched keygroup", "unmatched writer", "unmatched set", "unmatched offset", "unmatched size",
    "fields name", "fields kind", "fields more", "fields fewer", "fields order", "fields cap"]]

ACCEPTED = [
    ("accepted", lambda c: True),
    ("no data set in SECOND", lambda c: not c.sets),
    ("several data sets in SECOND", lambda c: len(c.sets) > 1),
    ("FILE secured", lambda c: c.secured(c.first)),
    ("SECOND secured", lambda c: c.secured(c.second)),
    ("FILE with slots", lambda c: c.slotted(c.first)),
    ("SECOND with slots", lambda c: c.slotted(c.second)),
    ("FILE secured, SECOND with slots", lambda c: c.secured(c.first) and c.slotted(c.second)),
    ("SECOND in small datagrams", Case.small),
    ("SECOND with quality", lambda c: any(t["quality"] for t in c.second.get("dataset", []))),
    ("SECOND with several tokens", lambda c: c.keyed(lambda k: len(k["key"]) > 1)),
    ("SECOND with a sender that is nearly spent", lambda c: c.keyed(lambda k: k["used"])),
    ("a source that is secured", lambda c: any(g["security"] in SECURED for g in c.sourcing)),
    ("a source with a slot", lambda c: any(g["layout"] == "fixed" for g in c.sourcing)),
    ("a source with a timeout", lambda c: any(x["timeout"] for g in c.sourcing for x in g["reader"] if x["name"] in c.sets)),
    ("a source restarted", Case.restarted),
    ("a reader of SECOND with a timeout", lambda c: any(x["timeout"] for x in c.readers)),
    ("two readers of one writer", Case.relayed_alike),
    ("an append", lambda c: "\nappend " in c.script),
    ("a fate", lambda c: "\nfate " in c.script),
    ("a failing call of lab", lambda c: re.search(r"\n(sends|receives) ", c.text)),
    ("a failing call of wire", lambda c: "\nwire_" in c.text),
    ("a writer publishes a store that isn't 0", lambda c: c.logs(any)),
    ("a writer publishes the opening row", lambda c: c.logs(lambda log: 0 in log)),
    ("a writer publishes a store twice", lambda c: c.logs(lambda log: len(set(log)) < len(log))),
    ("a writer publishes 3 stores", lambda c: c.logs(lambda log: len(set(log)) > 2)),
    ("a writer leaves a store out", lambda c: c.logs(lambda log: any(b > a + 1 for a, b in zip(log, log[1:])))),
    ("a place past 65535", lambda c: c.says(".* 65536=")),
    ("a reader holds a store of a version that isn't 0", lambda c: c.says(r"relayed .* store [1-9]\d* version [1-9]")),
    ("a reader without numbering holds", lambda c: c.says(r"relayed \w+ number - ")),
    ("no line of a reader", lambda c: not c.says("relayed "))]
ACCEPTED += [(f"a reader waits {why}", lambda c, why=why: c.says(rf"relayed \w+ waits {why}")) for why in ["start", "gap", "timeout", "newtoken"]]
TRAITS = REFUSED + [(name, lambda c, has=has: c.says("status 0 ") and has(c)) for name, has in ACCEPTED]

def parts(command, text=None):
    done = subprocess.run(command, input=text, stdout=subprocess.PIPE, text=True)
    if done.returncode: sys.exit(f"{command}: status {done.returncode}")
    return ["# seed " + part for part in done.stdout.split("# seed ")[1:]]

def difference(want, have):
    """the first line that differs"""
    pairs = zip(want.split("\n"), have.split("\n"))
    return next((f"the model has `{a}`, the program `{b}`" for a, b in pairs if a != b), "one answer is longer")

def main():
    program, first, last = sys.argv[1], int(sys.argv[2]), int(sys.argv[3])
    differing, counts = 0, dict.fromkeys((name for name, _ in TRAITS), 0)
    for at in range(first, last, AT_ONCE):
        made = parts([sys.executable, os.path.join(HERE, "random_cases.py"), str(at), str(min(AT_ONCE, last - at))])
        text = "".join(made)
        wanted = parts([sys.executable, os.path.join(HERE, "model.py")], text)
        got = wanted if program == "-" else parts([program], "command relay\n" + text)
        if len(got) != len(made): sys.exit(f"seeds from {at}: {len(got)} answers to {len(made)} cases")
        for case, want, have in zip(made, wanted, got):
            told = Case(case, want)
            for name, has in TRAITS: counts[name] += bool(has(told))
            if want == have: continue
            differing += 1
            print(f"{case.split(chr(10))[0]}: {difference(want, have)}", flush=True)
    for name, count in counts.items(): print(f"{count:6} {name}")
    print(f"{last - first} cases, {differing} differ" + (" (the model alone)" if program == "-" else ""))
    return 1 if differing else 0

if __name__ == "__main__": sys.exit(main())
