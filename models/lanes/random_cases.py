#!/usr/bin/env python3
"""Prints cases of the command `lanes` by chance, for crates/cases_command and models/lanes/model.py: configurations as models/session/random_cases.py
makes them, scripts of writes, ticks and fates, now and then a line that lanes don't take, a room, and failing sends where there is one lane.

usage: random_cases.py FIRST COUNT     (the seeds FIRST to FIRST + COUNT - 1)"""
import importlib.util, os, random, sys

def module(name, *path):
    path = os.path.join(os.path.dirname(os.path.abspath(__file__)), *path)
    sys.path.insert(0, os.path.dirname(path))
    spec = importlib.util.spec_from_file_location(name, path)
    made = importlib.util.module_from_spec(spec)
    spec.loader.exec_module(made)
    sys.path.pop(0)
    return made

sessions = module("session_cases", "..", "session", "random_cases.py")
lanes = module("lanes_model", "model.py")

def script(case):
    r, out, fates = case.r, [], set()
    for _ in range(r.choice([3, 10, 25, 40, 120])):
        what = r.random()
        if what < 0.4: out.append(case.write(r.choice(case.sets)))
        elif what < 0.9: out.append(f"tick {r.choice([1, 10, 50, 100, 100, 100, 250, 400])}")
        elif what < 0.93: out.append(r.choice(["", "# a note"]))
        else:
            k = r.randrange(40)
            if k not in fates:
                fates.add(k)
                out.append(f"fate {k} " + r.choice(["drop", f"repeat {r.randint(2, 8)}", f"hold {k + r.randint(1, 5)}", f"again {k + r.randint(1, 9)}"]))
    if r.random() < 0.05: out.insert(r.randrange(len(out) + 1), "disable root")
    return "\n".join(out) + "\n"

def main():
    first, count = int(sys.argv[1]), int(sys.argv[2])
    for seed in range(first, first + count):
        case = sessions.Case(seed)
        print(f"# seed {seed}")
        config, lines = case.config(), script(case)
        print("config " + config.replace("\n", "\\n"))
        print("script " + lines.replace("\n", "\\n"))
        print(f"room {case.r.choice([1, 1, 2, 64, 1024])}")
        state = lanes.Session(config, lanes.Link({}))
        if len(lanes.lanes_of(state.groups, state.senders)) == 1:
            fails = sorted(case.r.sample(range(12), case.r.choice([0, 0, 1, 3])))
            if fails: print("sends" + "".join(f" {k}" for k in fails))
        print("run")

if __name__ == "__main__": main()
