#!/usr/bin/env python3
"""Compares the program cases_command with model.py over the cases that random_cases.py makes of seeds.

usage: compare.py FIRST COUNT [PROGRAM]     (the seeds FIRST to FIRST + COUNT - 1; PROGRAM is crates/cases_command/out/cases_command, which
                                            `rt run` builds there)

It names each seed whose answers differ, with the first line that does, and prints how many cases it compared, and how many of them have each
of some traits. The status is 1 where one differs."""
import os, subprocess, sys
HERE = os.path.dirname(os.path.abspath(__file__))
AT_ONCE = 50
TRAITS = [("secured", "security = \"encrypt\"", "security = \"sign\""), ("with several groups", "name = \"g1\""), ("with slots", "layout = \"fixed\""),
          ("with quality", "quality = true"), ("with small datagrams", "max_size = 128", "max_size = 200", "max_size = 400"), ("with one place", "\nroom 1\n"),
          ("with a failing send", "\nsends "), ("that lanes don't take", "disable root")]

def parts(command, text=None):
    done = subprocess.run(command, input=text, stdout=subprocess.PIPE, text=True)
    if done.returncode: sys.exit(f"{command}: status {done.returncode}")
    return ["# seed " + part for part in done.stdout.split("# seed ")[1:]]

def main():
    first, count = int(sys.argv[1]), int(sys.argv[2])
    program = sys.argv[3] if len(sys.argv) > 3 else os.path.join(HERE, "..", "..", "crates", "cases_command", "out", "cases_command")
    differing, refused, traits = 0, 0, dict.fromkeys((t[0] for t in TRAITS), 0)
    for at in range(first, first + count, AT_ONCE):
        many = min(AT_ONCE, first + count - at)
        made = parts([sys.executable, os.path.join(HERE, "random_cases.py"), str(at), str(many)])
        text = "".join(made)
        wanted, got = parts([sys.executable, os.path.join(HERE, "model.py")], text), parts([program], "command lanes\n" + text)
        if len(got) != len(made): sys.exit(f"seeds from {at}: {len(got)} answers to {len(made)} cases")
        for case, want, have in zip(made, wanted, got):
            refused += "status 0" not in have
            for name, *words in TRAITS: traits[name] += any(word in case for word in words)
            if want == have: continue
            differing += 1
            lines = list(zip(want.split("\n"), have.split("\n")))
            line = next((pair for pair in lines if pair[0] != pair[1]), ("one answer is longer", ""))
            print(f"{case.split(chr(10))[0]}: the model has `{line[0]}`, the program `{line[1]}`")
    print(f"{count} cases of the seeds {first} to {first + count - 1}: {differing} differ, {refused} refused; "
          + ", ".join(f"{n} {name}" for name, n in traits.items()))
    return 1 if differing else 0

if __name__ == "__main__": sys.exit(main())
