#!/usr/bin/env python3
"""Compares the program cases_command with model.py over the sessions that random_cases.py makes of seeds.

usage: compare.py FIRST COUNT [PROGRAM]     (the seeds FIRST to FIRST + COUNT - 1; PROGRAM is crates/cases_command/out/cases_command,
                                            which `rt run` builds there)

It names each seed whose answers differ, with the first line that does, and prints what it compared: how many sessions, and how many of them
have each of some traits. The status is 1 where one differs."""
import io, os, subprocess, sys
from contextlib import redirect_stdout
HERE = os.path.dirname(os.path.abspath(__file__))
sys.path.insert(0, HERE)
import random_cases

AT_ONCE = 100
TRAITS = [("with quality", "quality = true"), ("secured", "security = \"encrypt\"", "security = \"sign\""), ("with slots", "layout = \"fixed\""),
          ("with datagrams of 128 to 400 bytes", "max_size = 128", "max_size = 200", "max_size = 400"), ("with an appended field", "append d"),
          ("with a fate", "fate "), ("with switches", "disable "), ("with watches", "watch "), ("with failing calls", "\nsends ", "\nreceives "), ("with injected datagrams", "\ninject ")]

def cases(first, count):
    """the cases of these seeds, by seed"""
    sys.argv = ["random_cases.py", str(first), str(count)]
    text = io.StringIO()
    with redirect_stdout(text): random_cases.main()
    return ["# seed " + part for part in text.getvalue().split("# seed ")[1:]]

def answers(command, text):
    done = subprocess.run(command, input=text, stdout=subprocess.PIPE, text=True)
    if done.returncode: sys.exit(f"{command}: status {done.returncode}")
    return ["# seed " + part for part in done.stdout.split("# seed ")[1:]]

def main():
    first, count = int(sys.argv[1]), int(sys.argv[2])
    program = sys.argv[3] if len(sys.argv) > 3 else os.path.join(HERE, "..", "..", "crates", "cases_command", "out", "cases_command")
    differing, refused, traits = 0, 0, dict.fromkeys((t[0] for t in TRAITS), 0)
    for at in range(first, first + count, AT_ONCE):
        made = cases(at, min(AT_ONCE, first + count - at))
        text = "".join(made)
        wanted, got = answers([sys.executable, os.path.join(HERE, "model.py")], text), answers([program], "command play\n" + text)
        if len(got) != len(made): sys.exit(f"seeds from {at}: {len(got)} answers to {len(made)} cases")
        for case, want, have in zip(made, wanted, got):
            refused += "play -> config:" in have or "play -> script:" in have
            for name, *words in TRAITS: traits[name] += any(word in case for word in words)
            if want == have: continue
            differing += 1
            lines = list(zip(want.split("\n"), have.split("\n")))
            line = next((pair for pair in lines if pair[0] != pair[1]), ("one answer is longer", ""))
            print(f"{case.split(chr(10))[0]}: the model has `{line[0]}`, the program `{line[1]}`")
    print(f"{count} sessions of the seeds {first} to {first + count - 1}: {differing} differ, {refused} refused; "
          + ", ".join(f"{n} {name}" for name, n in traits.items()))
    return 1 if differing else 0

if __name__ == "__main__": sys.exit(main())
