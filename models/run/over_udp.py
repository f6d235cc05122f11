#!/usr/bin/env python3
"""Runs random configurations and scripts over real UDP on loopback, and checks each report with check.py.

usage: over_udp.py PROGRAM FIRST COUNT [OUT]     (the seeds FIRST to FIRST + COUNT - 1 of models/session/random_cases.py, without fates; where
                                                  OUT is given, a report that is wrong is kept there with its files)"""
import os, subprocess, sys, tempfile
HERE = os.path.dirname(os.path.abspath(__file__))
sys.path.insert(0, HERE)
import check
sys.path.insert(0, os.path.join(HERE, "..", "session"))
from random_cases import Case

def texts(seed):
    case = Case(seed)
    config = case.config()
    script = "".join(line + "\n" for line in case.script().splitlines() if not line.startswith("fate"))
    return config, script

def main():
    program, first, count = os.path.abspath(sys.argv[1]), int(sys.argv[2]), int(sys.argv[3])
    out = sys.argv[4] if len(sys.argv) > 4 else None
    refused = lossy = undecided = wrong = 0
    for seed in range(first, first + count):
        config, script = texts(seed)
        with tempfile.TemporaryDirectory() as folder:
            for name, text in (("c", config), ("s", script)):
                with open(os.path.join(folder, name), "w", encoding="utf-8") as file: file.write(text)
            ran = subprocess.run([program, "run", "s", "--config", "c"], cwd=folder, capture_output=True, text=True, timeout=120)
        if ran.returncode in (3, 4):
            refused += 1        # the generator's texts aren't all accepted
            continue
        try:
            if ran.returncode: raise check.Wrong(f"status {ran.returncode}: {ran.stderr}")
            lossy += not check.check(script, config, ran.stdout)
        except check.Undecided: undecided += 1
        except check.Wrong as it:
            wrong += 1
            print(f"seed {seed}: {it}")
            if out:
                os.makedirs(out, exist_ok=True)
                for name, text in (("config", config), ("script", script), ("report", ran.stdout)):
                    with open(os.path.join(out, f"{seed}.{name}"), "w", encoding="utf-8") as file: file.write(text)
    print(f"{count} runs, {refused} refused, {lossy} with losses, {undecided} undecided, {wrong} wrong")
    sys.exit(1 if wrong else 0)

if __name__ == "__main__": main()
