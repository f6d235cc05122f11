"""Instructions of the rows of bench/groups, here and by hand: those that valgrind counts of a row's calls, less those of opening alone. Of one row
it tells what each function takes.
usage: functions.py MEASURE [ROW]     (MEASURE: what bench/groups/run compiles; rows are numbered from 0)"""
import os
import subprocess
import sys

sys.dont_write_bytecode = True
sys.path.insert(0, os.path.dirname(os.path.dirname(os.path.abspath(__file__))))
from measuring import NO_AES, instructions, print_functions

SIDES = {"here": "here", "by hand": "by-hand"}


def words(measure, row, side, what):
    return [measure, str(row), SIDES[side], what]


def named(measure, row):
    """The row's name and how many calls it has, or None where there is no such row."""
    done = subprocess.run(words(measure, row, "here", "none"), capture_output=True, text=True)
    if done.returncode == 2:
        return None
    name, calls = done.stdout.strip().rsplit(": ", 1)
    return name, int(calls)


def of_a_call(measure, row, side, calls):
    whole, none = (instructions(words(measure, row, side, what), NO_AES) for what in ("all", "none"))
    return (whole - none) / calls


def print_all(measure):
    row = 0
    while found := named(measure, row):
        name, calls = found
        here, by_hand = (of_a_call(measure, row, side, calls) for side in SIDES)
        print(f"{row:2} {name}: {here:,.0f} instructions, by hand {by_hand:,.0f}, ratio {by_hand / here:.2f}", flush=True)
        row += 1


def print_one(measure, row):
    found = named(measure, row) or sys.exit(f"there is no row {row}")
    for side in SIDES:
        print_functions(f"{found[0]}, {side}", *(words(measure, row, side, what) for what in ("all", "none")), found[1], NO_AES)


if len(sys.argv) > 2:
    print_one(sys.argv[1], sys.argv[2])
else:
    print_all(sys.argv[1])
