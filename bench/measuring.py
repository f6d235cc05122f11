"""What running a program costs: instructions, processor time, time on the wall, and memory. Valgrind must be installed.

usage: measuring.py TITLE CALLS WHOLE NONE      (prints what each function takes of one of the calls by which the command WHOLE makes more than NONE)"""
import fcntl
import os
import re
import subprocess
import sys
import time

SET_PIPE_SIZE, PIPE_BYTES = 1031, 4096
# of /proc/PID/syscall, where the program waits to write to its output
WRITING = "1 0x1 "
# of callgrind_annotate: the count, and behind the file's name the function's
FUNCTION = re.compile(r"^ *([\d,]+) +(?:\([ \d.]+%\) +)?[^:\n]*:(.+?)(?: \[[^\]\n]*\])?$", re.M)
NO_AES = {"OPENSSL_ia32cap": "~0x200000000000000"}


def instructions(words, more={}, status=0, given=""):
    """Those of the program itself, as valgrind's cachegrind counts them."""
    command = ["valgrind", "--tool=cachegrind", "--cache-sim=no", "--cachegrind-out-file=/dev/null", *words]
    done = subprocess.run(command, input=given, stdout=subprocess.DEVNULL, stderr=subprocess.PIPE, text=True, env=dict(os.environ, **more))
    found = re.search(r"I +refs: +([\d,]+)", done.stderr)
    if done.returncode != status or not found:
        sys.exit(f"{' '.join(words)}: status {done.returncode}: {done.stderr}")
    return int(found[1].replace(",", ""))


def instructions_within(words, calls, more={}):
    """Those within each of these functions and in what it calls, as callgrind counts them. A function goes by several names: the first counts that
    callgrind finds, since one that was laid into its caller has no name of its own."""
    profile(words, more)
    told = annotated("--inclusive=yes")
    return [next((count for count in (count_of(told, name) for name in names) if count), 0) or sys.exit(f"{words[0]}: callgrind finds none of {names}") for names in calls]


def profile(words, more, given=""):
    """Has callgrind count each function's, into the file callgrind."""
    command = ["valgrind", "--tool=callgrind", "--callgrind-out-file=callgrind", *words]
    subprocess.run(command, input=given, text=True, stdout=subprocess.DEVNULL, stderr=subprocess.DEVNULL, env=dict(os.environ, **more), check=True)


def annotated(how):
    return subprocess.run(["callgrind_annotate", how, "--threshold=100", "callgrind"], capture_output=True, text=True, check=True).stdout


def count_of(told, name):
    found = re.search(r"^ *([\d,]+) .*:" + re.escape(name) + r"(?:::<\S*)? \[", told, re.M)
    return int(found[1].replace(",", "")) if found else 0


def by_function(words, more={}, given=""):
    """Each function's instructions, alone and with what it calls."""
    profile(words, more, given)
    both = []
    for how in ("--inclusive=no", "--inclusive=yes"):
        counts = {}
        for count, name in FUNCTION.findall(annotated(how)):
            counts[name] = counts.get(name, 0) + int(count.replace(",", ""))
        both.append(counts)
    return both


def print_functions(title, whole, none, calls, more={}, given=("", "")):
    """A row for each function of the calls by which the whole run has more than the one without: what it takes of one, alone and with what it calls.
    Functions with less than a hundredth of all are left out."""
    (alone, within), (alone_none, within_none) = (by_function(words, more, text) for words, text in zip((whole, none), given))
    of = {name: ((alone.get(name, 0) - alone_none.get(name, 0)) / calls, (count - within_none.get(name, 0)) / calls) for name, count in within.items()}
    total = sum(own for own, _ in of.values())
    print(f"{title}: {total:,.0f} instructions\n{'alone':>10} {'with calls':>12}")
    for name, (own, all_) in sorted(of.items(), key=lambda it: -it[1][0]):
        if max(own, all_) >= total / 100:
            print(f"{own:10,.1f} {all_:12,.1f}  {name}")
    sys.stdout.flush()


class Times:
    """Seconds of one run: on the wall and of processors, user and system."""

    def __init__(self, words, more={}, status=0):
        environment = dict(os.environ, **more)
        nothing = os.open(os.devnull, os.O_WRONLY)
        start = time.perf_counter()
        child = os.posix_spawn(words[0], words, environment, file_actions=[(os.POSIX_SPAWN_DUP2, nothing, 1), (os.POSIX_SPAWN_DUP2, nothing, 2)])
        _, ended, usage = os.wait4(child, 0)
        self.wall = time.perf_counter() - start
        os.close(nothing)
        if ended != status << 8:
            sys.exit(f"{' '.join(words)}: status {ended >> 8}, signal {ended & 127}")
        self.processor = usage.ru_utime + usage.ru_stime

    def lower(self, other):
        """Takes what the other run took less of."""
        self.wall, self.processor = min(self.wall, other.wall), min(self.processor, other.processor)


def least(rounds, *runs):
    """The least times of each of these, run by turns."""
    found = [run() for run in runs]
    for _ in range(rounds - 1):
        for times, run in zip(found, runs):
            times.lower(run())
    return found


def peak(words):
    """The most memory that the program had in MiB, the kernel's VmHWM, read while it waits to write the end of its output into a full pipe."""
    reader, writer = os.pipe()
    fcntl.fcntl(writer, SET_PIPE_SIZE, PIPE_BYTES)
    os.write(writer, bytes(PIPE_BYTES))
    child = subprocess.Popen(words, stdout=writer, stderr=subprocess.DEVNULL)
    os.close(writer)
    folder = f"/proc/{child.pid}/"
    while not open(folder + "syscall").read().startswith(WRITING):
        if child.poll() is not None:
            sys.exit(f"{' '.join(words)}: ended with status {child.returncode} and wrote nothing")
        time.sleep(0.001)
    status = open(folder + "status").read()
    with os.fdopen(reader, "rb") as rest:
        rest.read()
    child.wait()
    return int(re.search(r"VmHWM:\s+(\d+)", status)[1]) / 1024


if __name__ == "__main__":
    title, calls, whole, none = sys.argv[1:]
    print_functions(title, whole.split(), none.split(), int(calls))
