#!/usr/bin/env python3
"""An independent check of a report of `run`: whether the threads of a script, in some order, and a publisher beside them can have left it.
Made from the documents of docs/ (SCRIPT, REPORT, CONFIGURATION) and the model of models/session, without a look at the crates.

usage: check.py SCRIPT CONFIG REPORT     (files; `-` for CONFIG is the built-in configuration)

What is checked of every report:
- each history names each thread as often as the script has writes of it, and no other thread: so it fixes the row of each version;
- the versions of a writer's log don't fall, none is beyond its history, and its places follow one another;
- what a reader of this program's writers holds is the row of the version that is told, cut to its fields, and the writer's log has this
  version at the number that is told;
- there are as many looks of each watch as the script says, in order, and no count of a thread at a reader falls.
Where every datagram that was sent came, and none else did, there are versions at each tick, which don't fall and end with the whole
histories, such that the model tells the very report for them, but for the looks; and no look counts more stores than the model has."""
import copy, importlib.util, itertools, os, pickle, sys

def load(folder, name):
    path = os.path.join(os.path.dirname(os.path.abspath(__file__)), "..", folder, "model.py")
    spec = importlib.util.spec_from_file_location(name, path)
    module = importlib.util.module_from_spec(spec)
    sys.modules[name] = module
    spec.loader.exec_module(module)
    return module

session = load("session", "session_model")
sys.modules["groups_model"] = session.groups
Session, Link, BUILT_IN = session.Session, session.Link, session.BUILT_IN
default, parse_text, value_text = session.default, session.parse_text, session.value_text

class Wrong(Exception):
    """the report isn't a possible one"""

class Undecided(Exception):
    """so many sessions may stand behind the report that not all were looked at"""

MOST_SESSIONS = 1024

def demand(holds, what):
    if not holds: raise Wrong(what)

def numbers(words): return [int(w) for w in words]

class Report:
    """the lines of a report, by what they tell"""
    def __init__(self, text):
        self.histories, self.logs, self.readers, self.watches, self.rest, self.link = {}, {}, {}, [], [], {}
        lines = text.split("\n")
        demand(lines[-1] == "" and lines[-2] == "end", "the report ends with `end`")
        for line in lines[:-2]:
            head, colon, tail = line.partition(":")
            words = head.split(" ")
            if words[0] == "history":
                self.histories[words[1]] = numbers(tail.split())
                demand(int(words[2]) == len(self.histories[words[1]]), f"{line}: the count")
            elif words[0] == "watch":
                self.watches.append((int(words[1]), words[2], numbers(tail.split())))
            elif words[0] == "link":
                self.link = {words[i]: int(words[i + 1]) for i in range(1, len(words), 2)}
                self.rest.append(line)
            else:
                self.rest.append(line)
                if words[0] == "writer":
                    self.logs[words[1]] = [tuple(numbers(entry.split("="))) for entry in tail.split()]
                    demand(int(words[3]) == len(self.logs[words[1]]), f"{line}: the count")
                if words[0] == "reader":
                    held = None
                    if words[3] == "number": held = (words[4], words[6], tail.split(" ")[1:])
                    self.readers[words[1]] = (words[2], held)

class Script:
    """what the threads of a script write, and the other lines"""
    def __init__(self, text, config):
        self.lines = session.lines_of(text)
        demand(all(w[0] != "fate" for w in self.lines), "no line gives a fate")
        whole = Session(config, Link({}))
        for words in self.lines:
            if words[0] == "append": whole.line(words)
        self.names, self.fields, self.kinds = whole.set_names, whole.field_names, [s["fields"] for s in whole.c.sets]
        self.writes = [[[] for _ in range(8)] for _ in self.names]
        self.watches = [[] for _ in range(8)]
        for words in self.lines:
            if words[0] == "write": self.writes[self.names.index(words[2])][int(words[1])].append(self.patch(words))
            if words[0] == "watch": self.watches[int(words[1])].append((words[2], int(words[3])))
        self.others = [w for w in self.lines if w[0] not in ("write", "watch")]
    def patch(self, words):
        at = self.names.index(words[2])
        patch = {}
        for word in words[3:]:
            head, _, value = word.partition("=")
            field, _, status = head.partition("!")
            i = self.fields[at].index(field)
            patch[i] = (parse_text(self.kinds[at][i]["kind"], value), int(status, 16) if status else 0)
        return patch
    def rows(self, at, threads):
        """the row of each version, with all fields of the data set; each thread's writes come in order"""
        row, left = [(default(f["kind"]), 0) for f in self.kinds[at]], [iter(w) for w in self.writes[at]]
        rows = [row]
        for t in threads:
            patch = next(left[t])
            row = [patch.get(i, x) for i, x in enumerate(row)]
            rows.append(row)
        return rows

def check_histories(script, report):
    demand(list(report.histories) == script.names, "a history for each data set, in order")
    for at, name in enumerate(script.names):
        threads = report.histories[name]
        demand(all(0 <= t < 8 for t in threads), f"{name}: threads 0 to 7")
        for t in range(8):
            demand(threads.count(t) == len(script.writes[at][t]), f"{name}: thread {t} stands {threads.count(t)} times, and has {len(script.writes[at][t])} writes")

def check_logs(config, script, report):
    plain = Session(config, Link({}))
    for g, group in enumerate(plain.groups):
        for c, w in zip(plain.writer_at[g], group.writers):
            log = report.logs[c.name]
            most = len(report.histories[script.names[w.part["set"]]])
            versions = [v for _, v in log]
            demand(versions == sorted(versions), f"{c.name}: the versions fall")
            demand(all(v <= most for v in versions), f"{c.name}: a version beyond the history")
            demand(all(b[0] == a[0] + 1 for a, b in zip(log, log[1:])), f"{c.name}: the places")
    return plain

def check_readers(plain, script, report, rows):
    for r, group in enumerate(plain.reads):
        for c, x in zip(plain.reader_at[r], group.readers):
            state, held = report.readers[c.name]
            if held is None or held[1] == "-": continue
            number, version, words = int(held[0]), int(held[1]), held[2]
            logs = [report.logs[plain.writer_at[g][i].name] for g, it in enumerate(plain.groups) for i, w in enumerate(it.writers) if w.part["id"] == x.part["writer"]]
            demand(any((p % 65536, v) == (number, version) for log in logs for p, v in log), f"{c.name}: no log has version {version} at number {number}")
            sets = [w.part["set"] for it in plain.groups for w in it.writers if w.part["id"] == x.part["writer"]]
            if sets != [x.part["set"]]: continue        # another data set's row isn't this reader's
            at = x.part["set"]
            names, kinds = plain.configured_names[at], x.meta["fields"]
            told = [n + (f"!0x{s:08x}" if s else "") + "=" + value_text(f["kind"], v) for n, f, (v, s) in zip(names, kinds, rows[at][version])]
            demand(words == told, f"{c.name}: holds {words}, and version {version} is {told}")

def check_watches(script, report):
    expected = [(t, name, times) for t in range(8) for name, times in script.watches[t]]
    demand([(t, name, len(counts)) for t, name, counts in report.watches] == expected, "the watches, in order")
    for t in range(8):
        for name in {n for u, n, _ in report.watches if u == t}:
            counts = [k for u, n, ks in report.watches if u == t and n == name for k in ks]
            demand(counts == sorted(counts), f"thread {t}: its looks at {name} fall")

# ---- the publisher beside the threads

def sample(state, rows, versions):
    """the model's rows at a tick, cut to the fields of the moment"""
    state.rows = [rows[at][version][:len(state.c.sets[at]["fields"])] for at, version in enumerate(versions)]
    state.threads = [[0] * version for version in versions]

def is_front(state, report):
    """whether the logs so far begin the told ones"""
    return all(w.log == report.logs[c.name][:len(w.log)] for g, it in enumerate(state.groups) for c, w in zip(state.writer_at[g], it.writers))

def quiet_at(state, writer, rows, version):
    """the first version from this one on, alone in a list, at which the writer has sent the row already; none where there is no such one"""
    sent = [row for _, row, answer in writer.turns if answer in ("Whole", "Change")]
    fields = len(state.c.sets[writer.part["set"]]["fields"])
    return [v for v in range(version, len(rows)) if sent and rows[v][:fields] == sent[-1]][:1]

def candidates(state, report, rows, versions):
    """for each data set the versions that a tick may have sampled: that of the tick before, the next of one of its writers' logs, or one at which
    a writer has nothing to send"""
    found = [{v} for v in versions]
    for g, it in enumerate(state.groups):
        for c, w in zip(state.writer_at[g], it.writers):
            rest = report.logs[c.name][len(w.log):]
            at = w.part["set"]
            if rest and rest[0][1] >= versions[at]: found[at].add(rest[0][1])
            found[at].update(quiet_at(state, w, rows[at], versions[at]))
    return itertools.product(*[sorted(vs) for vs in found])

def ticked(after, report, rows, versions, ms, closing):
    """whether this session may have a tick at these versions; it has had it then"""
    sample(after, rows, versions)
    after.tick(ms, closing)
    if not is_front(after, report): return False
    after.pump()
    return True

def copies(state, count):
    """the session so often, itself the last"""
    for _ in range(count - 1): yield copy.deepcopy(state)
    yield state

def search(config, script, report, rows):
    """versions for each tick such that the model tells the report; the states of the model that may stand behind each line are kept"""
    ends = [len(report.histories[name]) for name in script.names]
    states = [(Session(config, Link({})), [0] * len(script.names))]
    for words in script.others + [["close"]]:
        following = []
        for state, versions in states:
            if words[0] not in ("tick", "close"):
                state.line(words)
                following.append((state, versions))
                continue
            closing = words[0] == "close"
            chosen = [tuple(ends)] if closing else list(candidates(state, report, rows, versions))
            for after, at in zip(copies(state, len(chosen)), chosen):
                if ticked(after, report, rows, at, 0 if closing else int(words[1]), closing): following.append((after, list(at)))
        # of equal states the one with the lowest versions leaves the most to come
        best = {}
        for state, versions in following:
            state.rows = state.threads = [[] for _ in script.names]
            key = pickle.dumps(state)
            if key not in best or versions < best[key][1]: best[key] = (state, versions)
        states = list(best.values())
        demand(states, f"no version at `{' '.join(words)}` goes with the logs")
        if len(states) > MOST_SESSIONS: raise Undecided(f"more than {MOST_SESSIONS} sessions at `{' '.join(words)}`")
    for state, _ in states:
        told = [line for line in state.report()[:-1] if line.split(" ")[0] not in ("history", "watch")]
        if told == report.rest: return state
    raise Wrong("the model tells\n" + "\n".join(told) + "\nand not\n" + "\n".join(report.rest))

def told_by(script_text, config, text):
    """the model's session that tells the whole report, or None where there were losses; Wrong where the report is"""
    report = Report(text)
    script = Script(script_text, config)
    check_histories(script, report)
    plain = check_logs(config, script, report)
    rows = [script.rows(at, report.histories[name]) for at, name in enumerate(script.names)]
    check_readers(plain, script, report, rows)
    check_watches(script, report)
    link = report.link
    if link["received"] != link["sent"] or link["failed"] or link["broken"] or link["long"] or link["limit"]: return None
    state = search(config, script, report, rows)
    for t, name, counts in report.watches:
        place = next(c.at for c in state.tree if c.name == name and c.kind == "reader")
        demand(all(k <= len(state.stores.get(place, [])) for k in counts), f"watch {t} {name}: more looks than stores")
    return state

def check(script_text, config, text):
    """whether the whole report was compared; Wrong where it is"""
    return told_by(script_text, config, text) is not None

def sent_in(state):
    """the datagrams that the model's session sent, in order"""
    return [state.link.sent[k] for k in sorted(state.link.sent)]

def main():
    script, config, report = (open(p, encoding="utf-8").read() if p != "-" else BUILT_IN for p in sys.argv[1:4])
    try:
        whole = check(script, config, report)
    except (Wrong, Undecided) as it:
        sys.exit(f"{type(it).__name__.lower()}: {it}")
    print("right" if whole else "right, as far as a report with losses tells")

if __name__ == "__main__": main()
