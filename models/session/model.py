#!/usr/bin/env python3
"""An independent model of whole sessions: the script over the groups of models/groups, made from OPC 10000-14 and the documents of
docs/ (SCRIPT, REPORT, CONFIGURATION), without a look at the crates.

usage: model.py < CASES     (the lines behind `command play` in crates/cases_command/stdin: prints what the runner has to print)

It refuses no text itself: a note `# refused TEXT` says what the next `play` answers."""
import copy, importlib.util, os, sys, tomllib

def groups_model():
    """models/groups/model.py"""
    path = os.path.join(os.path.dirname(os.path.abspath(__file__)), "..", "groups", "model.py")
    spec = importlib.util.spec_from_file_location("groups_model", path)
    module = importlib.util.module_from_spec(spec)
    spec.loader.exec_module(module)
    return module

groups = groups_model()
Config, Group, ReaderGroup, Sender = groups.Config, groups.Group, groups.ReaderGroup, groups.Sender
default, parse_text, value_text = groups.default, groups.parse_text, groups.value_text

BUILT_IN = """[publisher]
id = "u8:5"
[[dataset]]
name = "demo"
field = [{name = "a", kind = "UInt32"}, {name = "b", kind = "UInt32"}, {name = "c", kind = "UInt32"}, {name = "d", kind = "UInt32"}]
[[group]]
name = "g1"
id = 1
interval = 100
writer = [{name = "w1", id = 1, dataset = "demo"}]
[[readgroup]]
name = "rg1"
publisher = "u8:5"
group = 1
reader = [{name = "r1", writer = 1, dataset = "demo"}]
"""

CAUSES = ["Short", "Version", "DiscoveryOut", "BadPublisherType", "ReservedBits", "BadId", "NotOurs", "ModeDiffers", "FooterOut", "KeyResetOut",
          "BadNonceLength", "GuardShort", "UnknownToken", "OldToken", "BadSignature", "Repeated", "TooOld", "NoIds", "BadSizes", "BadFrame"]

def cause_of(refusal):
    part, _, inner = refusal.partition("(")
    if not inner: return part
    word = inner.rstrip(")").split(" ")[0].rstrip(")")
    return "GuardShort" if part == "Guard" and word == "Short" else word

class Link:
    """datagrams on their way, numbered from 0 by calls of `send`"""
    def __init__(self, fates, send_fails=(), receive_fails=(), injected=()):
        self.fates, self.send_fails, self.receive_fails, self.injected = fates, set(send_fails), set(receive_fails), list(injected)
        self.count = self.receives = 0
        self.sent, self.queue = {}, []
        self.done = self.failed = self.got = self.broken = self.long = 0
    def send(self, datagram):
        k = self.count
        self.count += 1
        if k in self.send_fails:
            self.failed += 1
            return False
        self.done += 1
        self.sent[k] = datagram
        kind, n = self.fates.get(k, ("once", 0))
        self.queue += [datagram] * {"drop": 0, "hold": 0, "repeat": n}.get(kind, 1)
        for other in sorted(self.sent):
            fate = self.fates.get(other)
            if fate and fate[0] in ("hold", "again") and fate[1] == k: self.queue.append(self.sent[other])
        self.queue += [d for at, d in self.injected if at == k]
        return True
    def receive(self):
        """None: nothing waits; False: it failed; else a datagram, or its length where it is too long"""
        k = self.receives
        self.receives += 1
        if k in self.receive_fails:
            self.broken += 1
            return False
        if not self.queue: return None
        datagram = self.queue.pop(0)
        if len(datagram) > 65536:
            self.long += 1
            return len(datagram)
        self.got += 1
        return datagram

class Component:
    def __init__(self, name, parent, kind, at):
        self.name, self.parent, self.kind, self.at = name, parent, kind, at
        self.enabled = True
    def is_below(self, other):
        return self is other or self.parent is not None and self.parent.is_below(other)

class Session:
    def __init__(self, text, link):
        d = tomllib.loads(text)
        self.link, self.now = link, 0
        self.c = Config(text)
        self.own = self.c.publisher
        self.set_names = [s["name"] for s in d.get("dataset", [])]
        self.field_names = [[f["name"] for f in s["field"]] for s in d.get("dataset", [])]
        configured = copy.deepcopy(self.c)
        self.configured_names = copy.deepcopy(self.field_names)
        self.groups = [Group(self.c, i) for i in range(len(self.c.groups))]
        self.senders = [Sender(k) for k in self.c.keys]
        self.reads = [ReaderGroup(configured, i) for i in range(len(self.c.readgroups))]
        self.rows = [[(default(f["kind"]), 0) for f in s["fields"]] for s in self.c.sets]
        self.threads = [[] for _ in self.c.sets]
        self.sent = [0] * len(self.groups)
        self.failing = [False] * len(self.groups)
        self.taken = [0] * len(self.reads)
        self.causes = [dict.fromkeys(CAUSES, 0) for _ in self.reads]
        self.limit = 0
        self.stores = {}
        self.looks = [[] for _ in range(8)]
        root = Component("root", None, "root", None)
        connection = Component("connection", root, "root", None)
        self.tree = [root, connection]
        self.group_at, self.writer_at, self.read_at, self.reader_at = [], [], [], []
        for g, t in enumerate(d.get("group", [])):
            self.group_at.append(Component(t["name"], connection, "group", g))
            self.writer_at.append([Component(w["name"], self.group_at[g], "writer", (g, i)) for i, w in enumerate(t.get("writer", []))])
            self.tree += [self.group_at[g]] + self.writer_at[g]
        for r, t in enumerate(d.get("readgroup", [])):
            self.read_at.append(Component(t["name"], connection, "readgroup", r))
            self.reader_at.append([Component(x["name"], self.read_at[r], "reader", (r, i)) for i, x in enumerate(t.get("reader", []))])
            self.tree += [self.read_at[r]] + self.reader_at[r]

    # ---- states
    def sender_of(self, g):
        k = self.groups[g].part["keygroup"]
        return None if k is None else self.senders[k]
    def fault(self, c):
        if c.kind == "group":
            sender = self.sender_of(c.at)
            return self.failing[c.at] or sender is not None and sender.spent()
        if c.kind == "reader": return self.reads[c.at[0]].readers[c.at[1]].late
        return False
    def ready(self, c):
        return self.reads[c.at[0]].readers[c.at[1]].ready if c.kind == "reader" else True
    def state(self, c):
        if not c.enabled: return "disabled"
        if c.parent is not None and self.state(c.parent) != "operational": return "paused"
        if self.fault(c): return "error"
        return "operational" if self.ready(c) else "preoperational"
    def named(self, name):
        return next(c for c in self.tree if c.name == name)

    # ---- lines
    def line(self, words):
        getattr(self, "do_" + words[0])(*words[1:])
    def do_write(self, thread, name, *words):
        at = self.set_names.index(name)
        row = list(self.rows[at])
        for word in words:
            head, _, value = word.partition("=")
            field, _, status = head.partition("!")
            i = self.field_names[at].index(field)
            row[i] = (parse_text(self.c.sets[at]["fields"][i]["kind"], value), int(status, 16) if status else 0)
        self.rows[at] = row
        self.threads[at].append(int(thread))
    def do_enable(self, name):
        c = self.named(name)
        c.enabled = True
        for g, writers in enumerate(self.writer_at):
            for w, x in enumerate(writers):
                if x.is_below(c): self.groups[g].writers[w].fresh = True
    def do_disable(self, name):
        c = self.named(name)
        c.enabled = False
        for r, readers in enumerate(self.reader_at):
            for i, x in enumerate(readers):
                if x.is_below(c): self.reads[r].readers[i].stop("Restarted")
    def do_append(self, name, field, kind, cap="0"):
        at = self.set_names.index(name)
        meta = self.c.sets[at]
        meta["fields"] = meta["fields"] + [dict(kind=kind, cap=int(cap))]
        meta["minor"] += 1
        self.field_names[at].append(field)
        self.rows[at] = self.rows[at] + [(default(kind), 0)]
        for g in self.groups:
            for x in g.writers:
                if x.part["set"] == at: x.fresh = True
    def do_fate(self, *words):
        pass
    def do_watch(self, thread, name, times):
        r, i = next(c for c in self.tree if c.name == name and c.kind == "reader").at
        self.looks[int(thread)].append((name, [len(self.stores.get((r, i), []))] * int(times)))
    def do_tick(self, ms):
        self.tick(int(ms), False)
        self.pump()

    # ---- ticks and pumps
    def tick(self, ms, closing):
        self.now += ms
        for k, sender in enumerate(self.senders):
            if sender.turn_to(self.now):
                for g in self.groups:
                    if g.part["keygroup"] == k:
                        for x in g.writers: x.fresh = True
        for r in self.reads:
            for x in r.readers: x.expire(self.now)
        self.failing = [False] * len(self.groups)
        for g, group in enumerate(self.groups):
            if self.state(self.group_at[g]) != "operational" or not (closing or group.due(self.now)): continue
            on = [self.state(c) == "operational" for c in self.writer_at[g]]
            sampled = [(row, len(t)) for row, t in zip(self.rows, self.threads)]
            for datagram in group.tick(self.now, sampled, on, self.sender_of(g), closing):
                done = self.link.send(datagram)
                self.failing[g] = not done
                self.sent[g] += done
    def pump(self):
        taken = 0
        while taken < 65536:
            datagram = self.link.receive()
            if datagram is None or datagram is False: break
            taken += 1
            if isinstance(datagram, int): continue
            for r, group in enumerate(self.reads):
                if self.state(self.read_at[r]) != "operational": continue
                group.on = [c.enabled for c in self.reader_at[r]]
                answer = group.datagram(self.now, datagram)
                if answer.startswith("taken"):
                    self.taken[r] += 1
                    self.causes[r]["BadFrame"] += int(answer.split()[3])
                else: self.causes[r][cause_of(answer)] += 1
        self.limit += taken == 65536
        for r, group in enumerate(self.reads):
            for i, x in enumerate(group.readers):
                if x.row is None: continue
                stores = self.stores.setdefault((r, i), [])
                same = stores and (stores[-1][1] == x.row if x.part["numbering"] == "none" else stores[-1][0] == x.number)
                if not same: stores.append((x.number, list(x.row)))

    # ---- the report
    def version(self, r, x):
        if x.number is None or self.reads[r].part["publisher"] != self.own: return "-"
        log = [v for g in self.groups for w in g.writers if w.part["id"] == x.part["writer"] for p, v in w.log if p % 65536 == x.number]
        return str(log[-1]) if log else "-"
    def row_words(self, x):
        names = self.configured_names[x.part["set"]]
        return "".join(f" {n}" + (f"!0x{s:08x}" if s else "") + "=" + value_text(f["kind"], v) for n, f, (v, s) in zip(names, x.meta["fields"], x.row))
    def report(self):
        out = []
        for name, threads in zip(self.set_names, self.threads):
            out.append(f"history {name} {len(threads)}:" + "".join(f" {t}" for t in threads))
        for g, group in enumerate(self.groups):
            out.append(f"group {self.group_at[g].name} {self.state(self.group_at[g])} sent {self.sent[g]}")
            for c, w in zip(self.writer_at[g], group.writers):
                out.append(f"writer {c.name} {self.state(c)} {len(w.log)}:" + "".join(f" {p}={v}" for p, v in w.log))
        for r, group in enumerate(self.reads):
            causes = "".join(f" {c}={n}" for c, n in self.causes[r].items() if n)
            out.append(f"readgroup {self.read_at[r].name} {self.state(self.read_at[r])} taken {self.taken[r]}:" + causes)
            for c, x in zip(self.reader_at[r], group.readers):
                head = f"reader {c.name} {self.state(c)} "
                if x.row is None: out.append(head + f"waits {x.why.lower()}")
                else: out.append(head + f"number {'-' if x.number is None else x.number} version {self.version(r, x)}:" + self.row_words(x))
                out.append(f"gaps {c.name} {len(x.breaks)}:" + "".join(f" {e}/{g}" for e, g in x.breaks[-8:]))
        for thread, looks in enumerate(self.looks):
            for name, counts in looks:
                out.append(f"watch {thread} {name}:" + "".join(f" {n}" for n in counts))
        l = self.link
        out.append(f"link sent {l.done} failed {l.failed} received {l.got} broken {l.broken} long {l.long} limit {self.limit}")
        return out + ["end"]

def lines_of(script):
    """the words of each line that does something"""
    lines = [line.split() for line in script.split("\n")]
    return [w for w in lines if w and not w[0].startswith("#")]

def fates_of(lines):
    return {int(w[1]): (w[2], int(w[3]) if len(w) > 3 else 0) for w in lines if w[0] == "fate"}

def played(text, script, send_fails=(), receive_fails=(), injected=()):
    lines = lines_of(script)
    session = Session(text or BUILT_IN, Link(fates_of(lines), send_fails, receive_fails, injected))
    for words in lines: session.line(words)
    session.tick(0, True)
    session.pump()
    return session.report()

def bytes_of(words):
    out = b""
    for word in words:
        digits, _, times = word.partition("*")
        if digits != "-": out += bytes.fromhex(digits) * int(times or 1)
    return out

def main():
    text, script, sends, receives, injected, refusal = "", "", [], [], [], None
    for line in sys.stdin.read().splitlines():
        if line == "play" and refusal is not None:
            print(f"play -> {refusal}")
            text, script, sends, receives, injected, refusal = "", "", [], [], [], None
            continue
        if line.startswith("# refused "): refusal = line[10:]
        print(line + (" ->" if line == "play" else ""))
        word, _, rest = line.partition(" ")
        rest = rest.replace("\\n", "\n")
        if word == "config": text = rest
        elif word == "script": script = rest
        elif word == "sends": sends = [int(k) for k in rest.split()]
        elif word == "receives": receives = [int(k) for k in rest.split()]
        elif word == "inject":
            at, *words = rest.split()
            injected.append((int(at), bytes_of(words)))
        elif word == "flood":
            times, at, *words = rest.split()
            injected += [(int(at), bytes_of(words))] * int(times)
        elif word == "play":
            for told in played(text, script, sends, receives, injected): print(told)
            text, script, sends, receives, injected, refusal = "", "", [], [], [], None

if __name__ == "__main__": main()
