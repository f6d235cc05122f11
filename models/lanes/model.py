#!/usr/bin/env python3
"""An independent model of the command `lanes`: the groups of models/groups in lanes, made from OPC 10000-14 and the documents of docs/
(LANES, SCRIPT, CONFIGURATION), without a look at the crates.

usage: model.py < CASES     (the lines behind `command lanes` in crates/cases_command/stdin: prints what the runner has to print)

It refuses no text itself: a note `# refused STATUS TEXT` says what the next `run` answers. Which send fails is known where there is one lane."""
import importlib.util, os, sys

def session_model():
    """models/session/model.py"""
    path = os.path.join(os.path.dirname(os.path.abspath(__file__)), "..", "session", "model.py")
    spec = importlib.util.spec_from_file_location("session_model", path)
    module = importlib.util.module_from_spec(spec)
    spec.loader.exec_module(module)
    return module

session = session_model()
BUILT_IN, Link, Session = session.BUILT_IN, session.Link, session.Session
TAKEN = ("write", "tick", "fate")

def lines_of(script):
    """the lines that do something, with their numbers"""
    for at, line in enumerate(script.split("\n"), 1):
        words = line.split()
        if words and not words[0].startswith("#"): yield at, words

def refused(script):
    """the number of the first line that lanes don't take"""
    return next((at for at, words in lines_of(script) if words[0] not in TAKEN), None)

def lanes_of(groups, keys):
    """the groups of each key group together, and each other group alone"""
    keyed = [[g for g, group in enumerate(groups) if group.part["keygroup"] == k] for k in range(len(keys))]
    return [lane for lane in keyed if lane] + [[g] for g, group in enumerate(groups) if group.part["keygroup"] is None]

def turns_of(state, script):
    """for each tick, and for the closing one, its moment, a row and a version of each data set, and whether it closes"""
    def sampled(): return [(list(row), len(threads)) for row, threads in zip(state.rows, state.threads)]
    now, turns = 0, []
    for _, words in lines_of(script):
        if words[0] == "write": state.line(words)
        if words[0] == "tick":
            now += int(words[1])
            turns.append((now, sampled(), False))
    return turns + [(now, sampled(), True)]

def datagrams_of(state, lane, turns):
    """what a lane makes: pairs of a group and a datagram, in order"""
    k = state.groups[lane[0]].part["keygroup"]
    sender = None if k is None else state.senders[k]
    for now, rows, closing in turns:
        if sender is not None and sender.turn_to(now):
            for g in lane:
                for writer in state.groups[g].writers: writer.fresh = True
        for g in lane:
            group = state.groups[g]
            if sender is not None and sender.spent() or not (closing or group.due(now)): continue
            for datagram in group.tick(now, rows, [True] * len(group.writers), sender, closing): yield g, datagram

def told(text, script, fails=()):
    """the lines of the command's text"""
    state = Session(text or BUILT_IN, Link({}))
    turns = turns_of(state, script)
    lanes = lanes_of(state.groups, state.senders)
    if fails and len(lanes) != 1: sys.exit("which send fails isn't known with several lanes")
    sent, failed, number = [0] * len(state.groups), 0, 0
    for lane in lanes:
        for g, _ in datagrams_of(state, lane, turns):
            if number in fails: failed += 1
            else: sent[g] += 1
            number += 1
    out = []
    for g, group in enumerate(state.groups):
        out.append(f"lane {state.group_at[g].name} sent {sent[g]}")
        for c, w in zip(state.writer_at[g], group.writers):
            out.append(f"writer {c.name} {len(w.log)}:" + "".join(f" {p}={v}" for p, v in w.log))
    return out + [f"lanes sent {sum(sent)} failed {failed}", "end"]

def answer(text, script, fails, opens, refusal):
    """what the command writes, and its status"""
    if refusal: return [refusal[1], f"status {refusal[0]}"]
    line = refused(script)
    if line is not None: return [f"script: line {line} S13 NotInLanes", "status 4"]
    if not opens: return ["cannot open link", "status 8"]
    return told(text, script, fails) + ["status 0"]

def main():
    text, script, fails, opens, refusal = "", "", set(), True, None
    for line in sys.stdin.read().splitlines():
        print(line + (" ->" if line == "run" else ""))
        if line.startswith("# refused "):
            status, _, why = line[10:].partition(" ")
            refusal = (status, why)
        word, _, rest = line.partition(" ")
        rest = rest.replace("\\n", "\n")
        if word == "config": text = rest
        elif word == "script": script = rest
        elif word == "sends": fails = {int(k) for k in rest.split()}
        elif word == "unopened": opens = False
        elif word == "run":
            for answered in answer(text, script, fails, opens, refusal): print(answered)
            text, script, fails, opens, refusal = "", "", set(), True, None

if __name__ == "__main__": main()
