"""A session of the independent model of models/session, with a note of each thing that happens in it, in order. bin/picture draws the notes."""
import importlib.util, os, sys
from dataclasses import dataclass, field

TOP = os.path.dirname(os.path.dirname(os.path.dirname(os.path.realpath(__file__))))
KINDS = {"Whole": "key", "Change": "delta", "Alive": "keepalive"}


def session_model():
    path = os.path.join(TOP, "models", "session", "model.py")
    spec = importlib.util.spec_from_file_location("session_model", path)
    module = importlib.util.module_from_spec(spec)
    sys.modules["session_model"] = module
    spec.loader.exec_module(module)
    return module


session = session_model()
groups = session.groups


class Unplayable(Exception):
    """the model can't play what it is given"""


@dataclass
class Step:
    """A place on the axis of time: a line of the script, a tick, a datagram that is sent, or one that comes late. Columns count ticks from 0."""

    column: int
    kind: str
    copies: int = 1


@dataclass
class Version:
    """A row of a data set's history; `thread` is None for the opening row."""

    number: int
    thread: int | None
    words: str
    step: int


@dataclass
class Frame:
    """A DataSetMessage; a keep-alive has the place of the next data frame and the version of the last."""

    writer: str
    data_set: str
    kind: str
    place: int
    version: int
    step: int = 0
    datagrams: list = field(default_factory=list)


@dataclass
class Datagram:
    """A NetworkMessage; `fate` is what the script says of it."""

    number: int
    group: str
    step: int
    frames: list
    fate: tuple
    arrivals: list = field(default_factory=list)


@dataclass
class Arrival:
    """One copy of a datagram that was received, with the answer of each read group that was handed it: `taken`, or the cause of a refusal; and how
    many parts of it, where it was taken, couldn't be read."""

    datagram: int
    step: int
    answers: dict = field(default_factory=dict)
    bad: dict = field(default_factory=dict)


@dataclass
class Break:
    """A break of a reader's run of message numbers: the number that was due and the one that came."""

    reader: str
    step: int
    due: int
    came: int


@dataclass
class Span:
    """What holds of a component from a step on: its state, and of a reader what it holds, or why it waits."""

    step: int
    state: str
    why: str | None = None
    number: str | None = None
    version: str | None = None
    words: str = ""

    def is_as(self, other):
        return (self.state, self.why, self.number, self.version, self.words) == (other.state, other.why, other.number, other.version, other.words)


@dataclass
class Event:
    """A line of the script that switches, appends or looks, and of a look what it counts."""

    step: int
    words: list
    counts: list = field(default_factory=list)


class Numbered(bytes):
    """The bytes of a datagram, which knows its number; on its way also the copy that it is."""

    number = 0
    arrival = None


class NotedLink(session.Link):
    """The model's link, which tells of each send."""

    def __init__(self, fates, notes):
        super().__init__(fates)
        self.notes = notes

    def send(self, datagram):
        numbered = Numbered(datagram)
        numbered.number = self.count
        self.notes.sends(numbered)
        before = len(self.queue)
        done = super().send(numbered)
        self.queue[before:] = self.notes.on_their_way(numbered, self.queue[before:])
        return done

    def receive(self):
        datagram = super().receive()
        if isinstance(datagram, Numbered):
            self.notes.arrived(datagram.arrival)
        return datagram


class Noted(session.Session):
    """The model's session, which notes what happens."""

    def __init__(self, text, lines):
        self.steps, self.moments, self.column = [], [], 0
        self.frames, self.datagrams, self.breaks, self.events, self.spans = [], [], [], [], {}
        self.turned, self.turning_group = [], 0
        super().__init__(text, NotedLink(session.fates_of(lines), self))
        self.begin("line")
        self.versions = {name: [Version(0, None, "the opening row", 0)] for name in self.set_names}
        for g, group in enumerate(self.groups):
            group.tick = self.noting_tick(g, group.tick)
            for component, writer in zip(self.writer_at[g], group.writers):
                writer.turn = self.noting_turn(component.name, writer, writer.turn)
        for r, group in enumerate(self.reads):
            group.datagram = self.noting_datagram(r, group.datagram)
        self.note_states(0)

    def begin(self, kind):
        self.steps.append(Step(self.column, kind))
        return len(self.steps) - 1

    # ---- lines and ticks
    def line(self, words):
        if words[0] in ("tick", "fate"):
            return super().line(words)
        step = self.begin("line")
        super().line(words)
        if words[0] == "write":
            threads = self.threads[self.set_names.index(words[2])]
            self.versions[words[2]].append(Version(len(threads), threads[-1], " ".join(words[3:]), step))
            return
        counts = self.looks[int(words[1])][-1][1] if words[0] == "watch" else []
        self.events.append(Event(step, words, counts))
        self.note_states(step)

    def tick(self, ms, closing):
        self.moments.append(self.now + ms)
        step = self.begin("tick")
        super().tick(ms, closing)
        self.note_states(step)

    def pump(self):
        super().pump()
        self.column += 1

    # ---- what is sent
    def noting_tick(self, g, tick):
        def noted(*words):
            self.turned, self.turning_group = [], g
            return tick(*words)

        return noted

    def noting_turn(self, name, writer, turn):
        def noted(*words):
            frame = turn(*words)
            if frame:
                kind, place, _ = frame
                made = Frame(name, self.set_names[writer.part["set"]], KINDS[kind], place, writer.log[-1][1])
                self.turned.append((writer.part["id"], made))
            return frame

        return noted

    def sends(self, datagram):
        """Notes a datagram of the present turn, and which of the turn's frames it carries."""
        step = self.begin("send")
        header, _ = groups.read_header(datagram)
        ids = [header["chunk"]] if header["chunk"] is not None else header["ids"]
        carried = [frame for writer, frame in self.turned if ids is None or writer in ids]
        fate = self.link.fates.get(datagram.number, ("once", 0))
        self.datagrams.append(Datagram(datagram.number, self.group_at[self.turning_group].name, step, carried, fate))
        for frame in carried:
            if not frame.datagrams:
                frame.step = step
                self.frames.append(frame)
            frame.datagrams.append(datagram.number)

    # ---- what comes
    def on_their_way(self, sent, copies):
        """The copies that a send put on their way; one of an earlier datagram has a step of its own."""
        steps = {}
        for copy in copies:
            at = steps.get(copy.number)
            if at is None:
                at = steps[copy.number] = len(self.steps) - 1 if copy.number == sent.number else self.begin("late")
            else:
                self.steps[at].copies += 1
            travelling = Numbered(copy)
            travelling.number, travelling.arrival = copy.number, Arrival(copy.number, at)
            yield travelling

    def noting_datagram(self, r, take):
        def noted(now, datagram):
            arrival, readers = datagram.arrival, self.reads[r].readers
            before = [len(x.breaks) for x in readers]
            answer = take(now, datagram)
            arrival.answers[self.read_at[r].name] = "taken" if answer.startswith("taken") else session.cause_of(answer)
            for component, x, count in zip(self.reader_at[r], readers, before):
                self.breaks += [Break(component.name, arrival.step, due, came) for due, came in x.breaks[count:]]
            if answer.startswith("taken"):
                arrival.bad[self.read_at[r].name] = int(answer.split()[3])
                for component in self.reader_at[r]:
                    self.note_state(component, arrival.step)
            return answer

        return noted

    def arrived(self, arrival):
        self.datagrams[arrival.datagram].arrivals.append(arrival)

    # ---- states
    def span(self, component, step, before):
        state = self.state(component)
        if component.kind != "reader":
            return Span(step, state)
        r, i = component.at
        x = self.reads[r].readers[i]
        if x.row is None:
            return Span(step, state, why=x.why.lower())
        number = "-" if x.number is None else str(x.number)
        # the version of a message stays
        version = before.version if before and before.number == number else self.version(r, x)
        return Span(step, state, number=number, version=version, words=self.row_words(x).strip())

    def note_state(self, component, step):
        spans = self.spans.setdefault(component.name, [])
        span = self.span(component, step, spans[-1] if spans else None)
        if not spans or not spans[-1].is_as(span):
            spans.append(span)

    def note_states(self, step):
        for component in self.tree:
            self.note_state(component, step)


def observed(text, script):
    """The closed session of the script, with its notes."""
    lines = session.lines_of(script)
    try:
        noted = Noted(text, lines)
    except Exception as cause:
        raise Unplayable(f"the configuration ({type(cause).__name__}: {cause})") from cause
    for words in lines:
        try:
            noted.line(words)
        except Exception as cause:
            raise Unplayable(f"the line `{' '.join(words)}`") from cause
    noted.tick(0, True)
    noted.pump()
    return noted
