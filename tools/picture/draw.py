"""Draws the notes of a session as one SVG. Colours are those of Okabe and Ito, and no colour tells what a form doesn't tell too."""
from axis import Axis
from svg import cut, fitting, number, path, rect, room, tag, text, titled, words_in

BLUE, ORANGE, GREEN, RED, PURPLE = "#0072B2", "#E69F00", "#009E73", "#D55E00", "#CC79A7"
STYLE = f"""text {{ font: 11px system-ui, "Segoe UI", "DejaVu Sans", sans-serif; fill: #000 }}
.head {{ font-size: 13px; font-weight: bold }} .name {{ font-size: 12px; font-weight: bold }} .small {{ font-size: 9px }} .soft {{ fill: #555 }}
.middle {{ text-anchor: middle }} .end {{ text-anchor: end }} .light {{ fill: #fff }} .warn {{ fill: #A03C00; font-weight: bold }}
.halo, .warn {{ paint-order: stroke; stroke: #fff; stroke-width: 2.5 }}
.paper {{ fill: #fff }} .column {{ fill: #F4F4F4 }} .tick {{ stroke: #BBB }} .rule {{ stroke: #999 }}
.versions rect {{ fill: #DDD; stroke: #fff }} .versions.odd rect {{ fill: #C4C4C4 }} .version circle {{ fill: #000 }} .version.opening circle {{ fill: #fff; stroke: #000 }}
.many rect {{ fill: #000 }} .tie {{ stroke: #777; stroke-dasharray: 1 2; fill: none }}
.frame.key rect {{ fill: {BLUE} }} .frame.delta path {{ fill: {ORANGE}; stroke: #000; stroke-width: .6 }}
.frame.keepalive circle {{ fill: #fff; stroke: {GREEN}; stroke-width: 2.5 }} .frame .pieces {{ stroke: #000; fill: none }}
.datagram path {{ stroke: #444; fill: none; stroke-width: 1.3 }}
.datagram.dropped path {{ stroke: {RED}; stroke-width: 2 }} .datagram.dropped .line, .datagram.never .line {{ stroke-dasharray: 5 3 }}
.datagram.repeated path {{ stroke: {PURPLE} }} .datagram.held .line, .datagram.again .line {{ stroke: {GREEN}; stroke-width: 1.8 }}
.datagram path.reach {{ stroke-opacity: 0; stroke-width: 9 }}
.taken path {{ fill: #000 }} .taken.bad path {{ fill: #fff; stroke: {RED}; stroke-width: 1.8 }} .refused path {{ stroke: {RED}; stroke-width: 1.8; fill: none }}
.off rect {{ fill: #EEE; stroke: #999 }} .holds rect {{ fill: #A9D6F2; stroke: {BLUE} }} .holds.odd rect {{ fill: #DDEFFA }}
.waits rect {{ fill: url(#hatch); stroke: #888 }} .break path {{ stroke: {RED}; stroke-width: 2; fill: none }} .event path {{ fill: {PURPLE} }}"""
# Writes between two ticks past this many are drawn as a bar.
MOST_DOTS = 48
WORDS = {"key": "key frame", "delta": "delta frame", "keepalive": "keep-alive"}


def line(*words, class_="line"):
    """A line of a datagram, and a broad one that can't be seen, for the mouse."""
    return path(*words, class_="reach") + path(*words, class_=class_)


def plural(count, word):
    return f"{count} {word}" + ("" if count == 1 else "s")


class Picture:
    def __init__(self, notes, first, last, heading):
        self.notes, self.heading = notes, heading
        names = [c.name for c in notes.tree[2:]] + notes.set_names
        self.left = min(max([96] + [room(it, 13) + 56 for it in names]), 300)
        self.axis = Axis(notes, first, last, self.left)
        self.back, self.lines, self.marks, self.labels = [], [], [], []
        self.used = set()
        self.place_lanes()

    # ---- where the lanes stand
    def place_lanes(self):
        notes, y = self.notes, 34
        moments = [f"{it} ms" for it in notes.moments[self.axis.first : self.axis.last + 1]]
        pitch = min(end - begin for begin, end in self.axis.columns.values())
        self.upright = any(room(it, 9) > pitch - 4 for it in moments)
        y += 20 + (max(room(it, 9) for it in moments) + 4 if self.upright else 14)
        self.top = y
        self.events_at, rows = y + 10, self.event_rows()
        y += 4 + 13 * (1 + max(rows.values(), default=-1)) + (4 if rows else 0)
        self.threads_at, self.band_at, self.writers_at = {}, {}, {}
        for name in notes.set_names:
            y = self.place_data_set(name, y + 8)
        self.link_at = y + 6
        self.bends = self.bend_levels()
        y = self.link_at + 34 + 11 * max([0] + list(self.bends.values()))
        self.groups_at, self.readers_at = {}, {}
        for r, component in enumerate(notes.read_at):
            self.groups_at[component.name] = y + 10
            y += 30
            for reader in notes.reader_at[r]:
                self.readers_at[reader.name] = y
                y += 46
        self.bottom = y + 4

    def place_data_set(self, name, y):
        threads = sorted({it.thread for it in self.notes.versions[name][1:]})
        for nth, thread in enumerate(threads):
            self.threads_at[name, thread] = y + 15 * nth + 7
        y += 15 * max(len(threads), 1)
        self.band_at[name] = y
        y += 20
        for g, group in enumerate(self.notes.groups):
            for component, writer in zip(self.notes.writer_at[g], group.writers):
                if self.notes.set_names[writer.part["set"]] == name:
                    self.writers_at[component.name] = y + 20
                    y += 38
        return y

    def events(self):
        return [it for it in self.notes.events if self.axis.is_in(it.step)]

    def bend_levels(self):
        """A level of its own for each datagram that bends while another does."""
        found, ends = {}, []
        for it in self.notes.datagrams:
            if not self.is_bent(it):
                continue
            begin, end = self.reach(it)
            level = next((at for at, taken in enumerate(ends) if taken < begin), len(ends))
            ends[level:level + 1] = [end + 4]
            found[it.number] = level + 1
        return found

    def is_bent(self, it):
        return it.fate[0] in ("hold", "again") and self.is_seen(it)

    def reach(self, it):
        """From where to where a datagram is on its way; one that never comes leaves the window."""
        steps = [it.step] + [arrival.step for arrival in it.arrivals]
        begin, end = self.axis.x(min(steps)), self.axis.x(max(steps))
        return begin, self.axis.right if self.is_missing(it) else end

    def is_missing(self, it):
        """Whether a copy that is held back never comes."""
        return it.fate[0] in ("hold", "again") and it.fate[1] >= len(self.notes.datagrams)

    def is_seen(self, it):
        columns = [self.notes.steps[step].column for step in [it.step] + [arrival.step for arrival in it.arrivals]]
        return min(columns) <= self.axis.last and (max(columns) >= self.axis.first or self.is_missing(it))

    # ---- the picture
    def svg(self):
        self.draw_axis()
        self.draw_events()
        for name in self.notes.set_names:
            self.draw_data_set(name)
        for g, writers in enumerate(self.notes.writer_at):
            for component in writers:
                self.draw_writer(g, component)
        for frame in self.notes.frames:
            if self.axis.is_in(frame.step):
                self.draw_frame(frame)
        self.draw_link()
        for r, component in enumerate(self.notes.read_at):
            self.draw_readgroup(r, component)
        for it in self.notes.breaks:
            if self.axis.is_in(it.step):
                self.draw_break(it)
        width = max(self.axis.right + 30, 560)
        legend, height = self.legend(width, self.bottom + 12)
        return self.document(width, height, legend)

    def document(self, width, height, legend):
        first, last, count = self.axis.first + 1, self.axis.last + 1, len(self.notes.moments)
        head = words_in("title", self.heading) + words_in("desc", self.summary())
        hatch = tag("pattern", tag("rect", width=6, height=6, fill="#FFF9D6") + tag("path", d="M0 6L6 0", stroke="#B8A800", stroke_width=1),
                    id="hatch", width=6, height=6, patternUnits="userSpaceOnUse")
        inside = [head, words_in("style", STYLE.replace("\n", " ")), tag("defs", hatch), tag("rect", class_="paper", width="100%", height="100%")]
        inside += [*self.back, *self.lines, *self.marks, *self.labels, *legend]
        parts = "\n".join(it for it in inside if it)
        given = dict(xmlns="http://www.w3.org/2000/svg", viewBox=f"0 0 {number(float(width))} {number(float(height))}", width=float(width), height=float(height),
                     role="img", data_first_tick=first, data_last_tick=last, data_ticks=count)
        return tag("svg", "\n" + parts + "\n", **given) + "\n"

    def summary(self):
        notes = self.notes
        versions = sum(len(it) - 1 for it in notes.versions.values())
        counts = [plural(versions, "version"), plural(len(notes.frames), "frame"), plural(len(notes.datagrams), "datagram"), plural(len(notes.breaks), "break")]
        return f"{plural(len(notes.moments), 'tick')}, {', '.join(counts)} of message numbers."

    def label(self, y, name, kind, title=None):
        words = cut(self.left - 12, name, 13)
        parts = [text(8, y, words, "name"), text(8, y + 11, cut(self.left - 8, kind, 9), "small soft")]
        self.labels.append(titled(title or f"{kind} {name}", *parts))

    # ---- the axis
    def draw_axis(self):
        axis = self.axis
        self.labels += [text(8, 18, self.heading, "head"), text(8, 44, "tick", "soft"), text(8, 58, "at", "soft")]
        for column, (begin, end) in axis.columns.items():
            if column % 2 == 0:
                self.back.append(tag("rect", class_="column", x=float(begin), y=30, width=float(end - begin), height=float(self.bottom - 30)))
            x, moment = axis.tick(column), f"{self.notes.moments[column]} ms"
            self.back.append(tag("line", class_="tick", x1=float(x), x2=float(x), y1=float(self.top), y2=float(self.bottom)))
            closing = column == len(self.notes.moments) - 1
            named = fitting(end - begin, *([f"{column + 1}, closing"] if closing else []), f"{column + 1}")
            words = [text(x, 44, named, "middle")]
            if self.upright:
                words.append(words_in("text", moment, class_="small soft", transform=f"translate({number(float(x + 3))} {number(float(self.top - 2))}) rotate(-90)"))
            else:
                words.append(text(x, 58, moment, "small soft middle"))
            self.labels.append(titled(f"tick {column + 1}{', the closing one,' if closing else ''} at {moment}", *words))

    def event_rows(self):
        """In which of up to four rows each line of the script stands, so that its words have room."""
        found, ends = {}, [self.axis.left] * 4
        for it in self.events():
            x = self.axis.x(it.step)
            row = next((at for at, end in enumerate(ends) if end <= x), min(range(4), key=lambda at: ends[at]))
            ends[row] = x + 12 + room(self.event_words(it), 9)
            found[it.step] = row
        return found

    def event_words(self, it):
        return " ".join(it.words) + (f": {' '.join(map(str, it.counts[:4]))}" + (" .." if it.counts[4:] else "") if it.counts else "")

    def draw_events(self):
        rows = self.event_rows()
        if rows:
            self.labels.append(text(8, self.events_at + 4, "script", "soft"))
        for it in self.events():
            self.used.add("event")
            x, y = self.axis.x(it.step), self.events_at + 13 * rows[it.step]
            after = [self.axis.x(other.step) for other in self.events() if other.step > it.step and rows[other.step] == rows[it.step]]
            words = cut(min(after + [self.axis.right]) - x - 8, self.event_words(it), 9)
            title = " ".join(it.words) + (f": {' '.join(map(str, it.counts))}" if it.counts else "")
            self.marks.append(titled(title, path("M", x - 3, y - 5, "l 7 4 l -7 4 z"), text(x + 6, y + 3, words, "small"), class_="event", data_line=" ".join(it.words)))

    # ---- data sets
    def draw_data_set(self, name):
        versions = self.notes.versions[name]
        rows = [y for (data_set, _), y in self.threads_at.items() if data_set == name]
        y = self.band_at[name]
        self.label(min(rows, default=y + 7) + 4, name, "data set")
        for (data_set, thread), at in self.threads_at.items():
            if data_set == name:
                self.labels.append(text(self.left - 6, at + 3, f"thread {thread}", "small soft end"))
                self.back.append(tag("line", class_="tick", x1=float(self.left), x2=float(self.axis.right), y1=float(at), y2=float(at)))
        self.labels.append(text(self.left - 6, y + 10, "version", "small soft end"))
        crowds = self.crowds(versions)
        crowded = {it.number for crowd in crowds for it in crowd}
        last = {crowd[-1].number for crowd in crowds}
        for begin, end, it in self.axis.spans(versions):
            if it.number not in crowded or it.number in last:
                self.draw_band(name, begin, end, it, y)
        for it in versions:
            if self.axis.is_in(it.step) and it.number not in crowded:
                self.draw_version(name, it, y)
        for crowd in crowds:
            self.draw_crowd(name, crowd, y)

    def crowds(self, versions):
        """The versions that are written between two ticks with too many others, by tick."""
        by_column = {}
        for it in versions[1:]:
            if self.axis.is_in(it.step):
                by_column.setdefault(self.notes.steps[it.step].column, []).append(it)
        return [it for it in by_column.values() if len(it) > MOST_DOTS]

    def draw_band(self, name, begin, end, it, y):
        self.used.add("versions")
        begin += 5 if self.axis.is_in(0) and it.thread is None else 0
        words = fitting(end - begin - 2, f"version {it.number}", f"v{it.number}", str(it.number), size=9)
        odd = " odd" if it.number % 2 else ""
        parts = [rect(begin, end, y, 14), text((begin + end) / 2, y + 10, words, "small middle")]
        self.marks.append(titled(f"{name}, version {it.number}: {it.words}", *parts, class_="versions" + odd, data_set=name, data_version=it.number))

    def draw_version(self, name, it, y):
        self.used.add("opening" if it.thread is None else "version")
        x, at = self.axis.x(it.step), self.threads_at.get((name, it.thread), y + 7)
        by = "" if it.thread is None else f" by thread {it.thread}"
        circle = tag("circle", cx=float(x), cy=float(at), r=min(4, max(1.5, self.axis.size[1] / 3)))
        stem = path("M", x, at, "V", y, class_="tie") if it.thread is not None else ""
        opening = " opening" if it.thread is None else ""
        self.marks.append(titled(f"{name}, version {it.number}{by}: {it.words}", stem, circle, class_="version" + opening,
                                 data_set=name, data_version=it.number, data_thread=it.thread))

    def draw_crowd(self, name, crowd, y):
        """A bar for the writes of a thread between two ticks, where they are too many for a dot each, and one band for all but the last of them."""
        self.used.add("many")
        threads = {}
        for it in crowd:
            threads.setdefault(it.thread, []).append(it)
        for thread, listed in threads.items():
            at, begin, end = self.threads_at[name, thread], self.axis.x(listed[0].step), self.axis.x(listed[-1].step)
            title = f"{name}: {len(listed)} versions from {listed[0].number} to {listed[-1].number} by thread {thread}"
            self.marks.append(titled(title, rect(begin, end, at - 3, 6), class_="many", data_set=name, data_thread=thread, data_count=len(listed)))
        begin, end, words = self.axis.x(crowd[0].step), self.axis.x(crowd[-1].step), f"versions {crowd[0].number} to {crowd[-2].number}"
        said = fitting(end - begin, words, size=9)
        self.marks.append(titled(f"{name}, {words}", rect(begin, end, y, 14), text((begin + end) / 2, y + 10, said, "small middle"), class_="versions"))

    # ---- writers
    def draw_writer(self, g, component):
        y, group = self.writers_at[component.name], self.notes.group_at[g].name
        self.label(y, component.name, f"writer, group {group}", f"writer {component.name} of group {group}")
        self.back.append(tag("line", class_="rule", x1=float(self.left), x2=float(self.axis.right), y1=float(y), y2=float(y)))
        self.draw_off(component.name, y)

    def draw_off(self, name, y):
        """Where a writer or a read group isn't operational."""
        for begin, end, span in self.axis.spans(self.notes.spans[name]):
            if span.state != "operational":
                self.used.add("off")
                parts = [rect(begin, end, y - 8, 16), text((begin + end) / 2, y + 3, fitting(end - begin - 4, span.state, size=9), "small middle")]
                self.marks.append(titled(f"{name} is {span.state}", *parts, class_="off", data_name=name, data_state=span.state))

    def draw_frame(self, frame):
        """The frame's mark, and the line to the version that it stands for."""
        self.used.add(frame.kind)
        x, y, wire = self.axis.x(frame.step), self.writers_at[frame.writer], frame.place % 65536
        column = self.notes.steps[frame.step].column
        self.draw_tie(frame, x, y)
        said = f"{WORDS[frame.kind]} of {frame.writer}, {'before ' if frame.kind == 'keepalive' else ''}number {wire}, stands for version {frame.version} of {frame.data_set}"
        listed = ", ".join(map(str, frame.datagrams))
        title = f"{said}; tick {column + 1}, {'datagrams' if frame.datagrams[1:] else 'datagram'} {listed}"
        parts = [self.pieces(frame, y), self.frame_mark(frame.kind, x, y)]
        words = str(wire)
        inside = room(words, 9) <= 15
        light = " light" if inside and frame.kind == "key" else ""
        parts.append(text(x if inside else x + 9, y + 3 if inside else y + 12, words, "small" + (" middle" + light if inside else " halo")))
        self.marks.append(titled(title, *parts, class_=f"frame {frame.kind}", data_writer=frame.writer, data_place=frame.place, data_version=frame.version,
                                 data_tick=column + 1, data_datagrams=" ".join(map(str, frame.datagrams))))

    def frame_mark(self, kind, x, y):
        if kind == "key":
            return rect(x - 7.5, x + 7.5, y - 7.5, 15)
        if kind == "delta":
            return path("M", x, y - 9, "l 9 9 l -9 9 l -9 -9 z")
        return tag("circle", cx=float(x), cy=float(y), r=7)

    def pieces(self, frame, y):
        """A bracket over the datagrams of a frame in several."""
        if not frame.datagrams[1:]:
            return ""
        steps = [self.notes.datagrams[it].step for it in frame.datagrams]
        return path("M", self.axis.x(steps[0]), y, "H", self.axis.x(steps[-1]), "v 4", class_="pieces")

    def draw_tie(self, frame, x, y):
        begin, *after = [self.axis.x(it.step) for it in self.notes.versions[frame.data_set][frame.version : frame.version + 2]]
        end = after[0] if after else self.axis.right
        to = min(max(x - 4, begin + 2), max(end - 2, begin + 1))
        self.used.add("tie")
        line_up = path("M", to, self.band_at[frame.data_set] + 14, "L", x - 4, y - 6, class_="tie")
        self.lines.append(tag("g", line_up, class_="stands", data_writer=frame.writer, data_place=frame.place, data_version=frame.version, data_set=frame.data_set))

    # ---- the link
    def draw_link(self):
        self.label(self.link_at + 10, "link", "datagrams", "datagrams, numbered from 0 in the order of their sends")
        for y in (self.link_at, self.link_at + 24 + 11 * max([0] + list(self.bends.values()))):
            self.back.append(tag("line", class_="rule", x1=8, x2=float(self.axis.right), y1=float(y), y2=float(y)))
        for it in self.notes.datagrams:
            if self.is_seen(it):
                self.draw_datagram(it)

    def draw_datagram(self, it):
        sent_in = self.axis.is_in(it.step)
        column = self.notes.steps[it.step].column
        kinds = {"once": "", "drop": "dropped", "repeat": "repeated", "hold": "held", "again": "again"}[it.fate[0]]
        self.used.add(kinds or "datagram")
        parts = [self.from_writers(it)] if sent_in else []
        parts += self.on_link(it, sent_in)
        frames = ", ".join(f"{WORDS[frame.kind]} {frame.place % 65536} of {frame.writer}" for frame in it.frames) or "no frame"
        title = f"datagram {it.number} of group {it.group}, sent at tick {column + 1}: {frames}{self.fate_words(it)}"
        missing = " never" if self.is_missing(it) else ""
        drawn = titled(title, *parts, class_=f"datagram {kinds}".strip() + missing, data_datagram=it.number, data_group=it.group, data_sent=int(sent_in), data_tick=column + 1)
        self.lines.append(drawn)

    def fate_words(self, it):
        kind, n = it.fate
        held = f"held back until datagram {n} was sent" + (", which never was" if self.is_missing(it) else "")
        return {"once": "", "drop": "; dropped", "repeat": f"; comes {n} times", "hold": f"; {held}", "again": f"; comes at once, and again: {held}"}[kind]

    def from_writers(self, it):
        x = self.axis.x(it.step)
        top = min([self.writers_at[frame.writer] for frame in it.frames], default=self.link_at)
        return line("M", x, top, "V", self.link_at, class_="line" if it.fate[0] == "drop" else None) + text(self.right_of(it), self.link_at + 10, str(it.number), "small soft")

    def right_of(self, it):
        """Behind the last of its lines at its send."""
        return self.axis.x(it.step) + 5 * (self.notes.steps[it.step].copies - 1) + 3

    def on_link(self, it, sent_in):
        """The datagram's line over the link, and down to the last read group that it comes to."""
        x, y = self.axis.x(it.step), self.link_at
        if it.fate[0] == "drop":
            return [path("M", x, y, "v 16", class_="line"), path("M", x - 4, y + 13, "l 8 8 m 0 -8 l -8 8")]
        parts = []
        for arrival in it.arrivals:
            if sent_in or arrival.step != it.step:
                parts.append(self.arrival_line(it, arrival))
        if self.is_missing(it):
            parts.append(self.bent(it, self.axis.right))
        if it.fate[0] == "repeat" and sent_in:
            parts.append(text(self.right_of(it), y + 21, f"×{it.fate[1]}", "small"))
        return parts

    def bent(self, it, end, *after):
        """A line that goes aside on the link; it begins at the edge where the datagram was sent before the window."""
        y = self.link_at + 8 + 11 * self.bends[it.number]
        start = ["M", self.axis.x(it.step), self.link_at, "V", y] if self.axis.is_in(it.step) else ["M", self.axis.left, y]
        return line(*start, "H", end, *after)

    def arrival_line(self, it, arrival):
        down = ["V", self.end_of(arrival)]
        if arrival.step == it.step:
            return line("M", self.answer_x(it, arrival), self.link_at, *down)
        return self.bent(it, self.axis.x(arrival.step), *(down if self.axis.is_in(arrival.step) else []))

    def copy_of(self, it, arrival):
        """Which of the copies at its step this is, from 0."""
        return next(at for at, other in enumerate([a for a in it.arrivals if a.step == arrival.step]) if other is arrival)

    def end_of(self, arrival):
        return max([self.groups_at[name] for name in arrival.answers], default=self.link_at + 24)

    # ---- readers
    def draw_readgroup(self, r, component):
        y = self.groups_at[component.name]
        self.label(y, component.name, "read group")
        self.draw_off(component.name, y)
        listed = [(self.answer_x(it, arrival), it, arrival) for it in self.notes.datagrams for arrival in it.arrivals
                  if component.name in arrival.answers and self.axis.is_in(arrival.step)]
        listed.sort(key=lambda it: it[0])
        ends = [x for x, _, _ in listed[1:]] + [self.axis.right]
        for (x, it, arrival), end in zip(listed, ends):
            self.draw_answer(component.name, it, arrival, x, end - x, y)
        for reader in self.notes.reader_at[r]:
            self.draw_reader(r, reader)

    def answer_x(self, it, arrival):
        return self.axis.x(arrival.step) + 5 * self.copy_of(it, arrival)

    def draw_answer(self, name, it, arrival, x, width, y):
        if arrival.answers[name] == "taken":
            self.draw_taken(name, it, arrival.bad[name], x, y)
            return
        self.used.add("refused")
        cause = arrival.answers[name]
        parts = [path("M", x - 4, y - 4, "l 8 8 m 0 -8 l -8 8"), text(x + 6, y + 3, fitting(width - 10, cause, size=9), "small warn")]
        self.marks.append(titled(f"{name} refuses datagram {it.number}: {cause}", *parts, class_="refused",
                                 data_readgroup=name, data_datagram=it.number, data_cause=cause))

    def draw_taken(self, name, it, bad, x, y):
        self.used.add("bad" if bad else "taken")
        title = f"{name} takes datagram {it.number}" + (f"; {plural(bad, 'part')} of it can't be read" if bad else "")
        self.marks.append(titled(title, path("M", x - 3.5, y - 3, "h 7 l -3.5 6 z"), class_="taken bad" if bad else "taken",
                                 data_readgroup=name, data_datagram=it.number, data_bad=bad))

    def draw_reader(self, r, component):
        y, part = self.readers_at[component.name], self.notes.reads[r].readers[component.at[1]].part
        self.label(y + 14, component.name, f"reader, writer {part['writer']}")
        for nth, (begin, end, span) in enumerate(self.axis.spans(self.notes.spans[component.name])):
            if span.why is None:
                self.draw_holds(component.name, begin, end, span, y, nth % 2)
            else:
                self.draw_waits(component.name, begin, end, span, y)

    def draw_holds(self, name, begin, end, span, y, odd):
        self.used.add("holds")
        width = end - begin - 6
        words = self.held_words(span.number, span.version, width)
        row = cut(width, span.words, 9)
        state = "" if span.state == "operational" else f" ({span.state})"
        whose = f"message {span.number}, version {span.version}" if span.version != "-" else f"message {span.number}" if span.number != "-" else "a message without number"
        title = f"{name}{state} holds the row of {whose}: {span.words}"
        parts = [rect(begin, end, y + 2, 30), text(begin + 3, y + 15, words), text(begin + 3, y + 27, row, "small soft")]
        self.marks.append(titled(title, *parts, class_="holds odd" if odd else "holds",
                                 data_reader=name, data_state=span.state, data_number=span.number, data_version=span.version))

    def held_words(self, number_, version, width):
        """Number and version of what is held, as far as they have room; `-` where it has none, or no writer of this program sent it."""
        if number_ == "-":
            return fitting(width, "a row without number", "no number", "row", "-")
        if version == "-":
            return fitting(width, f"number {number_}, no version", f"no. {number_}", number_)
        whole = [f"number {number_}, version {version}", f"no. {number_}, version {version}", f"{number_}, v{version}", f"{number_}·v{version}", f"v{version}"]
        return fitting(width, *whole) or fitting(width + 4, f"v{version}", version, size=9)

    def draw_waits(self, name, begin, end, span, y):
        self.used.add("waits")
        width = end - begin - 6
        words = fitting(width, f"waits: {span.why}", span.why) or fitting(width + 4, span.why, span.why[:2], size=9)
        state = fitting(width, span.state, size=9) if span.state != "preoperational" else ""
        parts = [rect(begin, end, y + 2, 30), text(begin + 3, y + 15, words, "warn"), text(begin + 3, y + 27, state, "small")]
        self.marks.append(titled(f"{name} waits, {span.why}; its state is {span.state}", *parts, class_="waits", data_reader=name, data_why=span.why, data_state=span.state))

    def draw_break(self, it):
        self.used.add("break")
        x, y = self.axis.x(it.step), self.readers_at[it.reader]
        near = f"due {it.due}, came {it.came}"
        words = near if self.axis.size[0] > 80 else f"{it.due}/{it.came}"
        parts = [path("M", x, y - 2, "l 4 9 l -8 8 l 8 8 l -8 8 l 4 6"), text(x, y + 43, words, "small warn middle")]
        self.marks.append(titled(f"{it.reader}: number {it.due} was due, and {it.came} came", *parts, class_="break",
                                 data_reader=it.reader, data_due=it.due, data_came=it.came, data_tick=self.notes.steps[it.step].column + 1))

    # ---- the legend
    def legend_entries(self):
        """Name, words, and the mark around (0, 0)."""
        cross = path("M", -4, -4, "l 8 8 m 0 -8 l -8 8")
        yield "version", "a write: a version", tag("g", tag("circle", r=4), class_="version")
        yield "opening", "the opening row", tag("g", tag("circle", r=4), class_="version opening")
        yield "many", "many writes", tag("g", rect(-8, 8, -3, 6), class_="many")
        for kind in ("key", "delta", "keepalive"):
            yield kind, f"{WORDS[kind]}, its number", tag("g", self.frame_mark(kind, 0, 0), class_=f"frame {kind}")
        yield "tie", "stands for", path("M", -8, 0, "h 16", class_="tie")
        yield "datagram", "a datagram", tag("g", path("M", -8, 0, "h 16", class_="line"), class_="datagram")
        yield "dropped", "dropped", tag("g", path("M", -9, 0, "h 10", class_="line") + path("M", 2, -4, "l 8 8 m 0 -8 l -8 8"), class_="datagram dropped")
        yield "repeated", "repeated", tag("g", path("M", -8, -2, "h 16 m 0 5 h -16", class_="line"), class_="datagram repeated")
        yield "held", "held back", tag("g", path("M", -8, -5, "v 5 h 16 v 5", class_="line"), class_="datagram held")
        yield "again", "comes again", tag("g", path("M", -8, -6, "v 12 m 0 -6 h 16 v 6", class_="line"), class_="datagram again")
        yield "taken", "taken by a read group", tag("g", path("M", -3.5, -3, "h 7 l -3.5 6 z"), class_="taken")
        yield "bad", "taken, a part can't be read", tag("g", path("M", -3.5, -3, "h 7 l -3.5 6 z"), class_="taken bad")
        yield "refused", "refused", tag("g", cross, class_="refused")
        yield "holds", "a reader holds a row: number, version", tag("g", rect(-8, 8, -6, 12), class_="holds")
        yield "waits", "a reader waits, and why", tag("g", rect(-8, 8, -6, 12), class_="waits")
        yield "break", "a break of the numbers", tag("g", path("M", 0, -8, "l 3 4 l -6 4 l 6 4 l -3 4"), class_="break")
        yield "off", "not operational", tag("g", rect(-8, 8, -6, 12), class_="off")
        yield "event", "a line of the script", tag("g", path("M", -3, -4, "l 7 4 l -7 4 z"), class_="event")

    def legend(self, width, y):
        """Its entries, of the marks that occur, and where it ends."""
        parts, x = [], 20
        y += 8
        for name, words, mark in self.legend_entries():
            if name not in self.used:
                continue
            needed = 40 + room(words, 10)
            if x + needed > width and x > 20:
                x, y = 20, y + 20
            parts.append(tag("g", tag("g", mark, transform=f"translate({number(float(x))} {number(float(y))})") + text(x + 14, y + 4, words), class_="legend"))
            x += needed
        return parts, y + 16
