"""Where the things of a session stand from left to right: by the script's ticks, not by their milliseconds."""

# The least width of a column, and how far lines of a script and datagrams of a tick stand apart: the first that is narrow enough is taken.
SIZES = [(104, 22, 26), (84, 18, 24), (64, 14, 20), (48, 11, 18), (36, 8, 16), (25, 5, 14), (25, 3, 13)]
PAGE = 1020


class Axis:
    """Where each step of the window stands, from left to right."""

    def __init__(self, notes, first, last, left):
        self.notes, self.first, self.last, self.left = notes, first, last, left
        self.by_column = {}
        for at, step in enumerate(notes.steps):
            if first <= step.column <= last:
                self.by_column.setdefault(step.column, []).append(at)
        for self.size in SIZES:
            self.place()
            if self.right - left <= PAGE:
                break

    def place(self):
        least, apart, slot = self.size
        self.at, self.columns, x = {}, {}, self.left
        for column in range(self.first, self.last + 1):
            begin = x
            listed = self.by_column[column]
            lines = [at for at in listed if self.notes.steps[at].kind == "line"]
            if lines and lines[0] == 0:
                # the opening rows stand at the edge
                self.at[lines.pop(0)] = x
                listed = listed[1:]
            spread = min(apart, 12 * apart / max(len(lines), 1))
            x += 0.4 * apart
            for at in lines:
                x += spread
                self.at[at] = x
            x = max(x + 0.8 * slot, begin + 0.55 * least)
            x = self.place_tick(listed[len(lines):], x, slot)
            x = max(x + 0.6 * slot, begin + least) + (0.5 * least if column == len(self.notes.moments) - 1 else 0)
            self.columns[column] = (begin, x)
        self.right = x

    def place_tick(self, listed, x, slot):
        """The tick and its first datagram stand at one place."""
        for nth, at in enumerate(listed):
            if nth > 1:
                x += slot
            self.at[at] = x
            x += 5 * (self.notes.steps[at].copies - 1)
        return x

    def x(self, step):
        """Where the step is, at an edge where it is outside the window."""
        if step in self.at:
            return self.at[step]
        return self.left if self.notes.steps[step].column < self.first else self.right

    def is_in(self, step):
        return step in self.at

    def tick(self, column):
        return next(self.at[at] for at in self.by_column[column] if self.notes.steps[at].kind == "tick")

    def spans(self, notes):
        """Of notes with steps, each until the next: begin, end and note of those that are in the window."""
        ends = [self.x(it.step) if self.notes.steps[it.step].column <= self.last else None for it in notes[1:]] + [self.right]
        for note, end in zip(notes, ends):
            column = self.notes.steps[note.step].column
            begin, end = self.x(note.step), self.right if end is None else end
            if column <= self.last and (end > begin or self.is_in(note.step)) and end > self.left:
                yield begin, end, note
