"""Time across the picture: where a tick stands, which long stretches without a mark are cut, and which times are written at the axis."""
from bisect import bisect_right

LONGEST = 420  # a stretch that would be wider and has no mark in it is cut
CUT = 34  # the width that a cut leaves of it
MIDDLE = 15  # the width of the middle one of the gaps between marks
MOST = 20000  # all of a long log; a part of it can be drawn wider


def scale_of(marks):
    """Picture units a tick, so that the middle one of the gaps between marks has a width that can be seen."""
    gaps = sorted(b - a for a, b in zip(marks, marks[1:]))
    return MIDDLE / gaps[len(gaps) // 2]


class Axis:
    """Maps ticks to places from 0 on. Between two neighbouring marks it is even."""

    def __init__(self, marks):
        self.marks = sorted(marks)
        self.scale = scale_of(self.marks)
        self.places, self.cuts = [0.0], []  # a cut: from when, to when
        for start, end in zip(self.marks, self.marks[1:]):
            width = (end - start) * self.scale
            if width > LONGEST:
                self.cuts.append((start, end))
                width = CUT
            self.places.append(self.places[-1] + width)
        self.stretch(min(1, MOST / self.length))

    def stretch(self, factor):
        """Makes all of it so many times as wide."""
        self.scale *= factor
        self.places = [place * factor for place in self.places]

    @property
    def length(self):
        return self.places[-1]

    def at(self, time):
        """The place of a tick between the first mark and the last."""
        time = min(max(time, self.marks[0]), self.marks[-1])
        left = min(bisect_right(self.marks, time) - 1, len(self.marks) - 2)
        if left < 0:
            return 0.0
        start, end = self.marks[left], self.marks[left + 1]
        return self.places[left] + (self.places[left + 1] - self.places[left]) * (time - start) / (end - start)

    def step(self):
        """The distance of written times: 1, 2 or 5 and zeros, wide enough for the longest of them."""
        room = 22 + 7 * len(f"{self.marks[-1]:,}")
        step = 1
        while step * self.scale < room:
            step = step * 5 // 2 if str(step).startswith("2") else step * 2
        return step

    def written(self):
        """The times that are written: the steps outside cuts, and both ends of a cut are left free."""
        step = self.step()
        uncut, start = [], self.marks[0]
        for begin, end in self.cuts:
            uncut.append((start, begin))
            start = end
        for begin, end in uncut + [(start, self.marks[-1])]:
            yield from range(-(-begin // step) * step, end + 1, step)
