"""Whether one strip has one place for each time: later times further right, equal steps wherever nothing is cut."""
NEAR = 0.16  # places have one digit behind the point


class Scale:
    """Collects times with their places, and says what does not agree."""

    def __init__(self, strip):
        self.strip, self.at, self.errors = strip, {}, []
        for time, x in strip.written():
            self.note(time, x, "a written time")

    def note(self, time, x, what):
        """Something of this time stands at x."""
        known = self.at.setdefault(time, x)
        if abs(known - x) > NEAR:
            self.errors.append(f"{what}: {time} stands at {x} and at {known}")

    def note_bar(self, start, end, bar):
        """A bar goes from time to time, or to the strip's edge; which of its ends are those of the times."""
        found = set()
        for time, x, edge in (start, bar.start, self.strip.left), (end, bar.end, self.strip.right):
            if abs(x - edge) > NEAR:
                self.note(time, x, bar.kind)
            if abs(self.at.get(time, -1) - x) <= NEAR:
                found.add("start" if time == start else "end")
        if bar.start >= bar.end:
            self.errors.append(f"{bar.kind}: it ends at {bar.end} and begins at {bar.start}")
        return found

    def cut_between(self, left, right):
        return any(begin < right + NEAR and end > left + NEAR for begin, end in self.strip.cuts)

    def wrong(self):
        """What does not agree, at most three of it."""
        known = sorted(self.at.items())
        steps = [(a, b) for a, b in zip(known, known[1:]) if not self.cut_between(a[1], b[1])]
        for (time, x), (later, right) in zip(known, known[1:]):
            if x > right + NEAR or not self.strip.left - NEAR <= x <= self.strip.right + NEAR:
                self.errors.append(f"{time} stands at {x}, and {later} at {right}")
        if steps:
            widest = max(steps, key=lambda pair: pair[1][1] - pair[0][1])
            scale = (widest[1][1] - widest[0][1]) / (widest[1][0] - widest[0][0])
            for (time, x), (later, right) in steps:
                if abs(right - x - scale * (later - time)) > 2 * NEAR + 0.001 * (right - x):
                    self.errors.append(f"from {time} to {later} there are {right - x:.1f}, and {scale * (later - time):.1f} are right")
        return self.errors[:3]
