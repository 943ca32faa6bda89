"""A picture read back: its strips, and in each the rows, the signs and the bars with their places. The legend is left out."""
import re
from collections import namedtuple
from xml.etree import ElementTree

SVG = "{http://www.w3.org/2000/svg}"
SHIFT = {"met": 3, "cross": 5, "used": 4, "axis": 3}  # how far left of its time a sign begins
Sign = namedtuple("Sign", "kind row x")
Bar = namedtuple("Bar", "kind row start end")
Group = namedtuple("Group", "title signs bars digit")


def place(element, name):
    return float(element.get(name))


class Strip:
    """One strip: `tops` of the rows and their names, both edges, the signs that stand alone, and the groups of jobs and of the choice."""

    def __init__(self, group):
        names = [text for text in group.findall(f"{SVG}text") if text.get("class") == "name"]
        self.names = [text.text for text in names]
        self.tops = [place(text, "y") - 13 for text in names]
        rule = next(line for line in group.findall(f"{SVG}line") if line.get("class") == "rule")
        self.left, self.right = place(rule, "x1"), place(rule, "x2")
        self.signs, _ = self.marks(group)
        self.groups = [self.group(one) for one in group.findall(f"{SVG}g")]
        self.cuts = [(place(r, "x"), place(r, "x") + place(r, "width")) for r in group.findall(f"{SVG}rect") if r.get("class") == "cut"]
        self.texts = group.findall(f"{SVG}text")
        self.ended = [place(line, "x1") for line in group.findall(f"{SVG}line") if line.get("class") == "end"]
        self.strokes = [place(line, "x1") for line in group.findall(f"{SVG}line") if line.get("class") == "axis"]
        self.foot = self.tops[-1] + 30

    def row(self, y):
        """The row in which something stands."""
        found = [row for row, top in enumerate(self.tops) if top <= y < top + 30]
        return found[0] if found else None

    def marks(self, group):
        """The signs and bars that stand in a group itself."""
        signs, bars = [], []
        for path in group.findall(f"{SVG}path"):
            kind, x, y = path.get("class"), *map(float, re.match(r"M(\S+) (\d+)", path.get("d")).groups())
            if kind == "refused":
                kind, x = ("flag", x + 4) if "h8" in path.get("d") else ("diamond", x)
            signs.append(Sign("tick" if kind == "axis" else kind, self.row(y), x + SHIFT.get(kind, 0)))
        signs += [Sign("ring", self.row(place(ring, "cy")), place(ring, "cx")) for ring in group.findall(f"{SVG}circle")]
        for rect in group.findall(f"{SVG}rect"):
            bars.append(Bar(rect.get("class"), self.row(place(rect, "y")), place(rect, "x"), place(rect, "x") + place(rect, "width")))
        return signs, bars

    def group(self, group):
        digit = group.find(f"{SVG}text")
        return Group(group.find(f"{SVG}title").text, *self.marks(group), None if digit is None else digit.text)

    def written(self):
        """The times at the axis with their places; a number that had to be moved aside is left out."""
        found = [(text.text.replace(",", ""), place(text, "x")) for text in self.texts if place(text, "y") == self.foot + 17]
        return [(int(words), x) for words, x in found if x in self.strokes]

    def notes(self):
        """The sentences below the axis; a line that goes on is indented."""
        lines = [text.text for text in self.texts if place(text, "y") > self.foot + 30]
        return "\n".join(lines).replace("\n    ", " ").split("\n") if lines else []


class Page:
    """A whole picture."""

    def __init__(self, svg):
        self.root = ElementTree.fromstring(svg)
        self.width, self.height = place(self.root, "width"), place(self.root, "height")
        groups = [group for group in self.root.findall(f"{SVG}g") if group.get("class") != "legend"]
        self.strips = [Strip(group) for group in groups]
        self.words = [text.text for text in self.root.findall(f"{SVG}text")]

    def table(self):
        """The cells of the table at the end, a row for each task."""
        cells = self.words[self.words.index("At the end") + 8 :]
        return [cells[at : at + 7] for at in range(0, len(cells), 7)]

    def outside(self):
        """What is drawn past the page's edges."""
        return [words for words, x, y in points(self.root, 0, 0) if not (0 <= x <= self.width and 0 <= y <= self.height)]


def points(element, left, top):
    """The places that an element and all in it reach: what it is, x and y."""
    moved = re.match(r"translate\((\S+) (\S+)\)", element.get("transform", ""))
    if moved:
        left, top = left + float(moved[1]), top + float(moved[2])
    for x, y, words in reached(element):
        yield f"{element.tag[len(SVG) :]} {words}", left + x, top + y
    for part in element:
        if part.tag != f"{SVG}defs":
            yield from points(part, left, top)


def reached(element):
    """The corners of one element."""
    kind, get = element.tag[len(SVG) :], lambda name: place(element, name)
    if kind == "line":
        yield from ((get(f"x{end}"), get(f"y{end}"), element.get("class")) for end in "12")
    elif kind == "rect":
        yield get("x"), get("y"), element.get("class")
        yield get("x") + get("width"), get("y") + get("height"), element.get("class")
    elif kind == "circle":
        yield from ((get("cx") + side * get("r"), get("cy") + side * get("r"), element.get("class")) for side in (-1, 1))
    elif kind == "text":
        wide = (4 if element.get("class") == "small" else 5) * len(element.text)  # a letter has more, but for a few
        start = get("x") - {"middle": wide / 2, "end": wide}.get(element.get("text-anchor"), 0)
        yield from ((x, get("y"), element.text) for x in (start, start + wide))
    elif kind == "path":
        yield from ((x, y, element.get("class")) for x, y in strokes(element.get("d")))


def strokes(d):
    """The places that a path goes through."""
    x = y = 0.0
    for step, words in re.findall(r"([MmlhVz])([^MmlhVz]*)", d):
        numbers = list(map(float, words.split()))
        if step == "M":
            x, y = numbers
        elif step in "ml":
            x, y = x + numbers[0], y + numbers[1]
        elif step == "h":
            x += numbers[0]
        elif step == "V":
            y = numbers[0]
        yield x, y
