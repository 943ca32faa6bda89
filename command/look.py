"""How the picture looks: colours, signs, and the legend that explains them.

It can be read without colour: signs differ by shape, classes by lightness and a digit."""
import unicodedata

from . import svg

STYLE = """
text{font:11px 'DejaVu Sans',Verdana,Arial,sans-serif;fill:#222}
.head{font-size:17px;font-weight:bold}.name{font-size:12px;font-weight:bold}.bad{font-weight:bold;fill:#a00000}.plate{fill:#fff;fill-opacity:.85}
.small{font-size:9px;fill:#555}.digit{font-size:9px}.light{font-size:9px;fill:#fff}
.page{fill:#fff}.band{fill:#f4f4f6}.rule{stroke:#ccc;stroke-width:1}.grid{stroke:#ddd;stroke-width:.6}.axis{stroke:#444;stroke-width:1}
.wait{fill:#fff;stroke:#555;stroke-width:1}.over{fill:#fff;stroke:#a00000;stroke-width:1;stroke-dasharray:2 2}
.c0{fill:#16325c}.c1{fill:#d98a1f}.c2{fill:#efbf73}.c3{fill:#fbe8c8}.c0,.c1,.c2,.c3{stroke:#16325c;stroke-width:.7}
.late{fill:url(#late);stroke:#a00000;stroke-width:.7}
.up{stroke:#111;stroke-width:1.3;fill:none}.down{stroke:#777;stroke-width:1.1;fill:none}
.met{stroke:#0a6b2d;stroke-width:1.8;fill:none}.cross{stroke:#c00000;stroke-width:2.6;fill:none}
.halo{stroke:#fff;stroke-width:5;fill:none}.ring{stroke:#c00000;stroke-width:2;fill:none}.used{fill:#111;stroke:#fff;stroke-width:.8}
.refused{fill:#fff;stroke:#a00000;stroke-width:1.3}.cut{fill:url(#cut);stroke:none}.end{stroke:#222;stroke-width:1;stroke-dasharray:5 3}
"""
PATTERNS = (
    '<pattern id="late" width="5" height="5" patternUnits="userSpaceOnUse" patternTransform="rotate(45)">'
    '<rect width="5" height="5" fill="#fff"/><rect width="2" height="5" fill="#c00000"/></pattern>'
    '<pattern id="cut" width="6" height="6" patternUnits="userSpaceOnUse"><path d="M0 6L6 0" stroke="#bbb" stroke-width="1"/></pattern>'
)
TEXT = 11  # the size of letters in sentences
ROW = 30  # the height of a task's row
BASE, HIGH = 25, 4  # where arrows stand in it
SHADES = 3  # classes from here on look alike, but for their digit


def class_name(cls):
    return f"c{min(cls, SHADES)}"


def up(x, y):
    """A release: an arrow up."""
    return svg.path(f"M{x:.1f} {y + BASE}V{y + HIGH}m-3 4l3 -4l3 4", "up")


def down(x, y):
    """A deadline: an arrow down."""
    return svg.path(f"M{x:.1f} {y + HIGH}V{y + BASE}m-3 -4l3 4l3 -4", "down")


def tick_off(x, y):
    """A job that was met: a tick above its end."""
    return svg.path(f"M{x - 3:.1f} {y + 4}l3 3.5l5 -7", "met")


def cross(x, y):
    """A job that was missed: a cross at its deadline."""
    strokes = f"M{x - 5:.1f} {y + 11}l10 10m0 -10l-10 10"
    return svg.path(strokes, "halo") + svg.path(strokes, "cross")


def ring(x, y):
    """A job that broke its window: a ring around the cross."""
    return svg.element("circle", cx=x, cy=y + 16, r=9.5, cls="ring")


def used(x, y):
    """Here the job has been the choice for its C: a notch in its bar."""
    return svg.path(f"M{x - 4:.1f} {y + 7}h8l-4 7z", "used")


def diamond(x, y):
    """A refused event, in the row of its task."""
    return svg.path(f"M{x:.1f} {y}l3.5 4.5l-3.5 4.5l-3.5 -4.5z", "refused")


def flag(x, y):
    """A refused event, above the rows."""
    return svg.path(f"M{x - 4:.1f} {y + 5}h8l-4 8z", "refused")


def ticked(x, y):
    """An accepted tick, on the axis."""
    return svg.path(f"M{x - 3:.1f} {y}l3 -5l3 5z", "axis")


def waits(x, y, width, cls="wait"):
    return svg.rect(x, y + 13, width, 7, cls)


def runs(x, y, width, cls):
    return svg.rect(x, y + 9, width, 14, cls)


LEGEND = (
    (14, "release", lambda: up(6.0, 0)),
    (14, "deadline", lambda: down(6.0, 0)),
    (22, "open", lambda: waits(0, 0, 18)),
    (80, "the choice, class 0 (required), 1, 2, 3 or more", lambda: "".join(runs(20 * n, 0, 16, f"c{n}") for n in range(4))),
    (24, "C used up", lambda: runs(0, 0, 20, "c1") + used(9.0, 0)),
    (26, "met", lambda: waits(0, 0, 16) + tick_off(16.0, 0)),
    (16, "missed", lambda: cross(7.0, 0)),
    (26, "window broken", lambda: cross(12.0, 0) + ring(12.0, 0)),
    (34, "past its deadline", lambda: waits(0, 0, 14, "over") + runs(16, 0, 14, "late")),
    (26, "refused", lambda: flag(6.0, 7) + diamond(18.0, 12)),
    (12, "tick", lambda: ticked(5.0, 21)),
    (20, "cut", lambda: svg.rect(0, 6, 16, 18, "cut")),
)
# letters of DejaVu Sans in parts of the letter's height, rounded up
WIDE, LARGE, SMALL, NARROW = 1.0, 0.78, 0.62, 0.38


def width_of(letter):
    if letter in " ijlrtfI.,:;'()|!":
        return NARROW
    if letter in "WMmw@%" or unicodedata.east_asian_width(letter) in "WF":
        return WIDE
    return LARGE if letter.isupper() else SMALL


def wide(words, size, bold=False):
    """How wide words are at this size of letters, at the most."""
    return size * sum(map(width_of, words)) * (1.14 if bold else 1)


def wrapped(words, room, bold=False):
    """Words in lines that fit the room, at the size of sentences; a word that is too long is cut."""
    lines, line = [], ""
    for word in words.split(" "):
        longer = f"{line} {word}" if line else word
        if line and wide(longer, TEXT, bold) > room:
            lines.append(line)
            line = "    " + word
        else:
            line = longer
    return [*lines, line]


def legend(x, y):
    """Two rows that name the signs."""
    for row in (LEGEND[:6], LEGEND[6:]):
        at = x
        for width, words, sign in row:
            yield svg.group([sign(), svg.text(width + 2, 20, words)], place=f"translate({at:.0f} {y})")
            at += width + wide(words, TEXT) + 20
        y += 24
