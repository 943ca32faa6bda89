#!/usr/bin/env python3
"""draw_crates.py [OUT]: draws docs/crates.svg, the picture of the crates, from crates.txt and the folders of crates/, to OUT or to standard output.

A comment of crates.txt opens a layer, and the ground is at the bottom. Only those lines are drawn that no longer path implies.
All lines to one crate are one tree (a net) with one arrow: it leaves the crate at its top, climbs in a gutter between two columns, and has a branch to each crate
that is built on it.
Every place is a whole number and nothing is drawn by chance, so the bytes are the same on every machine."""
import itertools
import pathlib
import re
import sys

ROOT = pathlib.Path(__file__).resolve().parent.parent
BOX, HIGH, GUTTER, SIDE = 104, 36, 48, 140  # a box, the space beside it, and the layers' names at the left
ROW, PAD, TRACK = 46, 9, 8  # rows of boxes in a layer, the layer's rim, and lines that run side by side
HUES = ["#5b6470", "#2f6db3", "#b3541e", "#2b7a4b", "#8a3fa0", "#a8791a", "#1f7f8c", "#b03060", "#5a5fc7", "#6b7d1e", "#c0392b", "#7a5230", "#3d5a80"]


def crates():
    """The layers, each a name and its crates from the ground up, and what each crate is built on."""
    layers, deps = [], {}
    for line in (ROOT / "crates.txt").read_text(encoding="utf-8").splitlines():
        if line.startswith("#"):
            layers.append((re.split(r"[:,;.]", line.lstrip("# "))[0], []))
        elif ":" in line:
            head, built_on = line.split(":")
            name = head.split()[0]
            deps[name] = built_on.split()
            layers[-1][1].append(name)
    return layers, {name: [x for x in below if x in deps] for name, below in deps.items()}


def reduced(deps):
    """The lines that no longer path implies."""
    below = {}
    for name in deps:  # crates.txt has a crate behind those that it is built on
        below[name] = set(deps[name]).union(*(below[x] for x in deps[name]))
    return {name: [x for x in deps[name] if not any(x in below[y] for y in deps[name])] for name in deps}


def kind(name):
    """program, code or theory: a crate without a function has definitions and theorems alone."""
    source = ROOT / "crates" / name / "src"
    if (source / "main.rt").exists():
        return "program"
    return "code" if any(re.search(r"\bfn ", p.read_text(encoding="utf-8")) for p in source.rglob("*.rt")) else "theory"


# ---- places


def columns(names, links):
    """The column of each crate of a layer: behind what it is built on there. A broad and flat layer is one row."""
    at = {}
    for name in names:
        at[name] = 1 + max((at[x] for x in links[name] if x in at), default=-1)
    return {name: i for i, name in enumerate(names)} if len(names) > 4 and max(at.values()) < 2 else at


def spread(wanted):
    """Heights at least a row apart, in the order of those wanted and as near to them as can be."""
    out = []
    for y in wanted:
        out.append(max(y, out[-1] + ROW) if out else y)
    slip = (sum(out) - sum(wanted)) // max(1, len(out))
    return [y - slip for y in out]


def heights(names, links, at, outside):
    """The height of each crate in its layer: the highest column is stacked, those beside it stand level with what they are joined to."""
    stacks = [[x for x in names if at[x] == k] for k in range(max(at.values()) + 1)]
    first = max(range(len(stacks)), key=lambda k: (len(stacks[k]), -k))
    y = {x: ROW * i for i, x in enumerate(sorted(stacks[first], key=lambda x: x not in outside))}
    for k in list(range(first + 1, len(stacks))) + list(range(first - 1, -1, -1)):
        joined = {x: [y[z] for z in names if z in y and (z in links[x] or x in links[z])] for x in stacks[k]}
        wanted = {x: sum(joined[x]) // len(joined[x]) if joined[x] else 0 for x in stacks[k]}
        order = sorted(stacks[k], key=lambda x: (wanted[x], x not in outside))
        y.update(zip(order, spread([wanted[x] for x in order])))
    least = min(y.values())
    return {x: y[x] - least for x in names}


class Net:
    """All lines to one crate, from its own layer or from those above."""

    def __init__(self, target, users, inner):
        self.target, self.users, self.inner, self.gutter = target, users, inner, None


class Plan:
    """What stands where, in layers, columns and gutters; no places in pixels yet."""

    def __init__(self):
        self.layers, deps = crates()
        self.links = reduced(deps)
        self.layer = {x: i for i, (_, names) in enumerate(self.layers) for x in names}
        users = {x: [z for z in deps if x in self.links[z]] for x in deps}
        outside = {x for x in deps if any(self.layer[z] != self.layer[x] for z in users[x])}
        self.at, self.y = {}, {}
        for _, names in self.layers:
            at = columns(names, self.links)
            self.at.update(at)
            self.y.update(heights(names, self.links, at, outside))
        self.broad = [1 + max(self.at[x] for x in names) for _, names in self.layers]
        self.columns = max(self.broad)
        self.shift = [0] * len(self.layers)
        self.nets = []
        for x in deps:
            for inner in (True, False):
                mine = [z for z in users[x] if (self.layer[z] == self.layer[x]) == inner]
                if mine:
                    self.nets.append(Net(x, mine, inner))

    def column(self, x):
        return self.at[x] + self.shift[self.layer[x]]

    def alone(self, x, above):
        """Whether nothing stands in the same column of the layer above it, or below it."""
        same = [z for z in self.layers[self.layer[x]][1] if self.at[z] == self.at[x] and z != x]
        return not any((self.y[z] < self.y[x]) == above for z in same)

    def by_side(self, net, user):
        """Whether a line from above leaves a crate at its left: another stands below it, or one in its column does so for the same net."""
        same = [z for z in net.users if self.layer[z] == self.layer[user] and self.at[z] == self.at[user]]
        return any(not self.alone(z, False) for z in same)


# ---- lines


def left(column):
    return SIDE + GUTTER + column * (BOX + GUTTER)


class Drawing:
    """The places of a plan: lanes in the gutters, ports of the boxes, tracks in the channels below each layer, and the lines through them."""

    def __init__(self, plan):
        self.plan = plan
        self.lanes()
        self.ports()
        self.tracks()
        self.lines = [(net, user, self.line(net, user)) for net in plan.nets for user in net.users]

    def level(self, layer, y=None):
        """A place from the ground up: a layer's channel, or a height in the layer."""
        return 2000 * layer if y is None else 2000 * layer + 1900 - y

    def spans(self, net):
        """The upright parts of a net: a gutter, what it is for, and from which level to which."""
        plan, t = self.plan, net.target
        low = plan.layer[t]
        if net.inner:
            near = [z for z in net.users if plan.at[z] == plan.at[t] + 1]
            far = [z for z in net.users if z not in near]
            ends = [self.level(low, plan.y[z]) for z in near + [t]] + [self.level(low)] * bool(far)
            if max(ends) > min(ends):
                yield plan.column(t) + 1, ("inner", t), min(ends), max(ends)
            return
        if not plan.alone(t, True):
            yield plan.column(t) + 1, ("exit", t), self.level(low, plan.y[t]), self.level(low + 1) + 900
        high = max(plan.layer[z] for z in net.users)
        if high > low + 1:
            yield net.gutter, ("trunk", t), self.level(low + 1), self.level(high) + 900
        for z in net.users:
            if plan.by_side(net, z):
                i = plan.layer[z]
                highest = min(plan.y[x] for x in net.users if plan.layer[x] == i and plan.at[x] == plan.at[z])
                yield plan.column(z), ("side", t, i, plan.at[z]), self.level(i), self.level(i, highest)

    def lanes(self):
        """A lane for each upright part: none of two nets overlap in one."""
        gutters = {}
        for net in self.plan.nets:
            for gutter, key, low, high in self.spans(net):
                found = gutters.setdefault(gutter, {})
                found[key] = (low, high)
        self.lane = {}
        for gutter, found in gutters.items():
            taken = []
            for key in sorted(found, key=lambda k: (found[k][0] - found[k][1], str(k))):
                low, high = found[key]
                free = [n for n, lane in enumerate(taken) if all(high < a or b < low for a, b in lane)]
                if not free:
                    taken.append([])
                taken[free[0] if free else -1].append((low, high))
                self.lane[key] = (gutter, free[0] if free else len(taken) - 1)
            for key in found:
                n = self.lane[key][1]
                # clear of the arrows at the gutter's left
                self.lane[key] = left(gutter) - GUTTER + 11 + (2 * n + 1) * (GUTTER - 16) // (2 * len(taken))

    def ports(self):
        """Where the lines to what a crate is built on leave it: at its left, or at its bottom."""
        plan, self.port = self.plan, {}
        for x in plan.layer:
            nets = [net for net in plan.nets if x in net.users]
            side = [n for n in nets if (n.inner and plan.at[x] == plan.at[n.target] + 1) or (not n.inner and plan.by_side(n, x))]
            side.sort(key=lambda n: plan.y[n.target] if n.inner else 9999)
            for k, net in enumerate(side):
                self.port[net, x] = ("side", 10 * k - 5 * (len(side) - 1))
            under = [n for n in nets if n not in side]
            under.sort(key=lambda n: self.lane.get(("trunk", n.target), left(plan.column(n.target))) if not n.inner else 0)
            for k, net in enumerate(under):
                self.port[net, x] = ("under", 16 * k - 8 * (len(under) - 1))

    def middle(self, x):
        return left(self.plan.column(x)) + BOX // 2

    def pins(self, net, i):
        """Where a net meets the channel below layer i: x and whether it goes up from there."""
        plan, t = self.plan, net.target
        low = plan.layer[t]
        if net.inner:
            far = [z for z in net.users if self.port[net, z][0] == "under"]
            return [(self.lane["inner", t], True)] + [(self.middle(z) + self.port[net, z][1], True) for z in far] if far and i == low else []
        here = [z for z in net.users if plan.layer[z] == i]
        out = []
        for z in here:
            where, off = self.port[net, z]
            out.append((self.lane["side", t, i, plan.at[z]] if where == "side" else self.middle(z) + off, True))
        if i == low + 1:
            out.append((self.middle(t) if plan.alone(t, True) else self.lane["exit", t], False))
        if ("trunk", t) in self.lane and (here or i == low + 1):
            high = max(plan.layer[z] for z in net.users)
            out += [(self.lane["trunk", t], False)] * (i > low + 1) + [(self.lane["trunk", t], True)] * (i < high)
        return out

    def tracks(self):
        """The channels: an order of the nets with few crossings, then each as low as those that it overlaps allow."""
        self.track, self.deep = {}, []
        for i in range(len(self.plan.layers)):
            pins = {net: p for net in self.plan.nets if (p := self.pins(net, i))}
            bent = [net for net in pins if len({x for x, _ in pins[net]}) > 1]
            order = ordered(bent, pins)
            for n, net in enumerate(order):
                under = [self.track[i, other] for other in order[:n] if overlap(pins[net], pins[other])]
                self.track[i, net] = 1 + max(under, default=0)
            self.deep.append(TRACK * (1 + max((self.track[i, net] for net in bent), default=0)))
        self.floor = []  # the bottom of each layer, counted from the picture's bottom
        y = 0
        for i, (_, names) in enumerate(self.plan.layers):
            y += self.deep[i]
            self.floor.append(y)
            y += 2 * PAD + HIGH + max(self.plan.y[x] for x in names)
        self.height = y

    def top(self, x):
        i = self.plan.layer[x]
        high = max(self.plan.y[z] for z in self.plan.layers[i][1])
        return self.height - self.floor[i] - PAD - HIGH - high + self.plan.y[x]

    def channel(self, i, net):
        return self.height - self.floor[i] + self.deep[i] - TRACK * self.track.get((i, net), 0)

    def line(self, net, user):
        """The corners of the line from a crate to one that it is built on."""
        plan, t = self.plan, net.target
        i, low = plan.layer[user], plan.layer[t]
        where, off = self.port[net, user]
        if where == "side":
            y = self.top(user) + HIGH // 2 + off
            lane = self.lane.get(("inner", t) if net.inner else ("side", t, i, plan.at[user]), left(plan.column(user)) - GUTTER // 2)
            points = [(left(plan.column(user)), y), (lane, y)]
        else:
            points = [(self.middle(user) + off, self.top(user) + HIGH)]
        if not net.inner or where == "under":
            points += self.turn(points[-1][0], self.lane["inner", t] if net.inner else self.lane.get(("trunk", t)), i, net)
        if net.inner:
            y = self.top(t) + HIGH // 2
            return bare(points + [(points[-1][0], y), (left(plan.column(t)) + BOX, y)])
        exits = plan.alone(t, True)
        end = self.middle(t) if exits else self.lane["exit", t]
        points += self.turn(points[-1][0], end, low + 1, net)
        y = self.top(t) if exits else self.top(t) + HIGH // 2
        return bare(points + [(end, y)] + ([] if exits else [(left(plan.column(t)) + BOX, y)]))

    def turn(self, x, to, i, net):
        """Along the channel below layer i from x to another place, where there is one."""
        if to is None or to == x:
            return []
        y = self.channel(i, net)
        return [(x, y), (to, y)]


def overlap(a, b):
    """Whether two nets in a channel need tracks of their own."""
    return max(min(x for x, _ in a), min(x for x, _ in b)) <= min(max(x for x, _ in a), max(x for x, _ in b)) + 6


def crossed(low, high):
    """The crossings of two nets in a channel, the first on a track below the second; a line upon a line counts as many."""
    inside = lambda x, net: min(z for z, _ in net) < x < max(z for z, _ in net)
    count = sum(up and inside(x, high) for x, up in low) + sum(not up and inside(x, low) for x, up in high)
    return count + 50 * sum(up and not down and abs(x - z) < 4 for x, up in low for z, down in high)


def ordered(nets, pins):
    """An order from the lowest track up: exchanges as long as one saves crossings."""
    order = sorted(nets, key=lambda net: min(pins[net]))
    table = {(a, b): crossed(pins[a], pins[b]) for a, b in itertools.permutations(order, 2)}
    count = lambda some: sum(table[pair] for pair in itertools.combinations(some, 2))
    least, better = count(order), True
    while better:
        better = False
        for a, b in itertools.combinations(range(len(order)), 2):
            other = order[:a] + [order[b]] + order[a + 1 : b] + [order[a]] + order[b + 1 :]
            if count(other) < least:
                order, least, better = other, count(other), True
    return order


def bare(points):
    """A line without corners that are none."""
    out = []
    for p in points:
        if out and p == out[-1]:
            continue
        while len(out) > 1 and (out[-2][0] == out[-1][0] == p[0] or out[-2][1] == out[-1][1] == p[1]):
            out.pop()
        out.append(p)
    return out


# ---- the best of the plans


def cost(drawing):
    """How long the lines are, how often they cross, and whether one lies upon another."""
    flat, upright = {}, {}
    for net, _, points in drawing.lines:
        for (x, y), (u, v) in zip(points, points[1:]):
            if y == v:
                flat[net, y, min(x, u), max(x, u)] = 1
            else:
                upright[net, x, min(y, v), max(y, v)] = 1
    crossings = {(id(n), id(m), x, y) for n, y, a, b in flat for m, x, c, d in upright if n is not m and a < x < b and c < y < d}
    long = sum(b - a for _, _, a, b in flat) + sum(b - a for _, _, a, b in upright)
    upon = 0
    for lines in (sorted(flat, key=lambda s: s[1:]), sorted(upright, key=lambda s: s[1:])):
        for one, other in zip(lines, lines[1:]):
            upon += one[0] is not other[0] and abs(one[1] - other[1]) < 3 and max(one[2], other[2]) < min(one[3], other[3])
    return long + 40 * len(crossings) + 3000 * upon + 4 * drawing.height


def settle(plan):
    """Each layer is shifted and each trunk put into another gutter as long as that makes the picture better."""
    trunks = [net for net in plan.nets if not net.inner]
    for net in trunks:
        net.gutter = plan.column(net.target) + 1
    best = cost(Drawing(plan))
    better = True
    while better:
        better = False
        for i in range(len(plan.layers)):
            for shift in range(plan.columns - plan.broad[i] + 1):
                old, plan.shift[i] = plan.shift[i], shift
                now = cost(Drawing(plan)) if shift != old else best
                best, better = (now, True) if now < best else (best, better)
                plan.shift[i] = shift if now == best else old
        for net in trunks:
            for gutter in range(plan.columns + 1):
                old, net.gutter = net.gutter, gutter
                now = cost(Drawing(plan)) if gutter != old else best
                best, better = (now, True) if now < best else (best, better)
                net.gutter = gutter if now == best else old
    return Drawing(plan)


# ---- the picture

STYLE = """text { font-family: "DejaVu Sans Mono", Menlo, Consolas, "Liberation Mono", monospace; font-size: 12px; fill: #1b1f24 }
.layer { font-family: "DejaVu Sans", Verdana, Arial, sans-serif; font-size: 13px; font-weight: bold }
.family { fill: #6a737d; font-size: 11px }
.own { font-weight: bold }
.note { font-family: "DejaVu Sans", Verdana, Arial, sans-serif; font-size: 12px }
.line { fill: none; stroke-width: 1.5 }
.code { fill: #ffffff; stroke: #444c56; stroke-width: 1 }
.theory { fill: #fff1b8; stroke: #444c56; stroke-width: 1 }
.program { fill: #ffffff; stroke: #1b1f24; stroke-width: 2.5 }"""


def curve(points):
    """A line with round corners."""
    out = "M%d %d" % points[0]
    for (a, b), (x, y), (u, v) in zip(points, points[1:], points[2:]):
        r = min(5, (abs(a - x) + abs(b - y)) // 2, (abs(u - x) + abs(v - y)) // 2)
        toward = lambda p, q: ((p > q) - (p < q)) * r
        out += "L%d %dQ%d %d %d %d" % (x + toward(a, x), y + toward(b, y), x, y, x + toward(u, x), y + toward(v, y))
    return out + "L%d %d" % points[-1]


def arrow(points, hue):
    (a, b), (x, y) = points[-2:]
    if a == x:
        return f'<path d="M{x} {y}l-4 -7h8z" fill="{hue}"/>'
    return f'<path d="M{x} {y}l7 -4v8z" fill="{hue}"/>'


def box(x, y, name, how):
    family, _, own = name.partition("_")
    out = f'<g><title>{name}</title><rect class="{how}" x="{x}" y="{y}" width="{BOX}" height="{HIGH}" rx="4"/>'
    middle = x + BOX // 2
    if not own:
        return out + f'<text class="own" x="{middle}" y="{y + 22}" text-anchor="middle">{name}</text></g>'
    return out + (
        f'<text class="family" x="{middle}" y="{y + 15}" text-anchor="middle">{family}_</text>'
        f'<text class="own" x="{middle}" y="{y + 29}" text-anchor="middle">{own}</text></g>'
    )


def wrapped(text, most):
    lines = [""]
    for word in text.split():
        if lines[-1] and len(lines[-1]) + 1 + len(word) > most:
            lines.append("")
        lines[-1] = (lines[-1] + " " + word).strip()
    return lines


def bands(drawing, wide):
    for i, (title, names) in enumerate(drawing.plan.layers):
        high = 2 * PAD + HIGH + max(drawing.plan.y[x] for x in names)
        y = drawing.height - drawing.floor[i] - high
        yield f'<rect x="8" y="{y}" width="{wide - 16}" height="{high}" rx="6" fill="#eef1f4"/>'
        yield f'<rect x="8" y="{y}" width="5" height="{high}" rx="2" fill="{HUES[i % len(HUES)]}"/>'
        words = wrapped(title, 17)
        for k, line in enumerate(words):
            yield f'<text class="layer" x="22" y="{y + high // 2 + 5 + 16 * k - 8 * (len(words) - 1)}">{line}</text>'


def legend(y):
    out, x = [], 22
    for how, text in (("code", "code with its proofs"), ("theory", "definitions and theorems alone"), ("program", "a program")):
        out.append(f'<rect class="{how}" x="{x}" y="{y - 13}" width="28" height="17" rx="4"/><text class="note" x="{x + 36}" y="{y}">{text}</text>')
        x += 70 + 7 * len(text)
    out.append(f'<path class="line" d="M{x} {y - 4}h34" stroke="{HUES[0]}"/><path d="M{x} {y - 4}l7 -4v8z" fill="{HUES[0]}"/>')
    out.append(f'<text class="note" x="{x + 44}" y="{y}">is built on (in the colour of that crate\'s layer)</text>')
    text = "Within a layer read from left to right. A line that a longer path implies is left out: nearly every crate is built on laws."
    return out + [f'<text class="note" x="22" y="{y + 20}">{text}</text>']


def picture(drawing):
    plan = drawing.plan
    wide, high = left(plan.columns) + 8, drawing.height + 62
    out = [f'<svg xmlns="http://www.w3.org/2000/svg" width="{wide}" height="{high}" viewBox="0 0 {wide} {high}" role="img">']
    out += ["<title>The crates, from the ground up</title>", f"<style>{STYLE}</style>"]
    out += [f'<rect width="{wide}" height="{high}" fill="#ffffff"/>', '<g transform="translate(0 8)">']
    out += bands(drawing, wide)
    heads = {}
    for net, _, points in drawing.lines:
        hue = HUES[plan.layer[net.target] % len(HUES)]
        out.append(f'<path class="line" d="{curve(points)}" stroke="{hue}"/>')
        heads[points[-1]] = arrow(points, hue)
    out += heads.values()
    out += [box(left(plan.column(x)), drawing.top(x), x, kind(x)) for x in plan.layer]
    out += legend(drawing.height + 20) + ["</g>", "</svg>"]
    return "\n".join(out) + "\n"


def main(words):
    if len(words) > 1:
        sys.exit(__doc__)
    text = picture(settle(Plan()))
    if words:
        pathlib.Path(words[0]).write_text(text, encoding="utf-8")
    else:
        sys.stdout.write(text)


if __name__ == "__main__":
    try:
        main(sys.argv[1:])
    except OSError as wrong:
        sys.exit(f"draw_crates.py: {wrong.filename}: {wrong.strerror}")
