"""Where the parts of a picture stand: a column for each period, a row for each node, and each flow a line with a place of its own.

Behind a column come drains and the words of holds, and the arcs that lead down, to a later node; before a column come feeds and the arcs that
lead up. All columns are alike. In a row each line has a port of its own at the side of the box, so no two lines lie on each other. The words
of an arc stand between two rows. Where the periods are wider than the picture may be, they go on in a band of columns below: a hold between two bands
leads out at the right and comes in at the left.
"""
from collections import defaultdict
from fractions import Fraction

from labels import Label, node_lines, width

STUB = 34  # how long a drain or a feed is drawn
PORT = 20  # room for the end of an arc, a drain or a feed
HOLD = 36  # room for a hold, with its words above it
LINE = 17  # room for a line of words
MARGIN = 24
HEADER = 84  # room above the nodes, for a verdict of one line and the numbers of the periods
HEAD_LINE = 22
BAND = 50  # between two bands of columns, with the numbers of the periods
CORNER = 14


class Lanes:
    """Lanes for arcs that lead down, or for arcs that lead up: for each arc its lane, from 0 next to the nodes, and the gap between rows where
    its words stand, with its place there. Shorter arcs come nearer, and arcs that have no rows in common may share a lane."""

    def __init__(self, spans):
        self.spans, self.lane, self.slot, self.filled, lanes = spans, {}, {}, {}, []
        for name, (low, high) in sorted(spans.items(), key=lambda item: item[1][1] - item[1][0]):
            free = (k for k, taken in enumerate(lanes) if all(high <= start or stop <= low for start, stop in taken))
            lane = next(free, len(lanes))
            if lane == len(lanes):
                lanes.append([])
            lanes[lane].append((low, high))
            gap = min(range(low, high), key=lambda g: self.filled.get(g, 0))
            self.lane[name], self.slot[name] = lane, (gap, self.filled.get(gap, 0))
            self.filled[gap] = self.filled.get(gap, 0) + 1
        self.count = len(lanes)
        self.above, self.below = self.at_rows()

    def at_rows(self):
        """The arcs that come to a row from above, from the nearest lane on, and those that come from below, from the farthest lane on: so
        those of a row do not cross."""
        above, below = defaultdict(list), defaultdict(list)
        for name, (low, high) in sorted(self.spans.items(), key=lambda item: self.lane[item[0]]):
            above[high].append(name)
            below[low].insert(0, name)
        return above, below

    def arrange(self, start, widest, thick):
        """Gives the lanes their places, from a start on, so far apart that the words of an arc fit where there are few lanes. Answers where
        the words of the last one end."""
        room = widest + PORT + thick
        distance = max(PORT + thick, min(room, 400 // max(1, self.count)))
        self.place = {name: start + distance * lane for name, lane in self.lane.items()}
        return start + distance * (self.count - 1) + room if self.count else start


class Side:
    """All arcs at one side of the nodes. Those between two rows that are next to each other are near to the nodes; all others lie beyond the
    words of drains, feeds and holds, which they would cross."""

    def __init__(self, arcs, rows):
        spans = {f.name: tuple(sorted((rows[f.tail], rows[f.head]))) for f in arcs}
        self.near = Lanes({name: (low, high) for name, (low, high) in spans.items() if high == low + 1})
        self.far = Lanes({name: (low, high) for name, (low, high) in spans.items() if high > low + 1})
        self.slot = {**self.near.slot, **self.far.slot}

    def above(self, row):
        return self.near.above[row] + self.far.above[row]

    def below(self, row):
        return self.far.below[row] + self.near.below[row]

    def lines_in(self, gap):
        """How many lines of words stand in a gap between rows."""
        return max(self.near.filled.get(gap, 0), self.far.filled.get(gap, 0))

    def arrange(self, words, widest, thick):
        """Gives all lanes their places beside the nodes, where the words of other flows take so much room. Keeps the room of all."""
        near = self.near.arrange(STUB, widest(self.near.lane), thick)
        self.room = self.far.arrange(max(words, near), widest(self.far.lane), thick)
        self.place = {**self.near.place, **self.far.place}


class Layout:
    def __init__(self, network, plan, head_lines, widest=0, binding=()):
        """With bands of at most so wide columns, where that is not 0, and with marks on the flows whose bounds bind, by name and period."""
        self.network, self.plan, self.most = network, plan, widest
        self.top = HEADER + HEAD_LINE * (head_lines - 1)
        # Beside a flow a ray is drawn: each keeps so far from the middle of their place.
        self.aside = 5 if plan.verdict == "unbounded" else 0
        self.labels = {(f.name, t): Label(plan, f, t, (f.name, t) in binding) for t, f in network.staged()}
        rows = {node: k for k, node in enumerate(network.nodes)}
        arcs = [f for f in network.flows if f.kind == "arc"]
        self.at = defaultdict(list)
        for flow in network.flows:
            self.at[flow.kind, flow.tail or flow.head].append(flow.name)
        self.down = Side([f for f in arcs if rows[f.tail] < rows[f.head]], rows)
        self.up = Side([f for f in arcs if rows[f.tail] > rows[f.head]], rows)
        self.place_columns()
        self.place_rows()

    def widest(self, *kinds, of=None):
        """The widest words of the flows of these kinds, of all or of those that are named."""
        widths = [self.labels[f.name, t].width() for t, f in self.network.staged() if f.kind in kinds and (of is None or f.name in of)]
        return int(max(widths, default=0))

    def place_columns(self):
        lines = [line for t, n in self.network.supply for line in node_lines(self.network, self.plan, n, t)]
        self.box = int(max(map(width, lines), default=80)) + 24
        drains, feeds, holds = self.widest("drain"), self.widest("feed"), self.widest("hold")
        behind = max(MARGIN, STUB + PORT + drains if drains else 0, PORT + holds if holds else 0)
        before = max(MARGIN, STUB + PORT + feeds if feeds else 0)
        for side, words in ((self.down, behind), (self.up, before)):
            side.arrange(words, lambda names: self.widest("arc", of=names), 2 * self.aside)
        self.first = MARGIN + self.up.room
        self.pitch = self.box + self.down.room + self.up.room
        room = self.most - self.first + self.up.room
        self.columns = min(self.network.periods, max(1, int(room // self.pitch))) if self.most else self.network.periods
        self.width = self.first + self.pitch * self.columns - self.up.room

    def left(self, period):
        return self.first + (period - 1) % self.columns * self.pitch

    def down_by(self, period):
        """How far below the first band that of a period is."""
        return (period - 1) // self.columns * self.band

    def is_broken(self, flow, period):
        """Whether a hold leads to the next band."""
        return flow.kind == "hold" and period % self.columns == 0

    def right(self, period):
        return self.left(period) + self.box

    def lane_x(self, name, period):
        if name in self.down.place:
            return self.right(period) + self.down.place[name]
        return self.left(period) - self.up.place[name]

    def place_rows(self):
        """Row by row the box of the node and the ports at its sides, and below it a gap for words."""
        self.tops, self.heights, self.ports, self.gaps = {}, {}, {}, {}
        top = self.top
        for row, node in enumerate(self.network.nodes):
            self.tops[node], self.heights[node] = top, self.place_ports(row, node, top)
            self.gaps[row] = top + self.heights[node] + 8
            top = self.gaps[row] + 12 + LINE * max(self.down.lines_in(row), self.up.lines_in(row))
        self.band = top - self.top + BAND
        self.bottom = top + self.band * ((self.network.periods - 1) // self.columns)

    def place_ports(self, row, node, top):
        """The ports of a node whose box begins at the top, and its height: above, the arcs from above, drains and feeds; then the holds, at
        one height on both sides; and below, the arcs that lead down."""
        above = [self.down.above(row) + self.at["drain", node], self.up.above(row) + self.at["feed", node]]
        below = [self.down.below(row), self.up.below(row)]
        holds = [self.at["hold", node] if self.network.periods > 1 else []]
        # The lists of both sides, the room for each port, and where in its room its line is.
        middle, high = Fraction(1, 2), PORT + 2 * self.aside
        parts = [(above, high, middle), (holds, HOLD + 2 * self.aside, Fraction(2, 3)), (below, high, middle)]
        needed = [size * max(map(len, lists)) for lists, size, _ in parts]
        height = max(74, sum(needed) + 8)
        y = top + Fraction(height - sum(needed), 2)
        for (lists, size, line), room in zip(parts, needed):
            for names in lists:
                first = y + Fraction(room - size * len(names), 2) + size * line
                self.ports.update({(node, name): first + size * k for k, name in enumerate(names)})
            y += room
        return height


class Line:
    """The way of a flow in a period, or of its ray: from where it starts to where it ends, with the lane between them where it has one, and
    whether it leads to the right where it starts and where it ends. A line that is broken has the places where it leads out and comes in."""

    def __init__(self, layout, flow, period, aside):
        node = flow.tail or flow.head
        self.lane, self.broken, self.outward = None, None, 1
        start_y = end_y = layout.ports[node, flow.name] + layout.down_by(period) + aside
        self.start, self.end = (layout.right(period), start_y, 1), (layout.right(period) + STUB, end_y, 1)
        if flow.kind == "feed":
            self.start, self.end = (layout.left(period) - STUB, start_y, 1), (layout.left(period), end_y, 1)
        elif flow.kind == "hold":
            self.keep(layout, flow, period, start_y)
        elif flow.kind == "arc":
            self.lead(layout, flow, period, aside)

    def keep(self, layout, flow, period, y):
        """A hold, to the next column or the next band."""
        if not layout.is_broken(flow, period):
            self.end = (layout.left(period + 1), y, 1)
            return
        below = y + layout.band
        self.end = (layout.left(period + 1), below, 1)
        self.broken = (layout.right(period) + layout.down.room, y), (layout.left(period + 1) - layout.up.room, below)

    def lead(self, layout, flow, period, aside):
        """An arc by its lane. A ray goes round its flow, on the outer side."""
        self.outward = 1 if flow.name in layout.down.place else -1
        side = layout.right(period) if self.outward > 0 else layout.left(period)
        self.lane = layout.lane_x(flow.name, period) + self.outward * aside
        ys = [layout.ports[node, flow.name] + layout.down_by(period) for node in (flow.tail, flow.head)]
        falls = ys[0] < ys[1]
        ys = [ys[0] - aside, ys[1] + aside] if falls else [ys[0] + aside, ys[1] - aside]
        self.start, self.end = (side, ys[0], self.outward), (side, ys[1], -self.outward)

    def reversed(self):
        """The same way from its end to its start, for an amount below 0."""
        (x, y, heading), (other_x, other_y, other_heading) = self.start, self.end
        self.start, self.end = (other_x, other_y, -other_heading), (x, y, -heading)
        self.broken = self.broken and self.broken[::-1]
        return self
