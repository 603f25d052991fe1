"""Bases of the generalised network simplex method, in fractions of any length: what tools/finish and tools/prove-with go on with.

The arcs are those of the expanded network by number, and behind these an artificial arc for each node, as in the logs of `netplan solve`. A
basis falls into pieces: trees with one arc that has one end, or with one cycle. Not proved: what comes of it is tested by the walk of tools/walk.py.
"""
import time
from fractions import Fraction

from plans import made_plan

ZERO, ONE = Fraction(0), Fraction(1)
SHORT = 60  # bits: sums and products of two such numbers fit 128 bits, mostly
LOWER, UPPER, BASIC = "lower", "upper", "basic"


class NoBasis(Exception):
    """Marks that are those of no basis."""


class OutOfTime(Exception):
    """No second is left."""


class Arcs:
    """The expanded network as lists by the numbers of its arcs, those behind them artificial. An end that an arc does not have is -1."""

    def __init__(self, network):
        self.network = network
        place, count = {n: k for k, n in enumerate(network.nodes)}, len(network.nodes)
        self.supply = list(network.supply.values())
        self.nodes = len(self.supply)
        self.tail, self.head, self.gain, self.lower, self.upper, self.cost, self.staged = [], [], [], [], [], [], []
        for s, (t, flow) in enumerate(network.staged()):
            tail = -1 if flow.tail is None else (t - 1) * count + place[flow.tail]
            head = -1 if flow.head is None else (t if flow.kind == "hold" else t - 1) * count + place[flow.head]
            for k, (start, end, slope) in enumerate(flow.segments):
                upper = None if end is None else end if k == 0 else end - start
                self.add(tail, head, flow.gain, flow.lower if k == 0 else ZERO, upper, slope)
                self.staged.append(s)
        self.real = len(self.tail)
        residual = list(self.supply)
        for a in range(self.real):
            self.take(residual, a, self.lower[a])
        # What is too much at a node drains by its artificial arc, and what is too little comes by it.
        for v, amount in enumerate(residual):
            self.add(v if amount >= 0 else -1, -1 if amount >= 0 else v, ONE, ZERO, None, ZERO)

    def add(self, tail, head, gain, lower, upper, cost):
        for values, value in zip((self.tail, self.head, self.gain, self.lower, self.upper, self.cost), (tail, head, gain, lower, upper, cost)):
            values.append(value)

    def turn_artificial(self, v, amount):
        """Gives the artificial arc of a node the way by which such an amount drains."""
        a = self.real + v
        self.tail[a], self.head[a] = (v, -1) if amount >= 0 else (-1, v)

    def take(self, residual, a, amount):
        """Takes from the ends of an arc what flows there."""
        if amount != 0:
            if self.tail[a] >= 0:
                residual[self.tail[a]] -= amount
            if self.head[a] >= 0:
                residual[self.head[a]] += amount if self.gain[a] == 1 else self.gain[a] * amount

    def factor(self, a, v):
        """The coefficient of an arc in the balance of a node."""
        return ONE if self.tail[a] == v else -self.gain[a]


class Piece:
    """A piece of a basis: its nodes from the extra arc outwards, and its cycle, if it has one: nodes k0 to kr-1, and the arcs from each of
    them to the next one."""

    def __init__(self):
        self.order, self.cycle, self.links = [], [], []


class Basis:
    """Marks and flows of all arcs, with the pieces of the basic ones. In the first stage the artificial arcs cost 1 and have no upper bound, and
    the others cost nothing; in the second stage the artificial ones have the upper bound 0."""

    def __init__(self, arcs, marks, seconds=None):
        self.arcs, self.marks, self.stage, self.pivots, self.turned = arcs, marks, 1, [], None
        self.deadline = None if seconds is None else time.monotonic() + seconds
        # In the second stage an artificial arc may be at its upper bound, which is 0 then.
        at_rest = {LOWER: arcs.lower, UPPER: arcs.upper[: arcs.real] + [ZERO] * arcs.nodes, BASIC: [ZERO] * len(marks)}
        self.flow = [at_rest[mark][a] for a, mark in enumerate(marks)]
        if None in self.flow:
            raise NoBasis(f"arc {self.flow.index(None)} is at an upper bound and has none")
        self.at = [[] for _ in range(arcs.nodes)]
        for a, mark in enumerate(marks):
            if mark == BASIC:
                self.place(a)
        self.up, self.depth, self.piece = [-1] * arcs.nodes, [0] * arcs.nodes, [None] * arcs.nodes
        self.about = [0.0] * (arcs.nodes + 1)  # potentials in floating point; the last one is that of no node
        self.build(range(arcs.nodes))
        self.solve_flows()
        self.floats = [list(map(float, values)) for values in (arcs.cost, arcs.gain)]
        self.room = [arcs.upper[a] is None or arcs.lower[a] < arcs.upper[a] for a in range(arcs.real)]
        self.cursor, self.still, self.refused = 0, 0, set()

    def place(self, a):
        for v in (self.arcs.tail[a], self.arcs.head[a]):
            if v >= 0:
                self.at[v].append(a)

    def take_out(self, a):
        for v in (self.arcs.tail[a], self.arcs.head[a]):
            if v >= 0:
                self.at[v].remove(a)

    def other(self, a, v):
        return self.arcs.head[a] if self.arcs.tail[a] == v else self.arcs.tail[a]

    # ---- pieces

    def build(self, nodes):
        """Makes the pieces of so many nodes anew."""
        pieces = []
        for v in nodes:
            self.piece[v] = None
        for v in nodes:
            if self.piece[v] is None:
                pieces.append(self.explored(v))
        return pieces

    def explored(self, start):
        """The piece of a node: first its nodes and its extra arc, then the ways to that."""
        parent, order, ends, closing = {start: -1}, [start], [], set()
        for v in order:
            for a in self.at[v]:
                w = self.other(a, v)
                if w < 0:
                    ends.append(a)
                elif a != parent[v]:
                    if w in parent:
                        closing.add(a)
                    else:
                        parent[w] = a
                        order.append(w)
        if len(ends) + len(closing) != 1:
            raise NoBasis(f"the piece of node {start} has {len(ends)} arcs with one end and {len(closing)} cycles")
        piece = Piece()
        if ends:
            root = max(self.arcs.tail[ends[0]], self.arcs.head[ends[0]])
            self.hang(piece, [root], ends)
        else:
            self.find_cycle(piece, parent, closing.pop())
            self.hang(piece, piece.cycle, piece.links)
        return piece

    def find_cycle(self, piece, parent, closing):
        def way(v):
            nodes, links = [v], []
            while parent[v] >= 0:
                links.append(parent[v])
                v = self.other(parent[v], v)
                nodes.append(v)
            return nodes, links

        (left, left_links), (right, right_links) = way(self.arcs.tail[closing]), way(self.arcs.head[closing])
        while len(left) > 1 and len(right) > 1 and left[-2] == right[-2]:
            left.pop(), right.pop(), left_links.pop(), right_links.pop()
        # From the common node down to the tail, over the closing arc to the head, and back up.
        piece.cycle = left[::-1] + right[:-1]
        piece.links = left_links[::-1] + [closing] + right_links

    def hang(self, piece, roots, links):
        """Hangs the nodes of a piece to its extra arc: a link to each one from a node nearer to that."""
        for v, a in zip(roots, links):
            self.up[v], self.depth[v], self.piece[v] = a, 0, piece
        extra = set(links)
        piece.order = list(roots)
        for v in piece.order:
            for a in self.at[v]:
                w = self.other(a, v)
                if w >= 0 and a != self.up[v] and a not in extra:
                    self.up[w], self.depth[w], self.piece[w] = a, self.depth[v] + 1, piece
                    piece.order.append(w)

    # ---- equations

    def solve_tree(self, a, v, rest):
        """The amount on the link of a node by which nothing is left of the rest there."""
        return rest if self.arcs.tail[a] == v else -rest if self.arcs.gain[a] == 1 else -rest / self.arcs.gain[a]

    def solve_cycle(self, piece, rests):
        """The amounts on the links of a cycle that take so much from its nodes: each is a part, and another part times the first amount."""
        parts, count = [(ZERO, ONE)], len(piece.cycle)
        for k in range(1, count):
            v, before, behind = piece.cycle[k], piece.links[k - 1], piece.links[k]
            fixed, times = parts[-1]
            lead, factor = self.arcs.factor(before, v), self.arcs.factor(behind, v)
            parts.append(((rests[k] - lead * fixed) / factor, -lead * times / factor))
        v, (fixed, times) = piece.cycle[0], parts[-1]
        lead = self.arcs.factor(piece.links[-1], v)
        whole = lead * times + self.arcs.factor(piece.links[0], v)
        if whole == 0:
            raise NoBasis("the gains round a cycle multiply to 1")
        first = (rests[0] - lead * fixed) / whole
        return [fixed + times * first for fixed, times in parts]

    def pieces(self):
        seen = {}
        for piece in self.piece:
            seen[id(piece)] = piece
        return seen.values()

    def solve_flows(self):
        """The flows of the basic arcs, by the supplies and the flows of the others."""
        rest, arcs = list(self.arcs.supply), self.arcs
        for a, amount in enumerate(self.flow):
            if self.marks[a] != BASIC:
                arcs.take(rest, a, amount)
        for piece in self.pieces():
            for v in reversed(piece.order):
                if self.depth[v] > 0 or not piece.cycle:
                    a = self.up[v]
                    self.flow[a] = self.solve_tree(a, v, rest[v])
                    arcs.take(rest, a, self.flow[a])
            if piece.cycle:
                for a, amount in zip(piece.links, self.solve_cycle(piece, [rest[v] for v in piece.cycle])):
                    self.flow[a] = amount

    def direction(self, enter):
        """By how much each arc moves while the entering one moves by 1 from its bound."""
        by = ONE if self.marks[enter] == LOWER else -ONE
        moves, rest = {enter: by}, {}
        for v, amount in ((self.arcs.tail[enter], -by), (self.arcs.head[enter], self.arcs.gain[enter] * by)):
            if v >= 0:
                rest[v] = rest.get(v, ZERO) + amount
        pending, roots = set(rest), []
        while pending:
            v = max(pending, key=lambda w: self.depth[w])
            pending.remove(v)
            if rest[v] == 0:
                continue
            piece, a = self.piece[v], self.up[v]
            if self.depth[v] == 0 and piece.cycle:
                roots.append(v)
                continue
            amount = moves[a] = self.solve_tree(a, v, rest[v])
            w = self.other(a, v)
            if w >= 0:
                rest[w] = rest.get(w, ZERO) + (self.arcs.gain[a] * amount if self.arcs.tail[a] == v else -amount)
                pending.add(w)
        for piece in {id(self.piece[v]): self.piece[v] for v in roots}.values():
            amounts = self.solve_cycle(piece, [rest.get(v, ZERO) if v in roots else ZERO for v in piece.cycle])
            moves.update((a, amount) for a, amount in zip(piece.links, amounts) if amount != 0)
        return moves

    def price(self, a):
        """The cost of an arc in the stage."""
        return self.arcs.cost[a] if self.stage == 2 else ONE if a >= self.arcs.real else ZERO

    def end(self, a):
        """The upper bound of an arc in the stage."""
        return self.arcs.upper[a] if a < self.arcs.real else None if self.stage == 1 else ZERO

    def across(self, a, v, potential):
        """The potential of a node over a basic link from the one at its other end."""
        if self.arcs.tail[a] == v:
            return self.price(a) + self.arcs.gain[a] * potential
        return (potential - self.price(a)) / self.arcs.gain[a]

    def root_potentials(self, piece):
        """The potentials of the nodes of the extra arc of a piece."""
        if not piece.cycle:
            v = piece.order[0]
            return [self.price(self.up[v]) if self.arcs.tail[self.up[v]] == v else -self.price(self.up[v])]
        # The potential of a node on the cycle is a part, and another part times that of its first node.
        fixed, times = ZERO, ONE
        for v, a in zip(piece.cycle[1:] + piece.cycle[:1], piece.links):
            fixed, times = self.across(a, v, fixed), times * self.arcs.gain[a] if self.arcs.tail[a] == v else times / self.arcs.gain[a]
        if times == 1:
            raise NoBasis("the gains round a cycle multiply to 1")
        potentials = [fixed / (1 - times)]
        for v, a in zip(piece.cycle[1:], piece.links):
            potentials.append(self.across(a, v, potentials[-1]))
        return potentials

    def potentials(self):
        """The potentials of all nodes, exactly."""
        found = [ZERO] * self.arcs.nodes
        for piece in self.pieces():
            roots = self.root_potentials(piece)
            for v, potential in zip(piece.order, roots):
                found[v] = potential
            for v in piece.order[len(roots):]:
                found[v] = self.across(self.up[v], v, found[self.other(self.up[v], v)])
        return found

    # ---- pricing

    def approach(self, pieces):
        """Potentials in floating point of some pieces, which tell where it is worth to look."""
        about, (cost, gain), arcs = self.about, self.floats, self.arcs
        for piece in pieces:
            roots = self.root_potentials(piece)
            for v, potential in zip(piece.order, roots):
                about[v] = rounded(potential)
            for v in piece.order[len(roots):]:
                a = self.up[v]
                price = cost[a] if self.stage == 2 else float(a >= arcs.real)
                if arcs.tail[a] == v:
                    about[v] = price + gain[a] * about[arcs.head[a]]
                else:
                    about[v] = (about[arcs.tail[a]] - price) / gain[a]

    def likely(self):
        """An arc that very likely may enter: the best of the first block that has one, from behind the last one on; or None."""
        arcs, about, (cost, gain), marks = self.arcs, self.about, self.floats, self.marks
        tail, head, real, best, most = arcs.tail, arcs.head, arcs.real, None, 0.0
        block = max(200, real // 20)
        for k in range(real):
            a = self.cursor + k
            if a >= real:
                a -= real
            mark = marks[a]
            if mark != BASIC and self.room[a]:
                price = cost[a] if self.stage == 2 else 0.0
                worth = gain[a] * about[head[a]]
                reduced = price - about[tail[a]] + worth
                gained = -reduced if mark == LOWER else reduced
                if gained > most and gained > 1e-9 * (abs(price) + abs(about[tail[a]]) + abs(worth)) and a not in self.refused:
                    best, most = a, gained
            if best is not None and k % block == block - 1:
                break
        if best is not None:
            self.cursor = best + 1 if best + 1 < real else 0
        return best

    def first_eligible(self):
        """The first arc by number that may enter, exactly: Bland's rule. None where there is none."""
        found = self.potentials()
        found.append(ZERO)
        arcs = self.arcs
        for a in range(arcs.real):
            if self.marks[a] != BASIC and self.room[a]:
                reduced = self.price(a) - found[arcs.tail[a]] + (arcs.gain[a] * found[arcs.head[a]] if arcs.head[a] >= 0 else 0)
                if reduced < 0 if self.marks[a] == LOWER else reduced > 0:
                    return a
        return None

    # ---- pivots

    def step(self, moves, enter):
        """How far a direction leads, and the arc that ends it: the entering one, or else the first by number. None where nothing ends it."""
        least, leave = None, None
        for a, move in moves.items():
            bound = self.end(a) if move > 0 else self.arcs.lower[a]
            if bound is not None:
                limit = (bound - self.flow[a]) / move
                if least is None or limit < least or limit == least and leave != enter and (a == enter or a < leave):
                    least, leave = limit, a
        return least, leave

    def pivot(self, enter, moves, step, leave):
        if step != 0:
            for a, move in moves.items():
                self.flow[a] += step * move
        mark = UPPER if moves[leave] > 0 else LOWER
        if enter == leave:
            self.marks[enter] = mark
        self.pivots.append((enter, leave, mark))
        self.still = self.still + 1 if step == 0 else 0
        self.refused.clear()
        if enter != leave:
            self.approach(self.exchange(enter, leave, mark))

    def exchange(self, enter, leave, mark):
        """Puts an arc into the basis in place of another one, and answers the pieces that come of it."""
        self.marks[enter], self.marks[leave] = BASIC, mark
        nodes = []
        for piece in {id(self.piece[v]): self.piece[v] for v in (self.arcs.tail[enter], self.arcs.head[enter], self.arcs.tail[leave], self.arcs.head[leave]) if v >= 0}.values():
            nodes += piece.order
        self.take_out(leave)
        self.place(enter)
        return self.build(nodes)

    def descend(self):
        """Pivots until no arc may enter, where None is answered, or to a direction that nothing ends. Mostly the arcs are chosen by prices in
        floating point, and each is tested exactly by its direction. Where flows have long stood still, Bland's rule chooses, so that this ends: at each
        cost at most so many pivots are made by prices, and no basis comes twice by the rule."""
        self.approach(self.pieces())
        self.refused.clear()
        self.still = 0
        while True:
            if self.deadline is not None and time.monotonic() > self.deadline:
                raise OutOfTime
            enter = self.likely() if self.still <= self.arcs.nodes + 50 else None
            is_sure = enter is None
            if is_sure:
                enter = self.first_eligible()
                if enter is None:
                    return None
            moves = self.direction(enter)
            if not is_sure and sum(self.price(a) * move for a, move in moves.items()) >= 0:
                self.refused.add(enter)
                continue
            least, leave = self.step(moves, enter)
            if leave is None:
                return moves
            self.pivot(enter, moves, least, leave)

    # ---- short prices

    def beyond(self, v):
        """The nodes that hang from a node, and by how much the price of each moves with that of the node."""
        moves, order = {v: ONE}, [v]
        for w in order:
            for a in self.at[w]:
                x = self.other(a, w)
                if x >= 0 and a != self.up[w] and x not in moves:
                    moves[x] = moves[w] * self.arcs.gain[a] if self.arcs.tail[a] == x else moves[w] / self.arcs.gain[a]
                    order.append(x)
        return moves

    def tightest(self, moves, way, potentials, touching):
        """How far prices may move in a way, up or down, and the arc that then costs nothing: the first that would become wrong."""
        arcs, least, enter = self.arcs, None, None
        for a in {a for w in moves for a in touching[w]}:
            if self.marks[a] == BASIC or not self.room[a]:
                continue
            tail, head = arcs.tail[a], arcs.head[a]
            by = way * (arcs.gain[a] * moves.get(head, ZERO) - moves.get(tail, ZERO))
            if by < 0 if self.marks[a] == LOWER else by > 0:
                reduced = self.price(a) - (potentials[tail] if tail >= 0 else 0) + (arcs.gain[a] * potentials[head] if head >= 0 else 0)
                if least is None or -reduced / by < least:
                    least, enter = -reduced / by, a
        return least, enter

    def shorten(self):
        """Exchanges arcs at their bounds for others, so that the flows stay and long prices become shorter. Each node is tried once, those
        farthest from the extra arcs first."""
        arcs, potentials = self.arcs, self.potentials()
        touching = [[] for _ in range(arcs.nodes)]
        for a in range(arcs.real):
            for v in (arcs.tail[a], arcs.head[a]):
                if v >= 0:
                    touching[v].append(a)
        for v in sorted(range(arcs.nodes), key=lambda w: -self.depth[w]):
            a = self.up[v]
            at_lower = a < arcs.real and self.flow[a] == arcs.lower[a]
            is_held = a < arcs.real and (at_lower or self.flow[a] == arcs.upper[a]) and not (self.piece[v].cycle and self.depth[v] == 0)
            if not is_held or bits(potentials[v]) <= SHORT or self.deadline is not None and time.monotonic() > self.deadline:
                continue
            moves = self.beyond(v)
            way = (-1 if arcs.tail[a] == v else 1) * (1 if at_lower else -1)
            step, enter = self.tightest(moves, way, potentials, touching)
            if enter is None or bits(potentials[v] + way * step) >= bits(potentials[v]):
                continue
            for w, move in moves.items():
                potentials[w] += way * step * move
            self.exchange(enter, a, LOWER if at_lower else UPPER)

    # ---- runs

    def is_within(self, a):
        end = self.end(a)
        return self.arcs.lower[a] <= self.flow[a] and (end is None or self.flow[a] <= end)

    def carried(self):
        """What the artificial arcs carry."""
        return sum(self.flow[self.arcs.real:], ZERO)

    def ends(self):
        """Goes on to the end of the run, and answers the plan that shows its verdict. The flows are to be within their bounds."""
        if self.carried() != 0:
            self.stage = 1
            self.descend()
            if self.carried() != 0:
                return self.shown("infeasible")
        self.stage, self.turned = 2, len(self.pivots)
        ray = self.descend()
        return self.shown("unbounded", ray) if ray else self.shown("optimal")

    def cost(self):
        return sum((self.arcs.cost[a] * self.flow[a] for a in range(self.arcs.real) if self.flow[a] != 0), ZERO)

    def amounts(self, word, amounts):
        """Amounts of arcs by flow and period: a flow has those of its segments together."""
        network, found = self.arcs.network, {}
        places = [(word, f.name, t) for t, f in network.staged()]
        for a, amount in amounts:
            if amount != 0 and a < self.arcs.real:
                place = places[self.arcs.staged[a]]
                found[place] = found.get(place, ZERO) + amount
        return found

    def shown(self, verdict, ray=None):
        """The plan that this basis shows."""
        network, single, amounts = self.arcs.network, {}, {}
        if verdict == "infeasible":
            single["gap"] = self.carried()
        else:
            amounts.update(self.amounts("flow", enumerate(self.flow)))
        if verdict == "optimal":
            single["cost"] = self.cost()
        if verdict == "unbounded":
            amounts.update(self.amounts("ray", ray.items()))
        else:
            amounts.update((("price", n, t), potential) for (t, n), potential in zip(network.supply, self.potentials()))
        return made_plan(verdict, single, amounts)


def bits(value):
    """How long the longer part of a fraction is."""
    return max(value.numerator.bit_length(), value.denominator.bit_length())


def rounded(value):
    """A fraction in floating point, where it has such a size."""
    try:
        return float(value)
    except OverflowError:
        return 1e300 if value > 0 else -1e300


def artificial_basis(arcs):
    """The basis that `netplan solve` begins with."""
    return [LOWER] * arcs.real + [BASIC] * arcs.nodes


def repaired(arcs, marks, seconds):
    """A basis whose flows are within their bounds, from marks whose flows need not be: where a basic flow is outside of its bounds, it is put to the
    bound, and the artificial arc of the node that it held takes its place. Answers how many arcs were exchanged so, too."""
    marks, exchanged = list(marks), 0
    while True:
        basis = Basis(arcs, marks, seconds)
        turned = [v for v in range(arcs.nodes) if basis.flow[arcs.real + v] < 0]
        for v in turned:
            arcs.turn_artificial(v, ONE if arcs.tail[arcs.real + v] < 0 else -ONE)
        if turned:
            continue
        outside = 0
        for v in range(arcs.nodes):
            a = basis.up[v]
            if not basis.is_within(a):
                marks[a] = LOWER if basis.flow[a] < arcs.lower[a] else UPPER
                marks[arcs.real + v] = BASIC
                outside += 1
        if outside == 0:
            basis.stage = 1 if basis.carried() != 0 else 2
            return basis, exchanged
        exchanged += outside
