"""The solver's rows of arithmetic A1 to A7, written a second time from docs/FORMATS.md and docs/DEFINITIONS.md in plain Python: which of their
operations do not fit 128 bits at a state of tests/pivots.py.

In rows A1, A2, A5 and A6 the first such operation counts. In A3, A4 and A7 the orders of nodes and pieces are open, so there each operation counts
whose operands are found by operations that fit.
"""
from fractions import Fraction

from sums import Overflow, minus, over, plus, reduced_cost, times

ZERO, ONE = Fraction(0), Fraction(1)


class Tries:
    """The operations that do not fit among those that are tried, each with its row."""

    def __init__(self):
        self.found = set()

    def of(self, row, call, *operands):
        """What the call finds, or None where an operation of it does not fit."""
        try:
            return call(*operands)
        except Overflow as told:
            self.found.add((row, *told.past))
            return None


def first_of(row, call, *operands):
    """The operation that does not fit in a call, with its row, as a set."""
    tries = Tries()
    tries.of(row, call, *operands)
    return tries.found


# ---- A1 and A2


def residual(state, v):
    """What is too much at a node where all arcs are at their lower bounds."""
    running = state.supply[v]
    for (tail, head, gain), lower in zip(state.ends[: state.real], state.lower):
        if head is None and tail == v or head is not None and tail == v:
            running = minus(running, lower)
        elif head == v:
            running = plus(running, lower if tail is None else times(gain, lower))
    return running


def price(state, potentials, a):
    """The reduced cost of an arc in the stage."""
    tail, head, gain = state.ends[a]
    at = lambda v: None if v is None else potentials[v]
    return reduced_cost(at(tail), at(head), gain, state.price(a))


# ---- the order within a piece


class Piece:
    """The nodes and basic arcs of a piece; its extra arc with its node, or the cycle from its least node along the lower of its two arcs there, as
    pairs of an arc and the node that it leads to; and the links that hang off it, each with its near and its far end."""

    def __init__(self, state, nodes, arcs):
        self.ends, self.nodes, self.arcs = state.ends, sorted(nodes), sorted(arcs)
        one = [a for a in self.arcs if None in self.ends[a][:2]]
        self.single = one[0] if one else None
        self.root, self.way = (self.only_end(one[0]), []) if one else self.cycle()
        self.hanging = self.hung()

    def only_end(self, a):
        tail, head, _ = self.ends[a]
        return head if tail is None else tail

    def other_end(self, a, v):
        tail, head, _ = self.ends[a]
        return head if v == tail else tail

    def cycle(self):
        """Nodes with one arc left are taken away until there is none."""
        left = list(self.arcs)
        while True:
            count = {v: sum(v in self.ends[a][:2] for a in left) for v in self.nodes}
            kept = [a for a in left if all(count[v] > 1 for v in self.ends[a][:2])]
            if kept == left:
                break
            left = kept
        root = node = min(v for a in left for v in self.ends[a][:2])
        way = []
        while left:
            a = next(a for a in left if node in self.ends[a][:2])
            left.remove(a)
            node = self.other_end(a, node)
            way.append((a, node))
        return root, way

    def hung(self):
        reached, hanging = [self.root] + [v for _, v in self.way[:-1]], []
        off = [a for a in self.arcs if a != self.single and a not in [b for b, _ in self.way]]
        for u in reached:
            for a in [a for a in off if u in self.ends[a][:2]]:
                off.remove(a)
                hanging.append((a, u, self.other_end(a, u)))
                reached.append(self.other_end(a, u))
        return hanging

    def steps(self):
        """All steps outwards: those of the cycle but its last, and the links off it."""
        starts = [self.root] + [v for _, v in self.way]
        return [(a, u, v) for u, (a, v) in zip(starts, self.way[:-1])] + self.hanging


def pieces_of(state):
    """The pieces by their least nodes."""
    homes = state.homes()
    basic = state.basic()
    for least in sorted(set(homes)):
        nodes = [v for v in range(state.nodes) if homes[v] == least]
        yield Piece(state, nodes, [a for a in basic if any(v in nodes for v in state.ends[a][:2] if v is not None)])


# ---- A3 and A7: potentials


def across(ends, cost, u, potential):
    """The potential at the other end of a link."""
    tail, _, gain = ends
    return over(minus(potential, cost), gain) if u == tail else plus(cost, times(gain, potential))


class Potentials:
    """The potentials of a piece, and the operations for them that do not fit."""

    def __init__(self, state, piece, potentials):
        self.state, self.piece, self.potentials, self.tries = state, piece, potentials, Tries()

    def product_round(self):
        product, u = ONE, self.piece.root
        for a, v in self.piece.way:
            tail, _, gain = self.state.ends[a]
            product = over(product, gain) if u == tail else times(gain, product)
            u = v
        return minus(ONE, product)

    def sum_round(self):
        potential, u = ZERO, self.piece.root
        for a, v in self.piece.way:
            potential = across(self.state.ends[a], self.state.price(a), u, potential)
            u = v
        return potential

    def is_root_reached(self):
        if self.piece.single is not None:
            return True
        last, total = self.tries.of("A3", self.product_round), self.tries.of("A7", self.sum_round)
        return last is not None and total is not None and self.tries.of("A7", over, total, last) is not None

    def overflows(self):
        reached = {self.piece.root} if self.is_root_reached() else set()
        for a, u, v in self.piece.steps():
            if u in reached and self.tries.of("A7", across, self.state.ends[a], self.state.price(a), u, self.potentials[u]) is not None:
                reached.add(v)
        return self.tries.found


def potential_overflows(state, nodes):
    """Of the pieces of these nodes."""
    potentials, found = state.potentials(), set()
    for piece in pieces_of(state):
        if any(v in nodes for v in piece.nodes):
            found |= Potentials(state, piece, potentials).overflows()
    return found


# ---- A3 and A4: directions


def term(ends, v, amount):
    """What an amount on an arc takes from its end v."""
    tail, head, gain = ends
    if tail == v:
        return amount
    return -amount if tail is None else -times(gain, amount)


def turned(ends, v, total):
    """The amount on an arc that takes the opposite of this from its end v."""
    tail, head, gain = ends
    if tail == v:
        return -total
    return total if tail is None else over(total, gain)


class Direction:
    """The direction of an entering arc on a piece, and the operations for it that do not fit."""

    def __init__(self, state, piece, enter, moves):
        self.ends, self.piece, self.enter, self.tries = state.ends, piece, enter, Tries()
        self.amount = lambda a: moves.get(a, ZERO)
        self.far = {a: v for a, _, v in piece.hanging}
        self.settled = {enter: True}

    def added(self, v):
        """The arcs whose terms are added at a node."""
        hanging = [a for a, u, _ in self.piece.hanging if u == v]
        return sorted(hanging + ([self.enter] if v in self.ends[self.enter][:2] else []))

    def sum_at(self, v, arcs):
        running = ZERO
        for a in arcs:
            running = plus(running, term(self.ends[a], v, self.amount(a)))
        return running

    def total(self, v):
        """The sum at a node where all of its terms are reached, or None."""
        arcs = self.added(v)
        if not all(self.is_settled(a) for a in arcs):
            return None
        return Tries().of("A4", self.sum_at, v, arcs)

    def is_settled(self, a):
        if a not in self.settled:
            v = self.far[a]
            total = self.total(v)
            self.settled[a] = total is not None and Tries().of("A4", turned, self.ends[a], v, total) is not None
        return self.settled[a]

    def try_nodes(self):
        for v in self.piece.nodes:
            arcs = self.added(v)
            for a in arcs:
                if self.is_settled(a):
                    self.tries.of("A4", term, self.ends[a], v, self.amount(a))
            unsettled = [k for k, a in enumerate(arcs) if not self.is_settled(a)]
            self.tries.of("A4", self.sum_at, v, arcs[: unsettled[0]] if unsettled else arcs)
        for a, _, v in self.piece.hanging:
            total = self.total(v)
            if total is not None:
                self.tries.of("A4", turned, self.ends[a], v, total)

    def along(self, steps, amount, sums):
        """The amount on the last of these arcs of the cycle, from that on the first, with these sums at the nodes between."""
        (a, v), *rest = steps
        for b, w in rest:
            amount = turned(self.ends[b], v, plus(term(self.ends[a], v, amount), sums[v]))
            a, v = b, w
        return amount

    def share(self, steps):
        """The same of 1, with nothing at the nodes."""
        (a, v), *rest = steps
        amount = ONE
        for b, w in rest:
            amount = turned(self.ends[b], v, term(self.ends[a], v, amount))
            a, v = b, w
        return amount

    def divisor(self):
        way, root = self.piece.way, self.piece.root
        total = term(self.ends[way[-1][0]], root, self.share(way))
        tail, _, gain = self.ends[way[0][0]]
        return plus(total, ONE) if tail == root else minus(total, gain)

    def closing(self, sums):
        way, root = self.piece.way, self.piece.root
        return plus(term(self.ends[way[-1][0]], root, self.along(way, ZERO, sums)), sums[root])

    def mixed(self, steps, sums, first):
        return plus(self.along(steps, ZERO, sums), times(self.share(steps), first))

    def try_cycle(self):
        sums = {v: self.total(v) for _, v in self.piece.way}
        if None in sums.values() or not any(sums.values()):
            return
        last, whole = self.tries.of("A3", self.divisor), self.tries.of("A4", self.closing, sums)
        if last is None or whole is None:
            return
        first = self.tries.of("A4", over, -whole, last)
        if first is not None:
            for count in range(1, len(self.piece.way) + 1):
                self.tries.of("A4", self.mixed, self.piece.way[:count], sums, first)

    def overflows(self):
        self.try_nodes()
        self.try_cycle()
        return self.tries.found


def direction_overflows(state, enter, moves):
    """Of the one piece or the two pieces that have the ends of the arc."""
    found = set()
    for piece in pieces_of(state):
        if any(v in piece.nodes for v in state.ends[enter][:2] if v is not None):
            found |= Direction(state, piece, enter, moves).overflows()
    return found


# ---- A5 and A6


def limits(state, moves):
    """How far the flow of each arc that moves can go, in order, where there is a bound."""
    found = []
    for a, move in sorted(moves.items()):
        if move > 0 and state.end(a) is not None:
            found.append(over(minus(state.end(a), state.flows[a]), move))
        elif move < 0:
            found.append(over(minus(state.flows[a], state.lower[a]), -move))
    return found


def flows_after(state, moves, step):
    return [plus(state.flows[a], times(step, move)) for a, move in sorted(moves.items())]
