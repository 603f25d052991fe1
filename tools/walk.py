"""The walk of `netplan check` over a plan, in fractions of any length: what it answers, with both sides of the clause that fails, and the
first operation whose result does not fit 128 bits.

It is written from docs/FORMATS.md, "The walk", and not proved.
"""
from fractions import Fraction
from functools import cached_property

from plans import fits
from texts import NEEDED, lesser

ZERO = Fraction(0)
OPERATIONS = {"plus": lambda x, y: x + y, "minus": lambda x, y: x - y, "times": lambda x, y: x * y}


class Walk:
    """`line` is what the walk comes to where any number fits. Behind it `sides` has what is compared where it fails, and `past` the first
    operation that does not fit 128 bits, by its row."""

    def __init__(self, network, plan):
        self.network, self.plan, self.staged = network, plan, network.staged()
        self.past, self.sides = None, {}
        self.touching = {place: [] for place in network.supply}
        for t, flow in self.staged:
            if flow.tail is not None:
                self.touching[t, flow.tail].append((t, flow, True))
            if flow.head is not None:
                self.touching[t + 1 if flow.kind == "hold" else t, flow.head].append((t, flow, False))

    def operation(self, row, word, left, right):
        value = OPERATIONS[word](left, right)
        if self.past is None and not fits(value):
            self.past = [row, word, left, right]
        return value

    # ---- rows

    def ends(self, flow):
        """C2."""
        for start, end, _ in flow.segments[1:]:
            if end is not None:
                self.operation("C2", "plus", start, end - start)

    def reduced(self, period, flow, slope):
        """C3."""
        if flow.kind == "drain":
            return self.operation("C3", "minus", slope, self.plan.of("price", flow.tail, period))
        price = self.plan.of("price", flow.head, period + 1 if flow.kind == "hold" else period)
        if flow.kind == "feed":
            return self.operation("C3", "plus", slope, price)
        worth = self.operation("C3", "times", flow.gain, price)
        return self.operation("C3", "plus", self.operation("C3", "minus", slope, self.plan.of("price", flow.tail, period)), worth)

    def leaving(self, place, word, row):
        """C1: what leaves a node, less what comes to it."""
        running = ZERO
        for t, flow, leaves in self.touching[place]:
            amount = self.plan.of(word, flow.name, t)
            if leaves:
                running = self.operation(row, "plus", running, amount)
            else:
                arriving = amount if flow.kind == "feed" else self.operation(row, "times", flow.gain, amount)
                running = self.operation(row, "minus", running, arriving)
        return running

    def cost_of(self, flow, amount, running):
        """C4, of one flow."""
        start, end, slope = flow.segments[0]
        running = self.operation("C4", "plus", running, self.operation("C4", "times", slope, lesser(amount, end)))
        for start, end, slope in flow.segments[1:]:
            if start < amount:
                used = self.operation("C4", "minus", lesser(amount, end), start)
                running = self.operation("C4", "plus", running, self.operation("C4", "times", slope, used))
        return running

    # ---- clauses: each gives what is rejected

    def balance(self, word, clause, row, wanted):
        for (t, node), amount in wanted.items():
            found = self.leaving((t, node), word, row)
            if found != amount:
                self.sides = {"found": found, "wanted": amount}
                yield [clause, node, t]

    def bound(self):
        for t, flow in self.staged:
            self.ends(flow)
            amount, end = self.plan.of("flow", flow.name, t), flow.last_end()
            if amount < flow.lower or end is not None and end < amount:
                self.sides = {"found": amount, "lower": flow.lower, "upper": end}
                yield ["bound", flow.name, t]

    def reduced_costs(self):
        for t, flow in self.staged:
            amount, end = self.plan.of("flow", flow.name, t), flow.last_end()
            for side, applies in (("left", flow.lower < amount), ("right", end is None or amount < end)):
                if not applies:
                    continue
                slope = slope_at(flow, amount, side)
                found = self.reduced(t, flow, slope)
                if found > 0 if side == "left" else found < 0:
                    self.sides = {"found": found, "side": side, "slope": slope, "amount": amount}
                    yield ["reduced", flow.name, t]

    def cost(self):
        running = ZERO
        for t, flow in self.staged:
            running = self.cost_of(flow, self.plan.of("flow", flow.name, t), running)
        if running != Fraction(self.plan.single["cost"]):
            self.sides = {"found": running, "wanted": Fraction(self.plan.single["cost"])}
            yield ["cost"]

    def upper(self):
        for t, flow in self.staged:
            found = self.reduced(t, flow, ZERO)
            if found < 0 and flow.last_end() is None:
                self.sides = {"found": found}
                yield ["upper", flow.name, t]

    def gap(self):
        for _, flow in self.staged:
            self.ends(flow)
        running = ZERO
        for (t, node), supply in self.network.supply.items():
            running = self.operation("C5", "plus", running, self.operation("C5", "times", self.plan.of("price", node, t), supply))
        for t, flow in self.staged:
            reduced = self.reduced(t, flow, ZERO)
            if reduced != 0:
                limit = flow.lower if reduced > 0 else flow.last_end()
                running = self.operation("C5", "plus", running, self.operation("C5", "times", reduced, limit))
        if running <= 0 or running != Fraction(self.plan.single["gap"]):
            self.sides = {"found": running, "wanted": Fraction(self.plan.single["gap"])}
            yield ["gap"]

    def ray(self):
        for t, flow in self.staged:
            amount = self.plan.of("ray", flow.name, t)
            self.sides = {"found": amount, "upper": flow.last_end()}
            if amount < 0:
                yield ["ray-sign", flow.name, t]
            if amount > 0 and flow.last_end() is not None:
                yield ["ray-upper", flow.name, t]

    def ray_cost(self):
        running = ZERO
        for t, flow in self.staged:
            earned = self.operation("C6", "times", flow.segments[-1][2], self.plan.of("ray", flow.name, t))
            running = self.operation("C6", "plus", running, earned)
        if running >= 0:
            self.sides = {"found": running}
            yield ["ray-cost"]

    def clauses(self):
        supply = self.network.supply
        feasible = [self.balance("flow", "balance", "C1", supply), self.bound()]
        return {
            "optimal": feasible + [self.reduced_costs(), self.cost()],
            "infeasible": [self.upper(), self.gap()],
            "unbounded": feasible + [self.ray(), self.balance("ray", "ray-balance", "C6", dict.fromkeys(supply, ZERO)), self.ray_cost()],
        }.get(self.plan.verdict, [iter([["uncertified"]])])

    @cached_property
    def line(self):
        for clause in self.clauses():
            for rejected in clause:
                return ["rejected"] + rejected
        self.sides = {}
        single = self.plan.single.get(NEEDED.get(self.plan.verdict))
        return ["accepted", self.plan.verdict] + ([] if single is None else [str(Fraction(single))])

    def answer(self):
        """The line that the program prints."""
        line = self.line
        return ["past"] + self.past if self.past else line


def slope_at(flow, amount, side):
    """The slope of the segment that ends at an amount or above it, or that begins at it or below."""
    for start, end, slope in flow.segments:
        if side == "left" and start < amount and (end is None or amount <= end):
            return slope
        if side == "right" and start <= amount and (end is None or amount < end):
            return slope
    raise ValueError("no segment has such an amount")
