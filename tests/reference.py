"""What `netplan` answers to `check` and `expand`, and the verdict and cost of `solve`, written a second time from docs/FORMATS.md in plain
Python, for tests/differential.

It knows nothing of the program: it takes records as lists of strings, which tests/texts.py reads, and computes with Python's fractions, with the
operations of tests/sums.py where one may not fit 128 bits.
"""
import csv
import io
from fractions import Fraction

from sums import Balances, Overflow, add_cost, add_gap, add_product, ends_of, in_row, reduced_cost
from texts import NEEDED, Network, Plan, network_fault, plan_fault


# ---- the expanded network


def expanded(network):
    """The records of the expanded network."""
    count = len(network.nodes)
    number = {(t, n): (t - 1) * count + i for t in range(1, network.periods + 1) for i, n in enumerate(network.nodes)}
    nodes = [["node", v, n, t, network.supply[t, n]] for (t, n), v in number.items()]
    arcs = []
    for t, flow in network.staged():
        tail = "-" if flow.tail is None else number[t, flow.tail]
        head = "-" if flow.head is None else number[t + 1 if flow.kind == "hold" else t, flow.head]
        ends = {"drain": [tail, "-", "-"], "feed": ["-", head, "-"]}.get(flow.kind, [tail, head, flow.gain])
        for k, (start, end, slope) in enumerate(flow.segments):
            lower = flow.lower if k == 0 else 0
            upper = "inf" if end is None else end if k == 0 else end - start
            arcs.append(["arc", len(arcs), flow.name, t, k] + ends + [lower, upper, slope])
    return [["netplan-net", 1], ["size", len(nodes), len(arcs)]] + nodes + arcs + [["end"]]


# ---- the walk


class Walk:
    """The clauses of a plan in their order: each yields the line that rejects it, where it fails; an operation that does not fit ends the walk."""

    def __init__(self, network, plan):
        self.network, self.plan, self.staged = network, plan, network.staged()

    def reduced(self, period, flow, slope):
        tail = None if flow.tail is None else self.plan.of("price", flow.tail, period)
        head = None if flow.head is None else self.plan.of("price", flow.head, later(flow, period))
        return in_row("C3", reduced_cost, tail, head, flow.gain, slope)

    def balances(self, word):
        """What the flows or the ray take from each node in each period, as sums that may not fit."""
        balances = Balances(self.network.supply)
        for t, flow in self.staged:
            tail, head = flow.tail and (t, flow.tail), flow.head and (later(flow, t), flow.head)
            balances.add(tail, head, flow.gain, self.plan.of(word, flow.name, t))
        return balances

    def balance(self, word, row, clause, wanted):
        balances = self.balances(word)
        for (t, node), amount in wanted.items():
            if in_row(row, balances.at, (t, node)) != amount:
                yield ["rejected", clause, node, t]

    def bound(self):
        for t, flow in self.staged:
            amount, end = self.plan.of("flow", flow.name, t), flow.last_end()
            in_row("C2", ends_of, *flow.widths())
            if amount < flow.lower or end is not None and end < amount:
                yield ["rejected", "bound", flow.name, t]

    def reduced_costs(self):
        for t, flow in self.staged:
            amount, end = self.plan.of("flow", flow.name, t), flow.last_end()
            left = [s for start, stop, s in flow.segments if start < amount and (stop is None or amount <= stop)]
            right = [s for start, stop, s in flow.segments if start <= amount and (stop is None or amount < stop)]
            if flow.lower < amount and self.reduced(t, flow, left[0]) > 0:
                yield ["rejected", "reduced", flow.name, t]
            if (end is None or amount < end) and self.reduced(t, flow, right[0]) < 0:
                yield ["rejected", "reduced", flow.name, t]

    def summed_cost(self):
        cost = Fraction(0)
        for t, flow in self.staged:
            cost = in_row("C4", add_cost, cost, flow.segments, self.plan.of("flow", flow.name, t))
        return cost

    def cost(self):
        if self.summed_cost() != Fraction(self.plan.single["cost"]):
            yield ["rejected", "cost"]

    def upper(self):
        for t, flow in self.staged:
            if self.reduced(t, flow, Fraction(0)) < 0 and flow.last_end() is None:
                yield ["rejected", "upper", flow.name, t]
        for _, flow in self.staged:
            in_row("C2", ends_of, *flow.widths())

    def summed_gap(self):
        gap = Fraction(0)
        for (t, node), amount in self.network.supply.items():
            gap = in_row("C5", add_product, gap, self.plan.of("price", node, t), amount)
        for t, flow in self.staged:
            gap = in_row("C5", add_gap, gap, self.reduced(t, flow, Fraction(0)), flow.lower, flow.last_end())
        return gap

    def gap(self):
        gap = self.summed_gap()
        if gap <= 0 or gap != Fraction(self.plan.single["gap"]):
            yield ["rejected", "gap"]

    def ray(self):
        for t, flow in self.staged:
            amount = self.plan.of("ray", flow.name, t)
            if amount < 0:
                yield ["rejected", "ray-sign", flow.name, t]
            if amount > 0 and flow.last_end() is not None:
                yield ["rejected", "ray-upper", flow.name, t]

    def ray_cost(self):
        cost = Fraction(0)
        for t, flow in self.staged:
            cost = in_row("C6", add_product, cost, flow.segments[-1][2], self.plan.of("ray", flow.name, t))
        if cost >= 0:
            yield ["rejected", "ray-cost"]

    def clauses(self):
        supply = self.network.supply
        feasible = [self.balance("flow", "C1", "balance", supply), self.bound()]
        return {
            "optimal": feasible + [self.reduced_costs(), self.cost()],
            "infeasible": [self.upper(), self.gap()],
            "unbounded": feasible + [self.ray(), self.balance("ray", "C6", "ray-balance", dict.fromkeys(supply, 0)), self.ray_cost()],
        }.get(self.plan.verdict, [iter([["rejected", "uncertified"]])])

    def line(self):
        """The line that the checker prints."""
        try:
            for clause in self.clauses():
                for rejected in clause:
                    return rejected
        except Overflow as told:
            return ["past", told.row, *told.past]
        single = self.plan.single.get(NEEDED.get(self.plan.verdict))
        return ["accepted", self.plan.verdict] + ([Fraction(single)] if single is not None else [])


def later(flow, period):
    """The period in which what a flow takes away arrives."""
    return period + 1 if flow.kind == "hold" else period


# ---- the least cost


class Tableau:
    """Equations with their right sides last, in each of which one basic unknown stands alone; all unknowns and right sides are at least 0."""

    def __init__(self, rows, basis):
        self.rows, self.basis = rows, basis

    def pivot(self, place, entering):
        """Makes an unknown the basic one of an equation, and takes it out of all others."""
        lead = self.rows[place][entering]
        leading = self.rows[place] = [x / lead for x in self.rows[place]]
        for k, row in enumerate(self.rows):
            factor = row[entering]
            if k != place and factor != 0:
                self.rows[k] = [x - factor * y if y != 0 else x for x, y in zip(row, leading)]
        self.basis[place] = entering

    def descend(self, costs):
        """The least sum of costs, or None where it falls without end. By Bland's rule the first unknown that lowers it enters, and of
        those that then reach 0 the first leaves, so no basis comes twice."""
        while True:
            priced = [(costs[basic], row) for basic, row in zip(self.basis, self.rows) if costs[basic] != 0]
            lowering = (k for k, cost in enumerate(costs) if cost < sum(c * row[k] for c, row in priced if row[k] != 0))
            entering = next(lowering, None)
            if entering is None:
                return sum(c * row[-1] for c, row in priced)
            limits = [(row[-1] / row[entering], self.basis[k], k) for k, row in enumerate(self.rows) if row[entering] > 0]
            if not limits:
                return None
            self.pivot(min(limits)[2], entering)

    def drop(self, count):
        """Takes all unknowns from so many on out of the equations, which all are 0."""
        for place, basic in enumerate(self.basis):
            others = [k for k in range(count) if self.rows[place][k] != 0]
            if basic >= count and others:
                self.pivot(place, others[0])
        kept = [k for k, basic in enumerate(self.basis) if basic < count]
        self.rows, self.basis = [self.rows[k][:count] + self.rows[k][-1:] for k in kept], [self.basis[k] for k in kept]


def equations(network):
    """The expanded network as equations of what each arc has above its lower bound, and of what it has left to a finite upper bound; and
    the costs of these unknowns, and the cost of the lower bounds. Each node has an artificial unknown behind all of these."""
    records = expanded(network)
    nodes, arcs = [r for r in records if r[0] == "node"], [r for r in records if r[0] == "arc"]
    bounded = [k for k, arc in enumerate(arcs) if arc[9] != "inf"]
    count = len(arcs) + len(bounded)
    rows, basis = [], []
    for place, node in enumerate(nodes):
        row = [Fraction(0)] * (count + len(nodes)) + [node[4]]
        for k, (tail, head, gain, lower) in enumerate(arc[5:9] for arc in arcs):
            row[k] = Fraction(tail == node[1]) - (head == node[1]) * (gain if gain != "-" else 1)
            row[-1] -= row[k] * lower
        if row[-1] < 0:
            row = [-x for x in row]
        row[count + place] = Fraction(1)
        rows.append(row)
        basis.append(count + place)
    for place, k in enumerate(bounded, len(arcs)):
        row = [Fraction(0)] * (count + len(nodes)) + [Fraction(arcs[k][9] - arcs[k][8])]
        row[k] = row[place] = Fraction(1)
        rows.append(row)
        basis.append(place)
    costs = [arc[10] for arc in arcs] + [Fraction(0)] * len(bounded)
    return Tableau(rows, basis), costs, sum(arc[8] * arc[10] for arc in arcs)


def least_cost(network):
    """The verdict of a network, and its least cost where there is one."""
    tableau, costs, base = equations(network)
    artificial = len(tableau.rows[0]) - 1 - len(costs) if tableau.rows else 0
    if tableau.descend([Fraction(0)] * len(costs) + [Fraction(1)] * artificial) > 0:
        return "infeasible", None
    tableau.drop(len(costs))
    least = tableau.descend(costs)
    return ("unbounded", None) if least is None else ("optimal", base + least)


# ---- the answers


def text_of(records, line_end="\n"):
    """The records as csv writes them."""
    text = io.StringIO()
    csv.writer(text, lineterminator=line_end).writerows(records)
    return text.getvalue()


def refused(fault):
    return 5, text_of([["netplan-refused", 1], ["fault", *fault], ["end"]])


def answer(command, records):
    """The status, and the text."""
    fault, count = network_fault(records, command == "expand")
    if fault:
        return refused(fault)
    network = Network(records[:count])
    if command == "expand":
        return 0, text_of(expanded(network))
    fault = plan_fault(network, records[count:], count)
    if fault:
        return refused(fault)
    line = Walk(network, Plan(records[count:])).line()
    return {"accepted": 0, "past": 4, "rejected": 10}[line[0]], text_of([["netplan-check", 1], line, ["end"]])
