"""Networks and plans drawn from a seed, right and damaged, as lists of records; for tests/differential and tests/hostile.

Prices are drawn first, then flows that the signs of the reduced costs ask for, so many plans are right; then numbers are changed here and there.
"""
import random
from fractions import Fraction

from reference import Walk
from texts import Network, Plan

AMOUNTS = [Fraction(x) for x in ("0", "1", "2", "3", "1/2", "-1", "-2", "5", "-3/2")]
WIDTHS = [Fraction(x) for x in ("1", "2", "3", "1/2")]
FIELDS = [
    "", "a,b", 'a"b', "ä", "x" * 64, "x" * 65, "20000", "20001", "0", "1", "2", "3", "-1", "1/2", "-4/6", "007", "1.5", "1/0", "inf", "x", "*", "n0", "f0", "turn", "C0", "C7", "A1", "A3", "A8", "plus",
    "lower", "basic", "end", "flow", "pivot", "past", "000000001", "0000000001", "1000000000", str(2**127), "optimal", "budget",
]
# The places of the numbers of a record, from its end: a gain comes first of all.
NUMBERS = {"supply": [-1], "arc": [-4, -3, -2, -1], "hold": [-4, -3, -2, -1], "drain": [-3, -2, -1], "feed": [-3, -2, -1], "piece": [-2, -1], "flow": [-1], "price": [-1], "ray": [-1]}


class Draw(random.Random):
    def often(self, share):
        return self.random() < share

    def links(self, nodes):
        """Flows: the records that define them."""
        records = []
        for k in range(self.randint(1, 4)):
            kind = self.choice(["arc", "hold", "drain", "feed"] if len(nodes) > 1 else ["hold", "drain", "feed"])
            ends = self.sample(nodes, 2) if kind == "arc" else [self.choice(nodes)]
            gain = [self.choice(["1", "2", "1/2", "9/10"])] if kind in ("arc", "hold") else []
            lower = self.choice([Fraction(x) for x in (0, 0, 0, 1, -1)])
            end, slope = self.choice([None, lower, lower + 1, lower + self.choice(WIDTHS)]), self.choice(AMOUNTS)
            records.append([kind, f"f{k}"] + ends + gain + [str(lower), "inf" if end is None else str(end), str(slope)])
            while end is not None and self.often(0.4):
                width, slope = self.choice(WIDTHS + [None]), slope + self.choice([0, 1, 2])
                end = None if width is None else end + width
                records.append(["piece", f"f{k}", "inf" if width is None else str(width), str(slope)])
        if self.often(0.1):
            records += [["drain", "sale", "n0", "0", "inf", "-2"], ["feed", "buy", "n0", "0", "inf", "1"]]
        return records

    def flow(self, flow, reduced):
        """An amount that the reduced cost by slope allows."""
        amount = flow.lower
        for start, end, slope in flow.segments:
            if reduced(slope) > 0:
                return amount
            if reduced(slope) == 0:
                return start + self.choice([0, Fraction(1, 2), 1]) * (3 if end is None else end - start)
            if end is None:
                return start + 1
            amount = end
        return amount

    def ray(self, network):
        """Amounts along a drain and a feed of one node, if there are such."""
        amounts = {}
        pairs = [(d, f) for d in network.flows if d.kind == "drain" for f in network.flows if f.kind == "feed" and d.tail == f.head]
        for pair in pairs[-1:]:
            amount = self.choice([1, 2, Fraction(1, 2), -1])
            for flow in pair:
                amounts["ray", flow.name, 1] = amount + (1 if self.often(0.1) else 0)
        return amounts

    def case(self):
        """The records of a network text and of a plan text."""
        periods, nodes = self.choice([1, 1, 2, 3]), [f"n{k}" for k in range(self.choice([1, 2, 3]))]
        head = [["netplan", "1"], ["periods", str(periods)]] + [["node", n] for n in nodes]
        links = self.links(nodes)
        network = Network(head + links + [["end"]])
        plan = Plan([["netplan-plan", "1"], ["verdict", self.choice(["optimal"] * 5 + ["infeasible", "unbounded", "unbounded", "budget", "overflow"])]])
        plan.amounts = {("price", n, t): self.choice(AMOUNTS) for t, n in network.supply}
        walk = Walk(network, plan)
        for t, flow in network.staged():
            plan.amounts["flow", flow.name, t] = self.flow(flow, lambda slope: walk.reduced(t, flow, slope))
        for place in list(plan.amounts):
            if self.often(0.03):
                plan.amounts[place] += self.choice([1, -1, Fraction(1, 2)])
        supply = walk.balances("flow").sums if self.often(0.85) else {place: self.choice(AMOUNTS) for place in network.supply}
        gifts = [["supply", n, str(t), str(amount)] for (t, n), amount in supply.items()]
        plan.amounts.update(self.ray(network))
        return head + gifts + links + [["end"]], self.plan_records(Network(head + gifts + links), plan)

    def plan_records(self, network, plan):
        walk = Walk(network, plan)
        cost = sum(f.cost_of(plan.of("flow", f.name, t)) for t, f in network.staged()) + (1 if self.often(0.1) else 0)
        gap = sum(plan.of("price", n, t) * amount for (t, n), amount in network.supply.items())
        for t, flow in network.staged():
            reduced = walk.reduced(t, flow, 0)
            end = flow.last_end() if flow.last_end() is not None else 0
            gap += reduced * (flow.lower if reduced > 0 else end)
        records = [["cost", str(cost)], ["gap", str(gap)], ["arc", "3"], ["past", "A8", "C4", "times", "1/2", "2/4"], ["turned", "0"]]
        records += [[word, name, str(t), str(amount)] for (word, name, t), amount in plan.amounts.items() if amount != 0 or self.often(0.5)]
        self.shuffle(records)
        pivots = [["pivot", str(k + 1), str(self.randint(0, 9)), "7", self.choice(["lower", "upper"])] for k in range(self.randint(0, 3))]
        return [["netplan-plan", "1"], ["verdict", plan.verdict]] + records + pivots + [["end"]]

    def wide(self, is_amount):
        """A number with many digits, above 0: as an amount has them, or as a fraction may."""
        ten = 10 ** self.choice([15, 16, 17] if is_amount else [17, 30, 37])
        number = str(self.choice([1, 1, 2, 9 * ten + self.randint(0, 9), ten * 10 - self.randint(1, 9)]))
        return number + (f"/{self.choice([ten, ten * 10 - self.randint(1, 9), ten + self.randint(0, 9)])}" if self.often(0.7) else "")

    def widened(self, records, is_amount, share):
        """Some numbers of the records become long ones of the same sign, where they are not 0."""
        records = [list(r) for r in records]
        for record in records:
            for place in NUMBERS.get(record[0], []):
                # An arc's record of a plan text has one number, and no name.
                if len(record) > 2 and record[place] not in ("0", "inf") and self.often(share):
                    record[place] = "-" * record[place].startswith("-") + self.wide(is_amount)
        return records

    def steep(self):
        """The records of a network of one period whose gains and costs have many digits, with cycles: potentials and directions grow long."""
        nodes = [f"n{k}" for k in range(self.choice([2, 2, 3, 4]))]
        gains = ["1", "2", "1/2"] + [f"{sign}1{'0' * zeros}" for sign in ("", "1/") for zeros in (9, 13, 17)] + ["1/999999999999999999", "999999999999999998"]
        cost = lambda: self.choice(["0", "0", "1", "-1", "1/999999999999999997", "-1/1000000000000000000", "-999999999999999999"])
        records = [["netplan", "1"], ["periods", "1"]] + [["node", n] for n in nodes]
        records += [["supply", n, "1", self.choice(["1", "-1", "1/999999999999999998", "-1/3"])] for n in nodes if self.often(0.4)]
        for k in range(self.randint(2, 5)):
            ends = self.sample(nodes, 2) + [self.choice(gains)] if self.often(0.75) else [self.choice(nodes)]
            kind = "arc" if len(ends) == 3 else self.choice(["drain", "feed"])
            upper = self.choice(["inf", "inf", "1", "1/999999999999999997"])
            records.append([kind, f"f{k}", *ends, "0", upper, cost()])
        return records + [["end"]]

    def damaged(self, records):
        """A record or a field dropped, doubled or replaced, the last by one of the text or by one that is rarely right."""
        records = [list(r) for r in records]
        for _ in range(self.choice([1, 1, 2])):
            place = self.randrange(len(records))
            what = self.choice(["drop", "double", "field", "field", "field", "field", "longer", "shorter", "behind"])
            if what == "drop":
                del records[place]
            elif what == "double":
                records.insert(place, list(records[place]))
            elif what == "field":
                other = FIELDS if self.often(0.6) else self.choice(records)
                records[place][self.randrange(len(records[place]))] = self.choice(other)
            elif what == "longer":
                records[place].append(self.choice(FIELDS))
            elif what == "shorter" and len(records[place]) > 1:
                records[place].pop()
            elif what == "behind":
                records.append(self.choice([["end"], ["flow", "f0", "1", "1"], ["x"]]))
            if not records:
                break
        return records
