"""The pivots of `solve`, written a second time from docs/FORMATS.md in plain Python, for tests/differential and timings: potentials and
directions are solved for as whole systems of equations, and nothing is kept from one pivot to the next but marks, flows and the stage. Which
operations of the solver do not fit 128 bits is told by tests/rows.py.

`replayed` follows a printed log, pivot by pivot; `run_alone` makes the run of one worker, whose log is always the same.
"""
from fractions import Fraction

from reference import Walk, expanded
from rows import direction_overflows, first_of, flows_after, limits, potential_overflows, price, residual
from sums import Overflow, gathered, in_row
from texts import Plan


class NoPivot(Exception):
    """What a log says is no pivot, no turn or no end of a run."""


class Overtaken(Exception):
    """A run would end here: nothing stops the flows along a direction."""

    def __init__(self, moves):
        super().__init__()
        self.moves = moves


class Overflows(Exception):
    """An attempt overflows: each operation that may be told, with its row."""

    def __init__(self, pasts):
        super().__init__(pasts)
        self.pasts = pasts


def solve_equations(rows):
    """The one solution of square equations, each with its right side last."""
    rows, count = [list(row) for row in rows], len(rows)
    for k in range(count):
        place = next(i for i in range(k, count) if rows[i][k] != 0)
        rows[k], rows[place] = rows[place], rows[k]
        lead = rows[k][k]
        rows[k] = [x / lead for x in rows[k]]
        for i in range(count):
            factor = rows[i][k]
            if i != k and factor != 0:
                rows[i] = [x - factor * y for x, y in zip(rows[i], rows[k])]
    return [row[-1] for row in rows]


class State:
    """The state of a run over the expanded network of a scheme: marks and flows of its arcs, and behind these of an artificial arc for
    each node."""

    def __init__(self, network):
        records = expanded(network)
        self.nodes = sum(r[0] == "node" for r in records)
        arcs = [r for r in records if r[0] == "arc"]
        self.real = len(arcs)
        place = lambda end: None if end == "-" else end
        self.ends = [(place(arc[5]), place(arc[6]), Fraction(1) if arc[7] == "-" else arc[7]) for arc in arcs]
        self.lower = [Fraction(arc[8]) for arc in arcs]
        self.upper = [None if arc[9] == "inf" else Fraction(arc[9]) for arc in arcs]
        self.cost = [Fraction(arc[10]) for arc in arcs]
        self.flows = list(self.lower)
        self.supply = [Fraction(r[4]) for r in records if r[0] == "node"]
        lacks = list(self.supply)
        for a in range(self.real):
            for v in range(self.nodes):
                lacks[v] -= self.coefficient(a, v) * self.flows[a]
        # what is too much at a node drains by its artificial arc, and what is too little comes by it
        self.ends += [(v, None, Fraction(1)) if lack >= 0 else (None, v, Fraction(1)) for v, lack in enumerate(lacks)]
        self.flows += [abs(lack) for lack in lacks]
        self.lower += [Fraction(0)] * self.nodes
        self.marks = ["lower"] * self.real + ["basic"] * self.nodes
        self.stage = 1

    def coefficient(self, a, v):
        tail, head, gain = self.ends[a]
        return Fraction(tail == v) - (gain if head == v else 0)

    def price(self, a):
        """Its cost in the stage."""
        return self.cost[a] if self.stage == 2 and a < self.real else Fraction(self.stage == 1 and a >= self.real)

    def end(self, a):
        """Its upper bound in the stage."""
        return self.upper[a] if a < self.real else None if self.stage == 1 else Fraction(0)

    def basic(self):
        return [a for a, mark in enumerate(self.marks) if mark == "basic"]

    def potentials(self):
        return solve_equations([[self.coefficient(a, v) for v in range(self.nodes)] + [self.price(a)] for a in self.basic()])

    def asked(self):
        """The arcs whose prices are asked for: those outside the basis that are not fixed."""
        return [a for a in range(self.real) if self.marks[a] != "basic" and (self.end(a) is None or self.lower[a] < self.end(a))]

    def eligible(self, potentials):
        """The arcs that may enter, by number."""
        found = []
        for a in self.asked():
            reduced = self.price(a) - sum(self.coefficient(a, v) * potentials[v] for v in range(self.nodes))
            if self.marks[a] == "lower" and reduced < 0 or self.marks[a] == "upper" and reduced > 0:
                found.append(a)
        return found

    def direction(self, enter):
        """By how much each arc moves while the entering one moves by 1 from its bound: of the basic arcs what takes nothing from any node."""
        by, basic = Fraction(1 if self.marks[enter] == "lower" else -1), self.basic()
        rows = [[self.coefficient(a, v) for a in basic] + [-by * self.coefficient(enter, v)] for v in range(self.nodes)]
        moves = dict(zip(basic, solve_equations(rows)))
        moves[enter] = by
        return {a: move for a, move in moves.items() if move != 0}

    def leaving(self, enter, moves):
        """The step of a direction, and the arc that stops it: the entering one where it does, else the first by number."""
        stops = []
        for a, move in moves.items():
            bound = self.end(a) if move > 0 else self.lower[a]
            if bound is not None:
                stops.append(((bound - self.flows[a]) / move, a != enter, a))
        if not stops:
            raise Overtaken(moves)
        step, _, leave = min(stops)
        return step, leave

    def needed(self, enter):
        """The nodes of the pieces that have the ends of an arc."""
        homes = self.homes()
        return [v for v in range(self.nodes) if homes[v] in [homes[w] for w in self.ends[enter][:2] if w is not None]]

    def stop_at(self, pasts):
        if pasts:
            raise Overflows(pasts)

    def pivot(self, enter):
        """Lets an arc enter, and gives the one that leaves and the bound where it comes to rest. Where an operation of the attempt does not fit, the
        state stays as it is."""
        self.stop_at(first_of("A2", price, self, self.potentials(), enter))
        moves = self.direction(enter)
        self.stop_at(direction_overflows(self, enter, moves) or first_of("A5", limits, self, moves))
        step, leave = self.leaving(enter, moves)
        self.stop_at(first_of("A6", flows_after, self, moves, step))
        nodes, marks = self.needed(enter), list(self.marks)
        mark = "upper" if moves[leave] > 0 else "lower"
        self.marks[enter] = "basic"
        self.marks[leave] = mark
        if enter != leave:
            pasts = potential_overflows(self, nodes)
            if pasts:
                self.marks = marks
                raise Overflows(pasts)
        for a, move in moves.items():
            self.flows[a] += step * move
        return leave, mark

    def price_overflow(self, potentials, cursor=0):
        """The first operation of a price that does not fit, from an arc on, and that arc; or None."""
        for a in self.order(self.asked(), cursor):
            for past in first_of("A2", price, self, potentials, a):
                return a, past
        return None

    def order(self, arcs, cursor):
        return [a for a in arcs if a >= cursor] + [a for a in arcs if a < cursor]

    def start_overflow(self):
        """The first operation of the start that does not fit, and its node; or None."""
        for v in range(self.nodes):
            for past in first_of("A1", residual, self, v):
                return v, past
        return None

    def is_carried(self):
        return any(self.flows[a] != 0 for a in range(self.real, len(self.flows)))

    def turn(self):
        self.stage = 2

    def homes(self):
        """For each node the least node of its piece."""
        homes = list(range(self.nodes))
        for _ in range(self.nodes):
            for a in self.basic():
                tail, head, _ = self.ends[a]
                if tail is not None and head is not None:
                    homes[tail] = homes[head] = min(homes[tail], homes[head])
        return homes


def log_of(plan):
    """The pivots of a plan text's records, and behind how many of them the run turned, if it did."""
    pivots = [(int(r[2]), int(r[3]), r[4]) for r in plan if r[0] == "pivot"]
    return pivots, next((int(r[1]) for r in plan if r[0] == "turned"), None)


def replayed(network, plan, is_before_turn=False):
    """The state that the printed log of a plan leads to, or the one before a turn behind its last pivot. Each entry has to be a pivot of the state
    before it, with no operation that does not fit."""
    state, (pivots, turned) = State(network), log_of(plan)
    for count, (enter, leave, mark) in enumerate(pivots + [(None, None, None)]):
        if count == turned:
            if state.is_carried():
                raise NoPivot(f"the run turns behind {count} pivots, and an artificial arc carries something")
            if is_before_turn and enter is None:
                return state
            state.turn()
        if enter is None:
            return state
        if enter not in state.eligible(state.potentials()):
            raise NoPivot(f"in pivot {count + 1} the arc {enter} may not enter")
        told = state.pivot(enter)
        if told != (leave, mark):
            raise NoPivot(f"in pivot {count + 1} the arc {told[0]} leaves at {told[1]}, not {leave} at {mark}")


def wrong_end(network, plan):
    """What is wrong with the log of a plan that certifies something, or None: a log leads to a state in which no arc may enter, of stage one
    with something on an artificial arc, or of stage two; or to one in which nothing stops an arc."""
    try:
        state = replayed(network, plan)
    except (NoPivot, Overflows) as told:
        return str(told)
    eligible = state.eligible(state.potentials())
    verdict = plan[1][1]
    if verdict == "unbounded":
        return None if state.stage == 2 and eligible else "no ray is left behind the log"
    if eligible:
        return f"behind the log the arc {eligible[0]} may enter"
    right = state.stage == 2 if verdict == "optimal" else state.stage == 1 and state.is_carried()
    return None if right else f"the log ends in stage {state.stage}"


def wrong_budget(network, plan, budget):
    """What is wrong with the plan of a run that ended with its budget, or None."""
    try:
        state = replayed(network, plan)
    except (NoPivot, Overflows) as told:
        return str(told)
    if len(log_of(plan)[0]) != budget:
        return f"the log has {len(log_of(plan)[0])} pivots"
    if state.stage == 1 and not state.is_carried():
        return "the turn is due"
    arc = int(next(r[1] for r in plan if r[0] == "arc"))
    return None if arc in state.eligible(state.potentials()) else f"the arc {arc} may not enter"


# ---- runs that end with an operation that does not fit


def outcome_plan(network, verdict, flows, ray, potentials):
    """The plan of what a run has ended in, by the amounts of the arcs: they are gathered to those of the flows by row C0."""
    plan = Plan([["netplan-plan", "1"], ["verdict", verdict]])
    for word, amounts in (("flow", [] if verdict == "infeasible" else flows), ("ray", ray)):
        place = 0
        for t, flow in network.staged() if amounts else []:
            count = len(flow.segments)
            plan.amounts[word, flow.name, t] = in_row("C0", gathered, amounts[place : place + count])
            place += count
    for (t, node), potential in zip(network.supply, potentials):
        plan.amounts["price", node, t] = potential
    return plan


def total_overflow(network, verdict, flows, ray, potentials):
    """The first operation of row A8 that does not fit, with its row of the checker; or None."""
    try:
        plan = outcome_plan(network, verdict, flows, ray, potentials)
        walk = Walk(network, plan)
        for clause in walk.clauses()[:-1]:
            for rejected in clause:
                raise NoPivot(f"the run ends in what is {rejected}")
        if verdict == "optimal":
            walk.summed_cost()
        elif verdict == "infeasible":
            walk.summed_gap()
        else:
            list(walk.ray_cost())
    except Overflow as told:
        return told.row, told.past
    return None


def ending(network, state):
    """The first operation of row A8 that does not fit, where no arc may enter; or None."""
    potentials, flows = state.potentials(), state.flows[: state.real]
    if not state.eligible(potentials):
        verdict = "optimal" if state.stage == 2 else "infeasible"
        return total_overflow(network, verdict, flows, [], potentials)
    return None


def rays(state):
    """Each eligible arc that nothing stops, with its direction on the real arcs; and what attempts with the others tell, by arc."""
    found, pasts = {}, {}
    for a in state.eligible(state.potentials()):
        marks, flows = list(state.marks), list(state.flows)
        try:
            state.pivot(a)
            pasts[a] = set()
        except Overtaken as told:
            found[a] = [told.moves.get(b, Fraction(0)) for b in range(state.real)]
        except Overflows as told:
            pasts[a] = told.pasts
        state.marks, state.flows = marks, flows
    return found, pasts


def wrong_overflow(network, plan):
    """What is wrong with the plan of a run that ended at an operation that does not fit, or None: plain code has to find the operation at the
    state behind the log, and each attempt there has to overflow where one is told."""
    row, place, operation, left, right = next(r[1:] for r in plan if r[0] == "past")
    told = row, operation, Fraction(left), Fraction(right)
    start = State(network)
    if row == "A1" or start.start_overflow():
        right_start = log_of(plan) == ([], None) and start.start_overflow() == (int(place) if row == "A1" else None, told)
        return None if right_start else f"the start overflows at {start.start_overflow()}"
    try:
        state = replayed(network, plan, place == "turn")
    except (NoPivot, Overflows) as wrong:
        return str(wrong)
    if place == "turn":
        if state.stage == 2:
            return "the run turned before"
        state.turn()
        pasts = potential_overflows(state, range(state.nodes))
        return None if told in pasts else f"the turn overflows at {pasts}"
    if state.stage == 1 and not state.is_carried():
        return "the turn is due"
    if row == "A2":
        found = first_of("A2", price, state, state.potentials(), int(place)) if int(place) in state.asked() else set()
        return None if told in found else f"the price of {place} overflows at {found}"
    if state.price_overflow(state.potentials()):
        return "a price overflows"
    found, pasts = rays(state)
    if row == "A8":
        ends = [ending(network, state)] + [total_overflow(network, "unbounded", state.flows[: state.real], ray, []) for ray in found.values()]
        return None if (place, told[1:]) in ends else f"the sums overflow at {ends}"
    if found or set() in pasts.values():
        return f"the attempts with {[a for a in pasts if not pasts[a]] + list(found)} do not overflow"
    return None if told in pasts.get(int(place), set()) else f"the attempts overflow at {pasts}"


# ---- the run of one worker


def swept(state, listed, quota):
    """A round of one worker: the listed arcs in order, each at the pieces that its ends had at the opening."""
    openings, pivots = state.homes(), []
    for enter in listed:
        if len(pivots) == quota:
            break
        homes = state.homes()
        if any(homes[v] != openings[v] for v in state.ends[enter][:2] if v is not None):
            continue
        # The prices of arcs whose operations do not fit are none.
        if enter in state.asked() and not first_of("A2", price, state, state.potentials(), enter) and enter in state.eligible(state.potentials()):
            try:
                pivots.append((enter, *state.pivot(enter)))
            except (Overtaken, Overflows):
                pass
    return pivots


class Alone:
    """The run of one worker: its pivots, behind how many of them it turns, if it does, and the operations of which one is told where it ends with one
    that does not fit: pairs of a place and an operation with its row. A plan of what it ends in may have one too."""

    def __init__(self, network, budget):
        self.network, self.budget = network, budget
        self.state, self.pivots, self.turned, self.cursor, self.told = State(network), [], None, 0, set()
        start = self.state.start_overflow()
        if start:
            self.told = {start}
        else:
            while self.turns() and self.steps():
                pass

    def log(self):
        return self.pivots, self.turned

    def turns(self):
        """Turns where stage one has done its work, and says whether the run goes on."""
        if self.turned is None and not self.state.is_carried():
            self.turned = len(self.pivots)
            self.state.turn()
            self.told = {("turn", past) for past in potential_overflows(self.state, range(self.state.nodes))}
        return not self.told

    def total(self, verdict, ray, potentials):
        found = total_overflow(self.network, verdict, self.state.flows[: self.state.real], ray, potentials)
        if found:
            row, past = found
            self.told = {(row, ("A8", *past))}

    def steps(self):
        """A pivot and a round, or the end of the run."""
        state, potentials = self.state, self.state.potentials()
        overflow = state.price_overflow(potentials, self.cursor)
        if overflow:
            self.told = {overflow}
            return False
        listed = state.order(state.eligible(potentials), self.cursor)
        if not listed:
            self.total("optimal" if state.stage == 2 else "infeasible", [], potentials)
            return False
        if len(self.pivots) == self.budget:
            return False
        return self.picks(listed) and not self.told

    def picks(self, listed):
        """Lets the first arc enter whose pivot can be made, and makes a round; says whether there is one."""
        first = set()
        for enter in listed:
            try:
                self.pivots.append((enter, *self.state.pivot(enter)))
                self.cursor = (enter + 1) % self.state.real
                self.pivots += swept(self.state, listed, min(64, self.budget - len(self.pivots)))
                return True
            except Overtaken as told:
                ray = [told.moves.get(a, Fraction(0)) for a in range(self.state.real)]
                self.total("unbounded", ray, [])
                return False
            except Overflows as told:
                first = first or {(enter, past) for past in told.pasts}
        self.told = first
        return False


def run_alone(network, budget):
    """The pivots of the run of one worker, and behind how many of them it turns, if it does."""
    return Alone(network, budget).log()
