"""What a plan says and what `netplan check` says of one, in a planner's sentences."""
from fractions import Fraction

from plans import arc_words, decimal, node_words, pivots_of, several
from walk import Walk

MOST = 6
ROWS = {
    "A1": "computing what is left at a node",
    "A2": "pricing an arc",
    "A3": "multiplying the gains round a cycle",
    "A4": "computing how flows move when an arc enters",
    "A5": "computing how far flows can move",
    "A6": "moving flows",
    "A7": "computing prices",
    "A8": "adding up the plan that the run had ended with",
    "C1": "adding up what flows at a node",
    "C2": "adding up the bounds of a flow",
    "C3": "computing a reduced cost",
    "C4": "adding up the cost",
    "C5": "adding up the gap",
    "C6": "adding up along the ray",
}
OPERATIONS = {"plus": "plus", "minus": "minus", "times": "times", "over": "divided by"}


def exact(value):
    """A number as a decimal, with its fraction where that is rounded and short enough to read."""
    short = decimal(value)
    return f"{short} ({value})" if short.startswith("~") and len(str(value)) <= 30 else short


def listed(parts, most=MOST):
    """Parts as a list in a sentence; the first ones, and how many more there are."""
    parts = list(parts)
    more = [f"{len(parts) - most} more"] if len(parts) > most else []
    shown = parts[:most] + more
    return " and ".join([", ".join(shown[:-1])] * (len(shown) > 1) + shown[-1:])


def at(network, name, t):
    """A flow or a node in its period, where there are several."""
    return f"{name} in period {t}" if network.periods > 1 else name


def unit_word(count):
    return "is" if count == 1 else "are"


# ---- what check says


def check_words(network, plan, line):
    """The sentences for the line of an answer of `check`."""
    if line[0] == "accepted":
        return accepted_words(line)
    walk = Walk(network, plan)
    if [str(x) for x in walk.answer()] != [str(x) for x in line]:
        return ["These files do not lead to that answer: is it one to other files, or have they been changed?"]
    if line[0] == "past":
        return past_words(network, walk, line)
    clause, *place = line[1:]
    told = f"The plan is rejected, by the clause '{clause}'" + (f", at {at(network, place[0], int(place[1]))}." if place else ".")
    return [told] + list(CLAUSES[clause](network, plan, walk, *place))


def accepted_words(line):
    if line[1] == "optimal":
        return [f"The plan is right: its flows keep to all bounds, supplies and needs, they cost {exact(Fraction(line[2]))}, and its prices show that no plan costs less. This is proved."]
    if line[1] == "infeasible":
        return [f"The certificate is right: there is no plan for this network, since at these prices the needs exceed all that can come by {exact(Fraction(line[2]))}. This is proved."]
    return ["The plan is right: its flows are feasible, and along its ray the cost falls without end, so there is no least cost. This is proved."]


def past_words(network, walk, line):
    row, operation, left, right = line[1:]
    yield f"The check ended where a number does not fit 128 bits, at {ROWS[row]} (row {row})."
    yield f"{long_words(left)} {OPERATIONS[operation]} {long_words(right)} has a numerator or a denominator of more than 38 digits."
    yield "So the plan is neither accepted nor rejected. Fewer digits in gains, bounds and costs make the numbers shorter."
    if walk.line[0] == "accepted":
        yield "Followed in fractions of any length, which is not proved, the plan is right."
    else:
        yield f"Followed in fractions of any length, which is not proved, the plan is rejected, by the clause '{walk.line[1]}'."


def long_words(value):
    value = Fraction(value)
    digits = max(len(str(abs(value.numerator))), len(str(value.denominator)))
    return exact(value) if digits <= 12 else f"{decimal(value)}, a number of {digits} digits,"


def flows_at(network, plan, word, node, t):
    """What leaves a node and what comes to it, as two lists of amounts with their words."""
    leaving, coming = [], []
    for period, flow in network.staged():
        amount = plan.of(word, flow.name, period)
        if amount == 0:
            continue
        if flow.tail == node and period == t:
            leaving.append((amount, f"{exact(amount)} by {flow.name}"))
        if flow.head == node and (period + 1 if flow.kind == "hold" else period) == t:
            arriving = flow.gain * amount
            lost = f" ({exact(amount)} times {flow.gain})" if flow.gain != 1 else ""
            kept = f", kept from period {period}" if flow.kind == "hold" else ""
            coming.append((arriving, f"{exact(arriving)}{lost} by {flow.name}{kept}"))
    return leaving, coming


def balance_words(network, plan, walk, node, period, word="flow"):
    leaving, coming = flows_at(network, plan, word, node, int(period))
    for parts, verb in ((coming, "comes"), (leaving, "leaves")):
        whole = sum(amount for amount, _ in parts)
        yield f"{exact(Fraction(whole))} {verb}" + (f": {listed(text for _, text in parts)}." if parts else ".")
    supply, found = walk.sides["wanted"], walk.sides["found"]
    if word == "flow":
        yield "There is no supply and no need." if supply == 0 else f"The supply is {exact(supply)}." if supply > 0 else f"The need is {exact(-supply)}."
    missing = found - supply
    yield f"So {exact(missing)} {unit_word(missing)} missing." if missing > 0 else f"So {exact(-missing)} {unit_word(-missing)} left over."


def bound_words(network, plan, walk, name, period):
    found, lower, upper = (walk.sides[k] for k in ("found", "lower", "upper"))
    if found < lower:
        yield f"The amount is {exact(found)}, and at least {exact(lower)} has to flow: {exact(lower - found)} {unit_word(lower - found)} missing."
    else:
        yield f"The amount is {exact(found)}, and at most {exact(upper)} may flow: that is {exact(found - upper)} too much."


def flow_named(network, name):
    return next(flow for flow in network.flows if flow.name == name)


def reduced_sum(network, plan, flow, period, slope):
    """How a reduced cost comes about, in words."""
    parts = [f"its cost {exact(slope)}"]
    if flow.tail is not None:
        parts.append(f"less the price {exact(plan.of('price', flow.tail, period))} at {at(network, flow.tail, period)}")
    if flow.head is not None:
        later = period + 1 if flow.kind == "hold" else period
        gain = f"{flow.gain} times " if flow.gain != 1 else ""
        parts.append(f"plus {gain}the price {exact(plan.of('price', flow.head, later))} at {at(network, flow.head, later)}")
    return ", ".join(parts)


def reduced_words(network, plan, walk, name, period):
    flow, found, amount = flow_named(network, name), walk.sides["found"], walk.sides["amount"]
    yield f"The reduced cost of one unit is {exact(found)}: {reduced_sum(network, plan, flow, int(period), walk.sides['slope'])}."
    if walk.sides["side"] == "left":
        yield f"{exact(amount)} flows, more than the least that may ({exact(flow.lower)}). By these prices each unit less would save {exact(found)}, and the reduced cost would have to be 0 or less."
    else:
        end = flow.last_end()
        most = "there is no upper bound" if end is None else f"as much as {exact(end)} may"
        yield f"{exact(amount)} flows, and {most}. By these prices each unit more would save {exact(-found)}, and the reduced cost would have to be 0 or more."
    yield "Either the plan is not one of least cost, or its prices are not those that show it."


def cost_words(network, plan, walk):
    found, wanted = walk.sides["found"], walk.sides["wanted"]
    yield f"The flows cost {exact(found)}, and the plan says {exact(wanted)}: that is {exact(abs(wanted - found))} too {'much' if wanted > found else 'little'}."


def upper_words(network, plan, walk, name, period):
    flow = flow_named(network, name)
    yield f"At these prices each unit is worth {exact(-walk.sides['found'])} (without its cost: {reduced_sum(network, plan, flow, int(period), Fraction(0))}), and there is no upper bound, so they show no gap."


def gap_words(network, plan, walk):
    found, wanted = walk.sides["found"], walk.sides["wanted"]
    yield f"At these prices the needs exceed all that can come by {exact(found)}, and the plan says {exact(wanted)}."
    if found <= 0:
        yield "Only a gap above 0 shows that there is no plan."


def ray_words(network, plan, walk, name, period):
    found, upper = walk.sides["found"], walk.sides["upper"]
    yield f"Along the ray the amount is {exact(found)}" + (", and it may not be below 0." if found < 0 else f", and the flow has the upper bound {exact(upper)}: it cannot grow without end.")


def ray_balance_words(network, plan, walk, node, period):
    yield "What comes and leaves along the ray has to be the same:"
    yield from balance_words(network, plan, walk, node, period, "ray")


def ray_cost_words(network, plan, walk):
    yield f"Along the ray the cost changes by {exact(walk.sides['found'])} each time, and it would have to fall."


def uncertified_words(network, plan, walk):
    yield f"A plan of verdict '{plan.verdict}' claims nothing that could be checked: the run ended early. tools/finish goes on from it."


CLAUSES = {
    "balance": balance_words,
    "bound": bound_words,
    "reduced": reduced_words,
    "cost": cost_words,
    "upper": upper_words,
    "gap": gap_words,
    "ray-sign": ray_words,
    "ray-upper": ray_words,
    "ray-balance": ray_balance_words,
    "ray-cost": ray_cost_words,
    "uncertified": uncertified_words,
}


# ---- what solve says


def plan_words(network, plan, records):
    return PLANS[plan.verdict](network, plan, records)


def optimal_words(network, plan, records):
    yield f"The least cost is {exact(Fraction(plan.single['cost']))}."
    costs = [(flow.cost_of(plan.of("flow", flow.name, t)), at(network, flow.name, t)) for t, flow in network.staged()]
    paid, earned = [x for x in sorted(costs, reverse=True) if x[0] > 0], [x for x in sorted(costs) if x[0] < 0]
    if paid:
        yield f"Paid is {exact(sum(x for x, _ in paid))}: {listed(f'{exact(x)} for {name}' for x, name in paid)}."
    if earned:
        yield f"Earned is {exact(-sum(x for x, _ in earned))}: {listed(f'{exact(-x)} by {name}' for x, name in earned)}."
    scarce = sorted(scarce_bounds(network, plan), reverse=True)
    if scarce:
        yield f"Room is scarce; a unit more would save: {listed(f'{exact(x)} at {name}' for x, name in scarce)}."
    worth = sorted(((-plan.of("price", n, t), at(network, n, t)) for t, n in network.supply), key=lambda x: -x[0])
    worth = [x for x in worth if x[0] > 0]
    if worth:
        yield f"One unit more of supply would save: {listed(f'{exact(x)} at {name}' for x, name in worth)}."
    yield "netplan check proves it: ./netplan check network.csv plan.csv"


def scarce_bounds(network, plan):
    """What a unit more room would save at the upper bound of each flow that is there."""
    walk = Walk(network, plan)
    for t, flow in network.staged():
        amount = plan.of("flow", flow.name, t)
        if flow.last_end() is not None and amount == flow.last_end():
            reduced = walk.reduced(t, flow, flow.segments[-1][2])
            if reduced < 0:
                yield -reduced, at(network, flow.name, t)


class Shortage:
    """What a certificate counts: what is needed, and all that can come, each unit with its worth at the node whose price is farthest from 0.
    Where prices are above 0, something is too much: then what cannot leave counts as what is missing."""

    def __init__(self, network, plan):
        self.network, walk = network, Walk(network, plan)
        weights = {(t, n): -plan.of("price", n, t) for t, n in network.supply}
        self.center = max(weights, key=lambda place: abs(weights[place]))
        self.unit = abs(weights[self.center])
        self.is_surplus = weights[self.center] < 0
        self.needs, self.comings = [], []
        for (t, node), supply in network.supply.items():
            worth = weights[t, node] / self.unit * -supply
            self.count(worth, f"{exact(abs(supply))} {'of supply' if supply > 0 else 'needed'} at {at(network, node, t)}", abs(weights[t, node]) / self.unit)
        self.binding = {}
        for t, flow in network.staged():
            reduced = walk.reduced(t, flow, Fraction(0)) / self.unit
            if reduced != 0:
                limit = flow.lower if reduced > 0 else flow.last_end()
                side = "lower" if reduced > 0 else "upper"
                if side == "upper" or limit != 0:
                    self.binding[flow.name, t] = side
                words = f"at {'least' if side == 'lower' else 'most'} {exact(limit)} by {at(network, flow.name, t)}, its {side} bound,"
                self.count(reduced * limit, words, abs(reduced))

    def count(self, worth, words, each):
        if worth != 0:
            told = f"{words} counts {exact(abs(worth))}" + (f" ({exact(each)} each)" if each != 1 else "")
            (self.needs if worth > 0 else self.comings).append((abs(worth), told))

    def gap(self):
        return sum((x for x, _ in self.needs), Fraction(0)) - sum((x for x, _ in self.comings), Fraction(0))


def infeasible_words(network, plan, records):
    if all(plan.of("price", n, t) == 0 for t, n in network.supply):
        return ["The plan is a certificate without prices, which shows nothing."]
    shortage = Shortage(network, plan)
    t, node = shortage.center
    what = "too much" if shortage.is_surplus else "missing"
    lines = [f"There is no plan: at {at(network, node, t)} {exact(shortage.gap())} {unit_word(shortage.gap())} {what}, whatever is done."]
    need = "What has to leave" if shortage.is_surplus else "What is needed"
    come = "All that can be taken" if shortage.is_surplus else "All that can come"
    lines.append(f"Each unit is counted by what it is worth at {at(network, node, t)}.")
    for title, parts in ((need, shortage.needs), (come, shortage.comings)):
        lines.append(f"{title}, {exact(sum((x for x, _ in parts), Fraction(0)))} in all:" + ("" if parts else " nothing."))
        lines += [f"  {text}" for _, text in sorted(parts, key=lambda x: -x[0])[: 3 * MOST]]
        lines += [f"  and {len(parts) - 3 * MOST} more" for _ in [0] if len(parts) > 3 * MOST]
    lines.append(helps(network, shortage))
    return lines


def helps(network, shortage):
    bounds = listed(f"a {'higher' if side == 'upper' else 'lower'} bound of {at(network, name, t)}" for (name, t), side in shortage.binding.items())
    supplies = "less supply" if shortage.is_surplus else "more supply, less need"
    opened = "a drain that costs nothing there" if shortage.is_surplus else "a feed at that node, at the price that a shortage costs"
    return f"What helps: {supplies}, {bounds + ', ' if shortage.binding else ''}or {opened}."


def ray_order(network, plan):
    """The flows along a ray, one behind the other where they are joined: from a feed on where there is one."""
    rest = [(t, f) for t, f in network.staged() if plan.of("ray", f.name, t) != 0]
    ordered = []
    while rest:
        arrived = None
        if ordered:
            t, flow = ordered[-1]
            arrived = flow.head and (t + 1 if flow.kind == "hold" else t, flow.head)
        following = [x for x in rest if arrived and (x[0], x[1].tail) == arrived]
        chosen = (following or [x for x in rest if x[1].kind == "feed"] or rest)[0]
        rest.remove(chosen)
        ordered.append(chosen)
    return ordered


def unbounded_words(network, plan, records):
    ray = ray_order(network, plan)
    cost = sum((f.segments[-1][2] * plan.of("ray", f.name, t) for t, f in ray), Fraction(0))
    yield f"There is no least cost: along this way more and more can flow, and each time {exact(-cost)} more is earned."
    for t, flow in ray:
        amount, price = plan.of("ray", flow.name, t), flow.segments[-1][2]
        ends = {"arc": f"from {flow.tail} to {flow.head}", "feed": f"into {flow.head}", "drain": f"out of {flow.tail}"}
        way = ends.get(flow.kind, f"kept at {flow.tail} for the next period")
        arrives = f", {exact(amount * flow.gain)} arrives" if flow.gain != 1 else ""
        paid = f", costs {exact(price * amount)}" if price > 0 else f", earns {exact(-price * amount)}" if price < 0 else ""
        yield f"  {at(network, flow.name, t)}: {exact(amount)} {way}{arrives}{paid}"
    yield "None of these flows has an upper bound. Something on that way is limited: give it its upper bound."


def log_words(records):
    return several(len(pivots_of(records)), "pivot")


def goes_on():
    return "tools/finish network.csv answer.csv goes on from here in fractions of any length, to a plan or a certificate."


def budget_words(network, plan, records):
    yield f"The run made {log_words(records)}, as many as were allowed, and was not at its end: {arc_words(network, int(plan.ended['arc'][0]))} may still enter."
    yield goes_on()
    yield "Or solve again with a larger --budget (200,000 where not given, 1,000,000 at most)."


def overflow_words(network, plan, records):
    row, place, operation, left, right = plan.ended["past"]
    yield f"The run ended after {log_words(records)}, at a number that does not fit 128 bits."
    yield f"It came at {ROWS[row]}{overflow_place(network, row, place)}:"
    yield f"{long_words(left)} {OPERATIONS[operation]} {long_words(right)} has a numerator or a denominator of more than 38 digits."
    if row == "A8":
        yield f"The run was at its end: only {'the cost' if place == 'C4' else 'a sum of the plan'} is too long. tools/finish network.csv answer.csv prints the plan."
    else:
        yield goes_on()
    yield "Another run may end with a plan: --workers 1, --workers 16, or another order of the flows."
    gains = [(len(str(f.gain.numerator)) + len(str(f.gain.denominator)), f) for f in network.flows if f.gain != 1]
    long = sorted(gains, key=lambda x: -x[0])[:MOST]
    if long:
        yield f"Fewer digits in gains help most, since they multiply along a way and over periods. The longest: {listed(f'{f.gain} of {f.name}' for _, f in long)}."


def overflow_place(network, row, place):
    if place == "turn":
        return ", when the second stage began"
    if row == "A1":
        return f", {node_words(network, int(place))}"
    if row == "A8":
        return f", by {ROWS[place]}" if place in ROWS else ""
    number = int(place)
    count = sum(len(f.segments) for _, f in network.staged())
    if number >= count:
        return f", of the artificial arc of {node_words(network, number - count)}"
    period, flow = staged_of(network, number)
    ends = {"arc": f"from {flow.tail} to {flow.head}", "feed": f"into {flow.head}"}.get(flow.kind, f"of {flow.tail}")
    return f", when {arc_words(network, number)} ({flow.kind} {ends}) was {'priced' if row == 'A2' else 'tried'}"


def staged_of(network, number):
    for period, flow in network.staged():
        if number < len(flow.segments):
            return period, flow
        number -= len(flow.segments)
    raise ValueError("the network does not have such an arc")


PLANS = {"optimal": optimal_words, "infeasible": infeasible_words, "unbounded": unbounded_words, "budget": budget_words, "overflow": overflow_words}
