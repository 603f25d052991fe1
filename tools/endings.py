"""How tools/finish and tools/prove-with end: the plan is tested exactly, what of it does not fit 128 bits is told, and it is printed."""
import sys
from fractions import Fraction

from plans import amount_records, decimal, fits, log_records, made_plan, plan_records, say, several, write
from walk import Walk

STATUSES = {"optimal": 0, "infeasible": 1, "unbounded": 2}
OUT_OF_TIME, TOO_LONG = 3, 4
MOST_TOLD = 5


def cost_words(value):
    """A number as a decimal, with its fraction behind where that is rounded and short."""
    short = decimal(value)
    return f"{short} ({value})" if short.startswith("~") and len(str(value)) <= 40 else short


def is_long(network, plan, walk):
    return walk.past is not None or any(not fits(value) for _, value in numbers_of(network, plan))


def certify(basis, plan):
    """Tests the plan of a basis exactly, prints it, and answers the status. Where it does not fit 128 bits, other prices are tried."""
    network = basis.arcs.network
    walk = Walk(network, plan)
    if walk.line[0] == "accepted" and plan.verdict != "unbounded" and is_long(network, plan, walk):
        basis.shorten()
        plan = basis.shown(plan.verdict)
        walk = Walk(network, plan)
    if walk.line[0] != "accepted":
        raise AssertionError(f"the plan is not right, and that is a fault of this tool: {walk.line}")
    single = {"optimal": "cost", "infeasible": "gap"}.get(plan.verdict)
    told = f", {single} {cost_words(Fraction(plan.single[single]))}" if single else ""
    say(f"{plan.verdict}{told}: tested exactly")
    write(plan_records(network, plan))
    long = [name for name in numbers_of(network, plan) if not fits(name[1])]
    if long:
        more = f", and {len(long) - MOST_TOLD} more" if len(long) > MOST_TOLD else ""
        named = "; ".join(name for name, _ in long[:MOST_TOLD])
        say(f"{several(len(long), 'number')} of it {'does' if len(long) == 1 else 'do'} not fit 128 bits, so `netplan check` refuses it: {named}{more}")
        return TOO_LONG
    if walk.past:
        say(f"its numbers fit 128 bits, but not those on the way of `netplan check`, which ends at row {walk.past[0]} ('{walk.past[1]}')")
        return TOO_LONG
    say("its numbers fit 128 bits: `netplan check` accepts it")
    return STATUSES[plan.verdict]


def numbers_of(network, plan):
    """The numbers of a plan text, each with its name."""
    yield from ((word, Fraction(value)) for word, value in plan.single.items())
    for (word, name, t), value in plan.amounts.items():
        yield f"{word} of {name} in period {t}", value


def tell_time(basis, pivots, seconds):
    """Prints what is there when the time is over, as an answer 'budget' behind the pivots before."""
    network, is_plan = basis.arcs.network, basis.stage == 2
    say(f"{seconds:g} seconds are over, after {several(len(basis.pivots), 'pivot')} more")
    say(f"so far there is a feasible plan that costs {cost_words(basis.cost())}" if is_plan else "so far there is no feasible plan")
    plan = made_plan("budget", {}, basis.amounts("flow", enumerate(basis.flow)))
    flows = amount_records(network, plan, "flow") if is_plan else []
    turned = None if not is_plan else len(pivots) + (basis.turned or 0)
    records = [["netplan-plan", "1"], ["verdict", "budget"], ["arc", basis.first_eligible() or 0]] + flows
    write(records + log_records(pivots + basis.pivots, turned) + [["end"]])
    sys.stdout.flush()
    return OUT_OF_TIME
