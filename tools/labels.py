"""The words of a picture: what stands beside each flow and in each node, and what their titles tell exactly."""
from fractions import Fraction

from plans import bounds, decimal

# How wide letters of a text of 12 units are in a wide font; all others are 8.
LETTERS = {**dict.fromkeys("fijlrt.,:;!|'()[]- I", Fraction(5)), **dict.fromkeys("mwMWGOQ@%&→×~", Fraction(12))}
SQUARE = 9
MOST_SQUARES = 8
RAY_SPACE = 6  # between the amount of a flow and that of the ray
MOST_LETTERS = 16


def shortened(name):
    return name if len(name) <= MOST_LETTERS else name[: MOST_LETTERS - 1] + "…"


def width(text):
    """About how wide a text of the usual size is; rather too much."""
    return sum((LETTERS.get(letter, Fraction(8)) for letter in text), Fraction(0))


def shares(flow, amount):
    """How full each segment of a flow is, from 0 to 1: a half stands for some of an infinite one."""
    for start, end, _ in flow.segments:
        if end is not None and amount >= end:
            yield Fraction(1)
        elif amount <= start:
            yield Fraction(0)
        else:
            yield Fraction(1, 2) if end is None else (amount - start) / (end - start)


class Label:
    """What stands beside a flow in a period: its amount, that along a ray, or its bounds where the verdict has no amounts."""

    def __init__(self, plan, flow, period, binds=False):
        self.text, self.ray, self.squares = shortened(flow.name), "", []
        self.binds = self.is_bold = binds
        if plan.verdict not in ("optimal", "unbounded"):
            self.text += f" {bounds(flow)}" + ("" if flow.gain == 1 else f", ×{decimal(flow.gain)}")
            return
        amount = plan.of("flow", flow.name, period)
        self.text += f" {decimal(amount)}" + ("" if flow.gain == 1 or amount == 0 else f" → {decimal(flow.gain * amount)}")
        self.is_bold = amount != 0 and amount == flow.last_end()
        if plan.verdict == "unbounded":
            ray = plan.of("ray", flow.name, period)
            self.ray = "" if ray == 0 else f"ray {decimal(ray)}"
        if 1 < len(flow.segments) <= MOST_SQUARES:
            self.squares = list(shares(flow, amount))
        elif len(flow.segments) > MOST_SQUARES:
            full = sum(share == 1 for share in shares(flow, amount))
            self.text += f" [{full} of {len(flow.segments)} full]"

    def squares_width(self):
        return SQUARE * len(self.squares) + (5 if self.squares else 0)

    def width(self):
        words = width(self.text) * (Fraction(11, 10) if self.is_bold else 1)
        return words + self.squares_width() + (RAY_SPACE + width(self.ray) if self.ray else 0)


def amount_words(plan, flow, period):
    """The exact amounts of a flow in a period, a line each; none where the verdict has none."""
    if plan.verdict not in ("optimal", "unbounded"):
        return []
    amount = plan.of("flow", flow.name, period)
    arrives = "" if flow.gain == 1 else f"; {flow.gain * amount} arrives"
    ray = [f"ray {plan.of('ray', flow.name, period)}"] if plan.verdict == "unbounded" else []
    return [f"amount {amount}{arrives}"] + ray


def flow_words(plan, flow, period):
    """All that is known of a flow in a period, exactly."""
    ends = {"arc": f"from {flow.tail} to {flow.head}", "feed": f"of {flow.head}"}.get(flow.kind, f"of {flow.tail}")
    lines = [f"{flow.name}: {flow.kind} {ends}, period {period}"] + amount_words(plan, flow, period)
    if plan.verdict in ("optimal", "unbounded"):
        lines.append(f"cost {flow.cost_of(plan.of('flow', flow.name, period))}")
    if flow.gain != 1:
        lines.append(f"gain {flow.gain}")
    return "\n".join(lines + list(segment_words(plan, flow, period)))


def segment_words(plan, flow, period):
    """A line for each segment: from where to where, its cost, and how much of it is used where there are amounts."""
    is_told = plan.verdict in ("optimal", "unbounded") and len(flow.segments) > 1
    filled = list(shares(flow, plan.of("flow", flow.name, period)))
    for k, (start, end, slope) in enumerate(flow.segments):
        state = "full" if filled[k] == 1 else "empty" if filled[k] == 0 else "in part"
        name = f"piece {k}" if k else "first piece" if len(flow.segments) > 1 else "bounds"
        yield f"{name}: {start} to {'inf' if end is None else end}, at {slope} each" + (f" ({state})" if is_told else "")


def node_lines(network, plan, node, period):
    """The lines in a node's box: its name, its supply, and its price where the verdict has one."""
    supply = network.supply[period, node]
    lines = [shortened(node), f"supply {decimal(supply)}"]
    if plan.verdict in ("optimal", "infeasible"):
        lines.append(f"price {decimal(plan.of('price', node, period))}")
    return lines


def node_words(network, plan, node, period):
    words = f"{node}, period {period}\nsupply {network.supply[period, node]}"
    if plan.verdict in ("optimal", "infeasible"):
        words += f"\nprice {plan.of('price', node, period)}"
    return words
