"""Network texts and plan texts, read a second time from docs/FORMATS.md in plain Python: what they stand for, and their first faults.

It knows nothing of the program: records are lists of strings, and numbers are Python's fractions.
"""
import csv
import io
from fractions import Fraction

LONGEST_INPUT = 2**24
LARGEST = 2**127 - 1
DEFINING = {"node": 2, "supply": 4, "arc": 8, "hold": 7, "drain": 6, "feed": 6, "piece": 4, "end": 1}
VERDICTS = ("optimal", "infeasible", "unbounded", "budget", "overflow")
NEEDED = {"optimal": "cost", "infeasible": "gap", "budget": "arc", "overflow": "past"}
FIELDS = {"cost": 2, "gap": 2, "arc": 2, "past": 6, "flow": 4, "price": 4, "ray": 4, "turned": 2, "pivot": 5, "end": 1}
OPERATIONS = ("plus", "minus", "times", "over")


# ---- what a network text and a plan text stand for


class Network:
    """A network text without a fault, by its records."""

    def __init__(self, records):
        self.periods = int(records[1][1])
        self.nodes = [r[1] for r in records if r[0] == "node"]
        self.supply = {(t, n): Fraction(0) for t in range(1, self.periods + 1) for n in self.nodes}
        self.flows, named = [], {}
        for r in records[2:]:
            if r[0] == "supply":
                for t in range(1, self.periods + 1) if r[2] == "*" else [int(r[2])]:
                    self.supply[t, r[1]] = Fraction(r[3])
            elif r[0] in ("arc", "hold", "drain", "feed"):
                named[r[1]] = Flow(r)
                self.flows.append(named[r[1]])
            elif r[0] == "piece":
                named[r[1]].add_piece(r[2], r[3])

    def staged(self):
        """The staged arcs, as pairs of a period and a flow."""
        return [(t, f) for t in range(1, self.periods + 1) for f in self.flows if t <= f.last_period(self.periods)]


class Flow:
    """A flow with its segments: where each begins and ends (None for infinite), and its slope."""

    def __init__(self, record):
        self.kind, self.name, *rest = record
        self.tail = rest[0] if self.kind != "feed" else None
        self.head = {"arc": rest[1], "hold": rest[0], "drain": None, "feed": rest[0]}[self.kind]
        self.gain = Fraction(rest[-4]) if self.kind in ("arc", "hold") else Fraction(1)
        self.lower, self.cost = Fraction(rest[-3]), Fraction(rest[-1])
        self.segments = [(self.lower, amount_or_infinite(rest[-2]), self.cost)]

    def add_piece(self, width, slope):
        start, width = self.segments[-1][1], amount_or_infinite(width)
        self.segments.append((start, None if width is None else start + width, Fraction(slope)))

    def last_period(self, periods):
        return periods - 1 if self.kind == "hold" else periods

    def last_end(self):
        return self.segments[-1][1]

    def widths(self):
        """The end of its own segment, and the widths of its pieces."""
        return self.segments[0][1], [None if end is None else end - start for start, end, _ in self.segments[1:]]

    def cost_of(self, amount):
        start, end, slope = self.segments[0]
        cost = slope * lesser(amount, end)
        for start, end, slope in self.segments[1:]:
            if start < amount:
                cost += slope * (lesser(amount, end) - start)
        return cost


def amount_or_infinite(text):
    return None if text == "inf" else Fraction(text)


def lesser(amount, end):
    return amount if end is None else min(amount, end)


class Plan:
    """The plan of a text without a fault: amounts by kind, name and period, 0 where none is given; where a run has ended early, the fields
    that say at what, and how many pivots its log has."""

    def __init__(self, records):
        self.verdict = records[1][1]
        self.single = {r[0]: r[1] for r in records if r[0] in ("cost", "gap")}
        self.ended = {r[0]: r[1:] for r in records if r[0] in ("arc", "past")}
        self.pivots = sum(r[0] == "pivot" for r in records)
        self.amounts = {(r[0], r[1], int(r[2])): Fraction(r[3]) for r in records if r[0] in ("flow", "price", "ray")}

    def of(self, word, name, period):
        return self.amounts.get((word, name, period), Fraction(0))


# ---- the records of an input


def records_of(data):
    """The records of so many bytes, each byte as one character: a name or number beyond ASCII is a fault in any case."""
    csv.field_size_limit(LONGEST_INPUT)
    # Some versions of the csv module do not read the byte 0; byte 1 is as wrong in every field.
    text = data.removeprefix(b"\xef\xbb\xbf").decode("latin-1").replace("\0", "\1")
    return [record for record in csv.reader(io.StringIO(text, newline="")) if record]


# ---- the first fault of a network text


def is_digits(text, most):
    return 1 <= len(text) <= most and all(c in "0123456789" for c in text)


def is_amount(text):
    text = text.removeprefix("-")
    if "/" in text:
        upper, lower = text.split("/", 1)
        return is_digits(upper, 18) and is_digits(lower, 19) and int(lower) != 0
    whole, *decimals = text.split(".", 1)
    return is_digits(whole, 18) and all(is_digits(d, 9) for d in decimals)


def is_name(text):
    return 1 <= len(text.encode()) <= 64 and all(0x21 <= byte <= 0x7E for byte in text.encode())


def first(*tests):
    """The word of the first test that fails. A test is a function, since a later one may need what an earlier one makes sure of."""
    return next((word for is_right, word in tests if not is_right()), None)


class NetworkReader:
    """The records of a network text, one after the other."""

    def __init__(self, periods):
        self.periods, self.nodes, self.flows, self.arcs = periods, set(), {}, 0

    def definition(self, names, name):
        return [(lambda: is_name(name), "BadName"), (lambda: name not in names, "Repeated")]

    def count(self, flow):
        """One more arc for each period of a flow, for itself or for a piece."""
        self.arcs += flow.last_period(self.periods)
        return "TooMany" if self.arcs > 100_000 else None

    def node(self, name):
        fault = first(*self.definition(self.nodes, name))
        self.nodes.add(name)
        return fault or ("TooMany" if len(self.nodes) * self.periods > 20_000 else None)

    def supply(self, name, period, amount):
        return first(
            (lambda: name in self.nodes, "NoSuchName"),
            (lambda: period == "*" or is_whole(period) and 1 <= int(period) <= self.periods, "BadPeriod"),
            (lambda: is_amount(amount), "BadNumber"),
        )

    def flow(self, record):
        kind, name, *rest = record
        gain = rest[-4] if kind in ("arc", "hold") else "1"
        lower, upper, cost = rest[-3:]
        ends = rest[:2] if kind == "arc" else rest[:1]
        fault = first(
            *self.definition(self.flows, name),
            *[(lambda end=end: end in self.nodes, "NoSuchName") for end in ends],
            (lambda: is_amount(gain), "BadNumber"),
            (lambda: Fraction(gain) > 0, "BadGain"),
            (lambda: is_amount(lower), "BadNumber"),
            (lambda: upper == "inf" or is_amount(upper), "BadNumber"),
            (lambda: is_amount(cost), "BadNumber"),
            (lambda: len(set(ends)) == len(ends), "SameEnds"),
            (lambda: upper == "inf" or Fraction(lower) <= Fraction(upper), "BadBounds"),
        )
        if fault:
            return fault
        self.flows[name] = Flow(record)
        return self.count(self.flows[name])

    def piece(self, name, width, slope):
        fault = first(
            (lambda: name in self.flows, "NoSuchName"),
            (lambda: width == "inf" or is_amount(width), "BadNumber"),
            (lambda: is_amount(slope), "BadNumber"),
            (lambda: self.flows[name].last_end() is not None, "PieceAfterInfinite"),
            (lambda: width == "inf" or Fraction(width) > 0, "BadBounds"),
            (lambda: Fraction(slope) >= self.flows[name].segments[-1][2], "NotConvex"),
        )
        if fault:
            return fault
        self.flows[name].add_piece(width, slope)
        return self.count(self.flows[name])

    def fault(self, record):
        word, *fields = record
        if word not in DEFINING:
            return "Unknown"
        if len(record) != DEFINING[word]:
            return "FieldCount"
        if word == "end":
            return None
        return {"node": self.node, "supply": self.supply, "piece": self.piece}.get(word, lambda *_: self.flow(record))(*fields)


def network_fault(records, alone):
    """The number of the record with the first fault of a network text, and its word; and how many records it has up to its `end`."""
    head = [
        (lambda: len(records) > 0, (1, "NoEnd")),
        (lambda: records[0] == ["netplan", "1"], (1, "Header")),
        (lambda: len(records) > 1, (2, "NoEnd")),
        (lambda: records[1][0] == "periods", (2, "Header")),
        (lambda: len(records[1]) == 2, (2, "FieldCount")),
        (lambda: is_whole(records[1][1]) and 1 <= int(records[1][1]) <= 20_000, (2, "BadPeriod")),
    ]
    fault = first(*head)
    if fault:
        return fault, 0
    reader = NetworkReader(int(records[1][1]))
    for place, record in enumerate(records[2:], 3):
        word = reader.fault(record)
        if word:
            return (place, word), 0
        if record[0] == "end":
            return ((place + 1, "AfterEnd") if alone and place < len(records) else None), place
    return (len(records) + 1, "NoEnd"), 0


# ---- the first fault of a plan text


def is_whole(text):
    return is_digits(text, 9)


def is_fraction(text):
    parts = text.removeprefix("-").split("/")
    right = [is_digits(p, 39) and int(p) <= LARGEST for p in parts]
    return len(parts) <= 2 and all(right) and (len(parts) == 1 or int(parts[1]) != 0)


def is_past(row, place, operation, left, right):
    checker_row = place in [f"C{k}" for k in range(7)]
    places = {"A8": checker_row, "A3": place == "turn" or is_whole(place), "A7": place == "turn" or is_whole(place)}
    known = row in [f"A{k}" for k in range(1, 9)] and places.get(row, is_whole(place))
    return known and operation in OPERATIONS and is_fraction(left) and is_fraction(right)


class PlanReader:
    """The records of a plan text, one after the other."""

    def __init__(self, network, verdict):
        self.verdict, self.given, self.pivots = verdict, set(), 0
        flows = {f.name: f.last_period(network.periods) for f in network.flows}
        self.lasts = {"flow": flows, "ray": flows, "price": dict.fromkeys(network.nodes, network.periods)}

    def once(self, key, right):
        """A part that may stand once, where its fields are right or not."""
        if not right:
            return "BadNumber"
        if key in self.given:
            return "Repeated"
        self.given.add(key)
        return None

    def amount(self, word, name, period, amount):
        last = self.lasts[word].get(name)
        if last is None:
            return "NoSuchName"
        if not is_whole(period) or not 1 <= int(period) <= last:
            return "BadPeriod"
        return self.once((word, name, int(period)), is_fraction(amount))

    def pivot(self, number, enter, leave, mark):
        right = is_whole(number) and int(number) == self.pivots + 1 <= 1_000_000
        if not (right and is_whole(enter) and is_whole(leave) and mark in ("lower", "upper")):
            return "BadNumber"
        self.pivots += 1
        return None

    def fault(self, record):
        word, *fields = record
        if word not in FIELDS:
            return "Unknown"
        if len(record) != FIELDS[word]:
            return "FieldCount"
        if word in ("cost", "gap"):
            return self.once(word, is_fraction(fields[0]))
        if word in ("arc", "turned"):
            return self.once(word, is_whole(fields[0]))
        if word == "past":
            return self.once(word, is_past(*fields))
        if word == "pivot":
            return self.pivot(*fields)
        if word == "end":
            return "Missing" if NEEDED.get(self.verdict, "end") not in self.given | {"end"} else None
        return self.amount(word, *fields)


def plan_fault(network, records, skipped):
    """The number of the record with the first fault of a plan text behind so many records, and its word; None where there is none."""
    heads = [lambda r: r == ["netplan-plan", "1"], lambda r: len(r) == 2 and r[0] == "verdict" and r[1] in VERDICTS]
    for place, is_right in enumerate(heads):
        if place == len(records):
            return skipped + place + 1, "NoEnd"
        if not is_right(records[place]):
            return skipped + place + 1, "Header"
    reader, ended = PlanReader(network, records[1][1]), False
    for place, record in enumerate(records[2:], 2):
        fault = "AfterEnd" if ended else reader.fault(record)
        if fault is not None:
            return skipped + place + 1, fault
        ended = record[0] == "end"
    return None if ended else (skipped + len(records) + 1, "NoEnd")
