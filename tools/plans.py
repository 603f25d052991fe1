"""What the tools share: network texts and plan texts, read and written, short decimals, and the words of a verdict.

The grammar of the texts is that of tests/texts.py. Whether a plan is right is not looked at: `netplan check` tells that.
"""
import csv
import os
import re
import sys
from fractions import Fraction

sys.dont_write_bytecode = True
sys.path.insert(0, os.path.join(os.path.dirname(os.path.dirname(os.path.abspath(__file__))), "tests"))
from texts import LARGEST, LONGEST_INPUT, Network, Plan, network_fault, plan_fault, records_of

# Newer versions of Python read and write no whole numbers of more than 4,300 digits without this.
if hasattr(sys, "set_int_max_str_digits"):
    sys.set_int_max_str_digits(0)

# A fraction that may not fit 128 bits.
LONG = re.compile(r"^-?(?=[0-9/]{40})[0-9]+(?:/0*[1-9][0-9]*)?$")
REFUSED = 5  # the status of a text with a fault, as of the program
UNREADABLE = 66  # and of a file that cannot be read, as of the launcher


# ---- reading


def say(text):
    print(f"{os.path.basename(sys.argv[0])}: {text}", file=sys.stderr)


def stop(status, text):
    say(text)
    sys.exit(status)


def refuse(place, word):
    stop(REFUSED, f"fault in record {place}: {word}")


def bytes_of(path):
    """The bytes of a file, or of standard input for '-'."""
    if path == "-":
        return sys.stdin.buffer.read(LONGEST_INPUT + 1)
    try:
        with open(path, "rb") as file:
            return file.read(LONGEST_INPUT + 1)
    except OSError as told:
        stop(UNREADABLE, f"{path}: {told.strerror}")


def joined(texts):
    """Texts one behind the other, as `./netplan` puts files: each begins on a line of its own."""
    whole = b""
    for text in texts:
        whole += (b"\n" if whole and not whole.endswith(b"\n") else b"") + text
    return whole


def read_plan(paths=()):
    """The network and the plan of the files, or of standard input. A fault is told on standard error by its record and word, with the
    status 5."""
    network, records = read_texts(joined(map(bytes_of, paths or ["-"])))
    return network, Plan(records)


def read_network(path):
    """The network of a file, behind which nothing stands."""
    records = records_within(bytes_of(path))
    fault, count = network_fault(records, True)
    if fault:
        refuse(*fault)
    return Network(records[:count])


def read_texts(data):
    """The network of an input, and the records of the plan text behind it."""
    records = records_within(data)
    fault, count = network_fault(records, False)
    if fault:
        refuse(*fault)
    network = Network(records[:count])
    return network, faultless(network, records[count:], count)


def read_answer(network, path):
    """The records of the plan text of a file."""
    return faultless(network, records_within(bytes_of(path)), 0)


def faultless(network, records, skipped):
    """The records of a plan text behind so many others, as they are. Numbers of any length are taken, since tools/finish prints such."""
    fault = plan_fault(network, [[LONG.sub("0", field) for field in record] for record in records], skipped)
    if fault:
        refuse(*fault)
    return records


def records_within(data):
    if len(data) > LONGEST_INPUT:
        refuse(0, "TooLong")
    return records_of(data)


def pivots_of(records):
    """The log of a plan text: which arc enters, which leaves, and where that comes to rest."""
    return [(int(r[2]), int(r[3]), r[4]) for r in records if r[0] == "pivot"]


# ---- writing


def write(records, file=None):
    csv.writer(file or sys.stdout, lineterminator="\n").writerows(records)


def made_plan(verdict, single, amounts):
    """A plan that no text was read of: what stands in it once, and amounts by kind, name and period."""
    plan = Plan([["netplan-plan", "1"], ["verdict", verdict]])
    plan.single, plan.amounts = {word: str(value) for word, value in single.items()}, amounts
    return plan


def places_of(network, word):
    """The names and periods of which a plan has such amounts, in their order."""
    return [(n, t) for t, n in network.supply] if word == "price" else [(f.name, t) for t, f in network.staged()]


def amount_records(network, plan, *kinds):
    return [[word, name, t, plan.of(word, name, t)] for word in kinds for name, t in places_of(network, word)]


def plan_records(network, plan):
    """The records of a plan that certifies something, in the order in which the program writes them."""
    kinds = {"optimal": ("flow", "price"), "infeasible": ("price",), "unbounded": ("flow", "ray")}[plan.verdict]
    single = [[word, value] for word, value in plan.single.items()]
    return [["netplan-plan", "1"], ["verdict", plan.verdict]] + single + amount_records(network, plan, *kinds) + [["end"]]


def log_records(pivots, turned):
    """The log of so many pivots, and behind how many of them the second stage began, or None."""
    return ([] if turned is None else [["turned", turned]]) + [["pivot", k, *pivot] for k, pivot in enumerate(pivots, 1)]


def fits(value):
    """Whether a fraction fits the 128 bits of the program."""
    return abs(value.numerator) <= LARGEST and value.denominator <= LARGEST


# ---- decimals


def exponent_of(size):
    """The power of ten at or below a size above 0."""
    exponent = len(str(size.numerator)) - len(str(size.denominator))
    return exponent if Fraction(10) ** exponent <= size else exponent - 1


def plain(value, places):
    """A fraction that has at most so many decimals, with those that it needs."""
    digits = str(abs(value * 10**places).numerator).rjust(places + 1, "0")
    whole, decimals = digits[: len(digits) - places], digits[len(digits) - places :].rstrip("0")
    return ("-" if value < 0 else "") + whole + ("." + decimals if decimals else "")


def decimal(value):
    """A fraction as a short decimal, with ~ before it where that is rounded: four digits at least, and a power of ten where it is very
    large or very small."""
    value = Fraction(value)
    if value == 0:
        return "0"
    exponent = exponent_of(abs(value))
    if -6 <= exponent < 9:
        places = max(3, 3 - exponent)
        rounded, power = round(value, places), ""
        text = plain(rounded, places)
    else:
        mantissa = round(value / Fraction(10) ** exponent, 3)
        if abs(mantissa) == 10:
            mantissa, exponent = mantissa / 10, exponent + 1
        rounded = mantissa * Fraction(10) ** exponent
        text = f"{plain(mantissa, 3)}e{exponent}"
    return ("" if rounded == value else "~") + text


# ---- words


def bounds(flow):
    """The bounds of a flow, all its pieces counted."""
    end = flow.last_end()
    return f"{decimal(flow.lower)} " + ("and more" if end is None else f"to {decimal(end)}")


def arc_words(network, number):
    """What an arc of the expanded network is, by its number."""
    for period, flow in network.staged():
        if number < len(flow.segments):
            piece = f", piece {number}" if number else ""
            return f"{flow.name} in period {period}{piece}"
        number -= len(flow.segments)
    return "an arc that the network does not have"


def node_words(network, number):
    period, place = divmod(number, max(1, len(network.nodes)))
    return f"{network.nodes[place]} in period {period + 1}" if period < network.periods and network.nodes else "a node that the network does not have"


def overflow_words(network, row, place, operation, left, right):
    """The two lines that tell which operation overflows."""
    if row == "A1":
        where = node_words(network, int(place))
    elif place == "turn":
        where = "the change of stage"
    else:
        where = arc_words(network, int(place)) if row != "A8" else f"row {place} of the walk"
    return [f"overflow: an operation of row {row} does not fit 128 bits, at {where}:", f"{left} {operation} {right}"]


def headline(network, plan):
    """The verdict in a line or two."""
    if plan.verdict == "optimal":
        return [f"optimal: cost {with_exact(plan.single['cost'])}"]
    if plan.verdict == "infeasible":
        return [f"infeasible: there is no plan, by a gap of {with_exact(plan.single['gap'])}"]
    if plan.verdict == "unbounded":
        return ["unbounded: along the ray the cost falls without end"]
    if plan.verdict == "budget":
        return [f"budget: ended after {several(plan.pivots, 'pivot')}; {arc_words(network, int(plan.ended['arc'][0]))} may still enter"]
    return overflow_words(network, *plan.ended["past"])


def several(count, word):
    return f"{count} {word}" + ("" if count == 1 else "s")


def with_exact(text):
    """A decimal, and the fraction behind it where the decimal is rounded."""
    value = Fraction(text)
    short = decimal(value)
    return f"{short} ({value})" if short.startswith("~") else short
