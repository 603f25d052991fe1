"""A network as a linear program for other solvers, and the bases that these find, read from what they write.

A program is written in the LP format of CPLEX, which all of them read. Each solver numbers the columns in the order in which they appear first.
"""
import math
import re
import subprocess
from fractions import Fraction

BASIC_WORDS = {"b": "basic", "u": "upper"}


class NoAnswer(Exception):
    """A solver ended without an answer that can be read."""


class Program:
    """The linear program of the arcs of an expanded network: the amounts of least cost, or, as a first stage, those by which least is
    missing, where each node has an arc of its own for what is missing or left."""

    def __init__(self, arcs, is_first_stage):
        self.arcs, self.is_first = arcs, is_first_stage
        self.count = len(arcs.tail) if is_first_stage else arcs.real
        self.columns, self.seen = [], set()
        self.terms = [[] for _ in range(arcs.nodes)]
        for a in range(self.count):
            if arcs.tail[a] >= 0:
                self.terms[arcs.tail[a]].append((Fraction(1), a))
            if arcs.head[a] >= 0:
                self.terms[arcs.head[a]].append((-arcs.gain[a], a))
        self.rows = [v for v in range(arcs.nodes) if self.terms[v]]

    def price(self, a):
        return self.arcs.cost[a] if not self.is_first else Fraction(a >= self.arcs.real)

    def text(self, is_exact):
        """The program with whole numbers alone, or else with numbers in floating point. For whole numbers a column is counted in parts of a unit
        where its bounds ask for that, and rows are multiplied: that leaves the bases as they are."""
        arcs = self.arcs
        unit = [1] * self.count
        if is_exact:
            unit = [math.lcm(arcs.lower[a].denominator, (arcs.upper[a] or Fraction(0)).denominator) for a in range(self.count)]
        lines = ["Minimize", " cost: " + self.sum_of([(self.price(a), a) for a in range(self.count)], unit, is_exact)[0], "Subject To"]
        for v in self.rows:
            terms, supply = self.sum_of(self.terms[v], unit, is_exact, arcs.supply[v])
            lines.append(f" n{v}: {terms} = {supply}")
        lines.append("Bounds")
        for a in range(self.count):
            upper = "" if arcs.upper[a] is None else f" <= {written(arcs.upper[a] * unit[a], is_exact)}"
            lines.append(f" {written(arcs.lower[a] * unit[a], is_exact)} <= x{a}{upper}")
        return "\n".join(lines + ["End", ""])

    def sum_of(self, terms, unit, is_exact, side=Fraction(0)):
        """A sum and its right side. The columns are noted as they appear."""
        terms = [(x / unit[a], a) for x, a in terms if x != 0]
        factor = math.lcm(side.denominator, *(x.denominator for x, _ in terms)) if is_exact else 1
        words = []
        for x, a in terms or [(Fraction(0), 0)]:
            if a not in self.seen:
                self.seen.add(a)
                self.columns.append(a)
            words.append(f"{'-' if x < 0 else '+'} {written(abs(x * factor), is_exact)} x{a}")
        return "\n  ".join(" ".join(words[k : k + 8]) for k in range(0, len(words), 8)), written(side * factor, is_exact)


def written(value, is_exact):
    if is_exact or value.denominator == 1 and abs(value.numerator) < 10**15:
        return str(value)
    return repr(float(value))


class Found:
    """What a solver found: 'optimal', 'infeasible', 'unbounded' or 'unknown', and where it wrote a basis the columns that are not at their lower
    bound, with 'basic' or 'upper', and the nodes whose rows are basic."""

    def __init__(self, status, columns=None, rows=None):
        self.status, self.columns, self.rows = status, columns, rows

    def marks(self, program):
        """The marks of all arcs, artificial ones too. A node whose row is basic, or which has none, has its artificial arc in the basis."""
        arcs, rows = program.arcs, set(program.rows)
        marks = ["lower"] * len(arcs.tail)
        for a, mark in self.columns.items():
            marks[a] = mark if mark == "basic" or a < arcs.real and arcs.upper[a] is not None else "lower"
        for v in range(arcs.nodes):
            if v not in rows or v in self.rows:
                marks[arcs.real + v] = "basic"
        return marks


def run(words, folder):
    """What a solver prints."""
    try:
        ended = subprocess.run(words, cwd=folder, stdin=subprocess.DEVNULL, stdout=subprocess.PIPE, stderr=subprocess.STDOUT, check=False)
    except OSError as told:
        raise NoAnswer(f"{words[0]} could not be run: {told.strerror}") from None
    return ended.stdout.decode(errors="replace")


def read(folder, name, printed):
    try:
        with open(f"{folder}/{name}", errors="replace") as file:
            return file.read()
    except OSError:
        raise NoAnswer(f"it wrote no {name}; the last that it printed is: {printed.strip()[-300:]}") from None


def number_of(name):
    """The number of a column xA or of a row nV."""
    if not re.fullmatch(r"[xn]\d+", name):
        raise NoAnswer(f"it names {name!r}")
    return int(name[1:])


# ---- esolver of QSopt_ex


def with_esolver(program, folder):
    printed = run(["esolver", "-L", "-O", "solution", "-b", "basis", "network.lp"], folder)
    told = re.search(r"status\s*=?\s*(\w+)", read(folder, "solution", printed))
    status = {"OPTIMAL": "optimal", "INFEASIBLE": "infeasible", "UNBOUNDED": "unbounded"}.get(told[1] if told else "", "unknown")
    return Found(status) if status != "optimal" else mps_basis(program, read(folder, "basis", printed))


def mps_basis(program, text):
    """A basis as in MPS files: what is not named is at its lower bound, of columns, or basic, of rows."""
    columns, rows = {}, set(program.rows)
    for line in text.splitlines():
        words = line.split()
        if words and words[0] in ("XU", "XL") and len(words) == 3:
            # A column has the place of a row in the basis.
            columns[number_of(words[1])] = "basic"
            rows.discard(number_of(words[2]))
        elif words and words[0] == "UL":
            columns[number_of(words[1])] = "upper"
    return Found("optimal", columns, rows)


# ---- glpsol of GLPK


def with_glpsol(program, folder):
    found = glpk_solution(program, folder, [])
    # Its presolver tells no more than that there is no plan, or no least cost.
    return found if found.status == "optimal" else glpk_solution(program, folder, ["--nopresol"])


def glpk_solution(program, folder, more):
    printed = run(["glpsol", "--lp", "network.lp", "-w", "solution"] + more, folder)
    columns, rows, status = {}, set(), "unknown"
    for line in read(folder, "solution", printed).splitlines():
        words = line.split()
        if words[:2] == ["s", "bas"]:
            status = {("f", "f"): "optimal", ("f", "n"): "unbounded"}.get(tuple(words[4:6]), "infeasible" if words[4] in "in" else "unknown")
        elif words[:1] == ["j"] and words[2] in BASIC_WORDS:
            columns[program.columns[int(words[1]) - 1]] = BASIC_WORDS[words[2]]
        elif words[:1] == ["i"] and words[2] == "b":
            rows.add(program.rows[int(words[1]) - 1])
    if "PROBLEM HAS NO PRIMAL FEASIBLE SOLUTION" in printed:
        status = "infeasible"
    elif "PROBLEM HAS UNBOUNDED SOLUTION" in printed or "PROBLEM HAS NO DUAL FEASIBLE SOLUTION" in printed:
        status = "unbounded"
    return Found(status, columns, rows)


# ---- highs


def with_highs(program, folder):
    printed = run(["highs", "--solution_file", "solution", "network.lp"], folder)
    text = read(folder, "solution", printed)
    told = re.search(r"Model status\s*\n\s*(.+)", text) or re.search(r"Model status\s*:\s*(.+)", printed)
    status = {"optimal": "optimal", "infeasible": "infeasible", "unbounded": "unbounded"}.get(told[1].strip().lower() if told else "", "unknown")
    if status != "optimal":
        return Found(status)
    columns = {program.columns[k]: mark for k, mark in highs_basis(text, "Columns").items() if mark in ("basic", "upper")}
    return Found(status, columns, {program.rows[k] for k, mark in highs_basis(text, "Rows").items() if mark == "basic"})


def highs_basis(text, kind):
    """The statuses of the columns or rows in the basis behind a solution: whole numbers, with or without names before them."""
    found = re.search(rf"# Basis.*?# {kind} (\d+)\s*\n([^#]*)", text, re.DOTALL)
    if not found:
        raise NoAnswer("it wrote no basis")
    count, words = int(found[1]), found[2].split()
    codes = words[1::2] if len(words) >= 2 * count else words[:count]
    return {k: {"1": "basic", "2": "upper"}.get(code, "lower") for k, code in enumerate(codes)}


SOLVERS = {"esolver": (with_esolver, True), "glpsol": (with_glpsol, False), "highs": (with_highs, False)}
