"""What a fault of a text is, in sentences: the line with its text, which field is wrong and what is expected there, and the nearest known name."""
import csv
import difflib
import io
import re
from fractions import Fraction

from plans import LONGEST_INPUT, decimal, several
from texts import DEFINING, FIELDS, VERDICTS, NetworkReader, PlanReader, Network, is_amount, is_fraction, is_name, is_whole, network_fault, plan_fault

NETWORK_FORMS = {
    "node": "node,N",
    "supply": "supply,N,P,AMOUNT",
    "arc": "arc,NAME,FROM,TO,GAIN,LOWER,UPPER,COST",
    "hold": "hold,NAME,N,GAIN,LOWER,UPPER,COST",
    "drain": "drain,NAME,N,LOWER,UPPER,COST",
    "feed": "feed,NAME,N,LOWER,UPPER,COST",
    "piece": "piece,NAME,WIDTH,SLOPE",
    "end": "end",
}
PLAN_FORMS = {
    "cost": "cost,C",
    "gap": "gap,G",
    "arc": "arc,A",
    "past": "past,ROW,PLACE,OP,LEFT,RIGHT",
    "flow": "flow,NAME,P,X",
    "price": "price,N,P,POTENTIAL",
    "ray": "ray,NAME,P,X",
    "turned": "turned,K",
    "pivot": "pivot,K,ENTER,LEAVE,MARK",
    "end": "end",
}
HINTS = {
    "cost": "an optimal plan needs a record cost,C, and there is none",
    "gap": "an infeasible plan needs a record gap,G, and there is none",
    "arc": "a plan whose budget ended needs a record arc,A, and there is none",
    "past": "a plan that overflowed needs a record past,ROW,PLACE,OP,LEFT,RIGHT, and there is none",
}
NEEDED = {"optimal": "cost", "infeasible": "gap", "budget": "arc", "overflow": "past"}
IMPORT = "tools/import turns what a spreadsheet writes into a network text"


class Lines:
    """Files that are read one behind the other: their records, and where each stands."""

    def __init__(self, files):
        self.files, self.raw, self.where, self.records = files, [], [], []
        for name, data in files:
            text = data.removeprefix(b"\xef\xbb\xbf").decode("latin-1") if not self.raw else data.decode("latin-1")
            lines = text.replace("\r\n", "\n").replace("\r", "\n").split("\n")
            if lines and lines[-1] == "":
                lines.pop()
            self.raw += lines
            self.where += [(name, k) for k in range(1, len(lines) + 1)]
        csv.field_size_limit(LONGEST_INPUT)
        reader, before = csv.reader(io.StringIO("\n".join(self.raw).replace("\0", "\1"), newline="")), 0
        self.places = []
        for record in reader:
            if record:
                self.records.append(record)
                self.places.append(before)
            before = reader.line_num

    def line(self, place):
        """Where the record of a place, from 1, stands."""
        line = self.places[place - 1]
        name, number = self.where[line] if line < len(self.where) else (self.files[-1][0], 0)
        return f"line {number} of {name}"

    def text(self, place):
        return readable(self.raw[self.places[place - 1]])


def readable(text):
    """The text of a line or a field, short, as one reads it where it is UTF-8."""
    try:
        text = text.encode("latin-1").decode()
    except (UnicodeDecodeError, UnicodeEncodeError):
        pass
    text = "".join(letter if letter.isprintable() else "?" for letter in text)
    return text if len(text) <= 120 else text[:117] + "..."


def nearest(word, known):
    """The known name that a word is nearest to, as a question; or nothing."""
    lower = {name.lower(): name for name in reversed(list(known))}
    found = [lower[word.lower()]] if word.lower() in lower else [lower[n] for n in difflib.get_close_matches(word.lower(), lower, 1, 0.6)]
    return f" Is '{readable(found[0])}' meant?" if found and found[0] != word else ""


# ---- numbers and names


def number_words(text, is_plan):
    """Why a text is no number."""
    if text == "":
        return "the field is empty"
    if re.fullmatch(r"-?\d+(\.\d+)?,\d+", text) or re.fullmatch(r"-?\d{1,3}(,\d{3})+(\.\d+)?", text):
        return "a number has no comma: write a point before decimals and nothing between thousands"
    if text.strip() != text:
        return "there is a space beside the number"
    if re.search(r"\d[ '\u00a0]\d", text):
        return "nothing stands between thousands"
    if text.startswith("+"):
        return "a number has no plus sign"
    if re.fullmatch(r"-?\d*\.?\d+[eE][-+]?\d+", text):
        return "powers of ten are written out"
    if text.endswith("%"):
        return "a percentage is written as a decimal: 97 % is 0.97"
    if is_plan:
        if re.fullmatch(r"-?\d+(/\d+)?", text):
            return "it does not fit 128 bits: each part of a fraction is at most 2^127 - 1, of 39 digits" if not text.endswith("/0") else "a fraction over 0 is none"
        return "amounts of a plan are whole numbers or fractions such as 16/3, without a point" if "." in text else "it is no fraction"
    if re.fullmatch(r"-?\d+\.\d{10,}", text):
        return "at most 9 digits stand behind the point; a quotient such as 1/3 is exact"
    if re.fullmatch(r"-?\d{19,}.*", text):
        return "at most 18 digits stand before the point"
    if text.lower().startswith("inf"):
        return "'inf' stands in small letters, and only for an upper bound or a width"
    return "it is no number: a number is written as 12, 0.9 or 1/3"


def name_words(text):
    if text == "":
        return "the name is empty"
    if " " in text:
        return f"a name has no spaces: '{readable(text.replace(' ', '_'))}' would be one"
    if len(text) > 64:
        return f"a name has at most 64 letters, and this one {len(text)}"
    return "a name has letters, digits and signs of ASCII alone, no others as ä or é"


# ---- which field


class Reader:
    """The state of a text before a record: the names so far."""

    def __init__(self, lines, skipped, place):
        """Behind so many records of a network; 0 where the record is one of the network itself."""
        self.lines, self.records = lines, lines.records
        self.is_plan, self.skipped = skipped > 0, skipped
        if self.is_plan:
            self.network = Network(self.records[:skipped])
            self.periods = self.network.periods
            self.nodes, self.flows = list(self.network.nodes), [f.name for f in self.network.flows]
        else:
            self.periods = int(self.records[1][1])
            before = self.records[2 : place - 1]
            self.nodes = [r[1] for r in before if r[0] == "node"]
            self.flows = [r[1] for r in before if r[0] in ("arc", "hold", "drain", "feed")]
        self.reader = self.read(place)

    def read(self, place):
        reader = PlanReader(self.network, self.records[self.skipped + 1][1]) if self.is_plan else NetworkReader(self.periods)
        for record in self.records[self.skipped + 2 : place - 1]:
            reader.fault(record)
        return reader

    def forms(self):
        return PLAN_FORMS if self.is_plan else NETWORK_FORMS

    def kind(self, record, name):
        """What a field is of, by its name in the form of the record."""
        if self.is_plan:
            return {"NAME": "flow", "N": "node", "P": "period", "X": "number", "C": "number", "G": "number", "POTENTIAL": "number", "LEFT": "number", "RIGHT": "number"}.get(name, "word")
        if record[0] == "piece" and name == "NAME":
            return "flow"
        kinds = {"NAME": "new flow", "FROM": "node", "TO": "node", "N": "node", "P": "period", "UPPER": "limit", "WIDTH": "limit"}
        return "new node" if record[0] == "node" else kinds.get(name, "number")

    def is_right(self, kind, field, code):
        if kind in ("new flow", "new node"):
            return is_name(field) if code == "BadName" else field not in (self.flows if kind == "new flow" else self.nodes)
        if kind in ("node", "flow"):
            return field in (self.nodes if kind == "node" else self.flows)
        if kind == "period":
            return is_whole(field) and 1 <= int(field) <= self.periods or field == "*" and not self.is_plan
        if kind == "limit":
            return field == "inf" or is_amount(field)
        return is_fraction(field) if self.is_plan else is_amount(field)

    def faulty(self, record, code):
        """The name, kind and text of the first field that is wrong in this way."""
        of = {"BadName": ("new flow", "new node"), "Repeated": ("new flow", "new node"), "NoSuchName": ("node", "flow"), "BadPeriod": ("period",), "BadNumber": ("number", "limit")}
        fields = [(name, self.kind(record, name), field) for name, field in zip(self.forms()[record[0]].split(",")[1:], record[1:])]
        for name, kind, field in fields:
            if kind in of.get(code, ()) and not self.is_right(kind, field, code):
                return name, kind, field
        return next(((name, kind, field) for name, kind, field in fields if kind == "word" or kind in of.get(code, ())), ("", "", ""))


# ---- sentences


def fault_words(lines, place, code):
    """The sentences that explain a fault of the files."""
    if place == 0:
        return ["The text is too long: an input has at most 16,777,216 bytes, the network and the plan together."]
    found, count = network_fault(lines.records, False)
    skipped = 0 if found else count
    known = found or plan_fault(Network(lines.records[:count]), lines.records[count:], count)
    if code == "AfterEnd" and not found and place == count + 1 and known != (place, code):
        # Of a text that is to be a network alone.
        known = (place, code)
    if known != (place, code):
        return [f"The answer says '{code}' of record {place}, and these files do not have that fault: is it an answer to other files, or have they been changed?"]
    what = "plan" if skipped else "network"
    if code == "NoEnd":
        return no_end(lines, place, what, skipped)
    record = lines.records[place - 1]
    return [f"There is a fault in {lines.line(place)}: {lines.text(place)}"] + list(record_words(lines, skipped, place, code, record))


def no_end(lines, place, what, skipped):
    if place - 1 == skipped:
        return [f"There is no {what}: " + ("behind the network nothing stands. Name the plan's file behind that of the network." if skipped else "the text is empty.")]
    return [f"The {what} ends without its last record: behind {lines.line(place - 1)} a record 'end' is missing. Perhaps the file was cut off."]


def record_words(lines, skipped, place, code, record):
    if code == "Header":
        yield header_words(place - skipped, skipped > 0, record)
        return
    if place == 2:
        yield "The second record is periods,T, where T is how many periods there are, a whole number from 1 to 20,000."
        return
    if code == "AfterEnd":
        yield "It stands behind the record 'end', where nothing may stand."
        return
    reader = Reader(lines, skipped, place)
    if code == "Unknown":
        yield unknown_words(reader, record[0])
    elif code == "FieldCount":
        yield count_words(reader, record)
    elif code in ("BadName", "NoSuchName", "BadPeriod", "BadNumber", "Repeated", "Missing"):
        yield from field_words(reader, record, code, place)
    else:
        yield rule_words(reader, record, code)


def header_words(number, is_plan, record):
    first, second = ("netplan-plan,1", "verdict,WORD") if is_plan else ("netplan,1", "periods,T")
    if number == 1:
        hint = f" {IMPORT}." if not is_plan and re.search(r"[;\t]", "".join(record)) else ""
        return f"A {'plan' if is_plan else 'network'} text begins with the record {first}.{hint}"
    if is_plan:
        return f"The second record of a plan text is {second}, where WORD is one of {', '.join(VERDICTS)}.{nearest(record[1] if len(record) > 1 else '', VERDICTS)}"
    return f"The second record of a network text is {second}, where T is how many periods there are.{nearest(record[0], ['periods'])}"


def unknown_words(reader, word):
    if re.search(r"[;\t]", word):
        return f"The fields of a record are parted by commas, and here by {'semicolons' if ';' in word else 'tabs'}: {IMPORT}."
    if word.strip() != word or word.startswith("#"):
        return f"A record begins with its word: no space, no comment. {IMPORT}."
    if reader.is_plan and word == "verdict":
        return "A plan has one verdict, in its second record."
    words = ", ".join(reader.forms())
    return f"'{readable(word)}' is no kind of record. A {'plan' if reader.is_plan else 'network'} has {words}.{nearest(word, reader.forms())}"


def count_words(reader, record):
    form = reader.forms()[record[0]]
    wanted = (FIELDS if reader.is_plan else DEFINING)[record[0]]
    hint = ""
    if len(record) > wanted and all(field == "" for field in record[wanted:]):
        hint = f" Empty fields at the end count: {IMPORT}."
    elif len(record) > wanted and any(re.fullmatch(r"-?\d+", one) and re.fullmatch(r"\d+", two) for one, two in zip(record, record[1:])):
        hint = f" A comma parts fields, so a decimal has a point, as in 0.9; {IMPORT}."
    return f"A record '{record[0]}' has {several(wanted, 'field')}, {form}, and here {'is' if len(record) == 1 else 'are'} {len(record)}.{hint}"


def field_words(reader, record, code, place):
    if code == "Missing":
        word = NEEDED[reader.reader.verdict]
        yield f"Before this 'end' something is missing: {HINTS[word]}."
        return
    name, kind, field = reader.faulty(record, code)
    shown = f"'{readable(field)}'"
    if code == "BadName":
        yield f"{shown} is no name: {name_words(field)}."
    elif code == "Repeated":
        yield repeated_words(reader, record, kind, field, place)
    elif code == "NoSuchName":
        yield missing_words(reader, kind, field, name, place)
    elif code == "BadPeriod":
        yield period_words(reader, record, shown, field)
    elif kind == "word":
        yield f"One of its words is none that may stand there. It is written as {reader.forms()[record[0]]}; docs/FORMATS.md has the words."
    else:
        more = " or 'inf'" if kind == "limit" else ""
        yield f"{name} is {shown}, and a number{more} is to stand there: {number_words(field, reader.is_plan)}."


def repeated_words(reader, record, kind, field, place):
    if reader.is_plan:
        key = [field.lstrip("0") if k == 2 else field for k, field in enumerate(record[:3])] if len(record) == 4 else record[:1]
        same = lambda r: [field.lstrip("0") if k == 2 else field for k, field in enumerate(r[: len(key)])] == key
        first = next(k for k, r in enumerate(reader.records[reader.skipped :], reader.skipped + 1) if same(r))
        return f"The same part of the plan is given in {reader.lines.line(first)} already."
    what = kind.removeprefix("new ")
    kinds = ("node",) if what == "node" else ("arc", "hold", "drain", "feed")
    first = next(k for k, r in enumerate(reader.records[:place], 1) if r[0] in kinds and r[1:2] == [field])
    return f"A {what} of the name '{readable(field)}' is defined in {reader.lines.line(first)} already: each {what} has a name of its own."


def missing_words(reader, kind, field, name, place):
    known, others = (reader.nodes, reader.flows) if kind == "node" else (reader.flows, reader.nodes)
    where = "the network" if reader.is_plan else "any line before this one"
    if not reader.is_plan:
        kinds = ("node",) if kind == "node" else ("arc", "hold", "drain", "feed")
        later = next((k for k, r in enumerate(reader.records, 1) if k > place and r[0] in kinds and r[1:2] == [field]), None)
        if later:
            return f"The {kind} '{readable(field)}' is defined in {reader.lines.line(later)}, behind its use: move that line up."
    swapped = f" There is a {'flow' if kind == 'node' else 'node'} of this name, but a {kind} is to stand there." if field in others else ""
    return f"There is no {kind} '{readable(field)}' in {where}.{swapped or nearest(field, known)}"


def period_words(reader, record, shown, field):
    if reader.is_plan and is_whole(field) and int(field) == reader.periods:
        return f"A hold has no amount in the last period, {reader.periods}: it would lead out of the plan."
    every = "" if reader.is_plan else ", or '*' for every one"
    periods = f"the periods 1 to {reader.periods}" if reader.periods > 1 else "one period, 1"
    return f"{shown} is no period: the network has {periods}{every}."


def rule_words(reader, record, code):
    """What a record breaks whose fields are all right alone."""
    if code == "BadGain":
        gain = record[4] if record[0] == "arc" else record[3]
        return f"The gain is {gain}, and a gain is above 0: it says how much arrives of each unit that enters."
    if code == "SameEnds":
        return f"The arc leads from '{record[2]}' to itself. What is kept at a node from a period to the next is a 'hold'."
    if code == "BadBounds" and record[0] != "piece":
        return f"The lower bound, {record[-3]}, is above the upper bound, {record[-2]}."
    if code == "BadBounds":
        return f"The width of a piece is above 0, and this one is {record[2]}."
    if code == "PieceAfterInfinite":
        return f"The flow '{record[1]}' has no upper bound so far, so no piece can lie beyond it. Give it an upper bound where this piece begins."
    if code == "NotConvex":
        before = reader.reader.flows[record[1]].segments[-1][2]
        return f"The piece costs {record[3]} a unit, less than the {decimal(before)} before it: costs of a flow rise or stay, since cheaper units would be used first."
    return "With it the network is too large: it has at most 20,000 nodes and 100,000 arcs, counted over all periods."
