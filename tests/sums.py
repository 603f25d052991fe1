"""Exact operations that tell where a result does not fit 128 bits, and the sums that the checker and the finished plan make with them (rows C0, C1,
C2 and C4 to C6 of docs/FORMATS.md), in plain Python.
"""
from fractions import Fraction
from math import lcm

from texts import LARGEST, lesser


class Overflow(Exception):
    """An operation that does not fit, with its operands, and the row that it stands in once that is known."""

    def __init__(self, operation, left, right):
        super().__init__(operation, left, right)
        self.row, self.past = None, (operation, left, right)


def are_parts(*numbers):
    return all(abs(number) <= LARGEST for number in numbers)


def fits(number):
    return are_parts(number.numerator, number.denominator)


def is_sum(left, right):
    """Whether the least common denominator, both numerators over it and their sum fit."""
    common = lcm(left.denominator, right.denominator)
    first, second = left.numerator * (common // left.denominator), right.numerator * (common // right.denominator)
    return are_parts(common, first, second, first + second)


def plus(left, right):
    if not is_sum(left, right):
        raise Overflow("plus", left, right)
    return left + right


def minus(left, right):
    if not is_sum(left, -right):
        raise Overflow("minus", left, right)
    return left - right


def times(left, right):
    if not fits(left * right):
        raise Overflow("times", left, right)
    return left * right


def over(left, right):
    if not fits(left / right):
        raise Overflow("over", left, right)
    return left / right


def in_row(row, call, *operands):
    """What a call finds, or the operation that overflows in it, told as one of a row."""
    try:
        return call(*operands)
    except Overflow as told:
        told.row = row
        raise


# ---- a reduced cost


def reduced_cost(tail_price, head_price, gain, slope):
    """That of a link, or of a drain or a feed, where a price is None. The first operand of a sum is the left one."""
    if head_price is None:
        return minus(slope, tail_price)
    if tail_price is None:
        return plus(slope, head_price)
    product = times(gain, head_price)
    return plus(minus(slope, tail_price), product)


# ---- the checker's sums


def gathered(flows):
    """C0: the amount of a staged arc from those of its segments."""
    running = flows[0]
    for flow in flows[1:]:
        running = plus(running, flow)
    return running


class Balances:
    """C1 and C6: what flows out of each place, less what comes in, over the flows in order. A place whose sum overflows keeps the first operation
    that does."""

    def __init__(self, places):
        self.sums = {place: Fraction(0) for place in places}

    def change(self, place, step, *operands):
        running = self.sums[place]
        if not isinstance(running, Overflow):
            try:
                self.sums[place] = step(running, *operands)
            except Overflow as told:
                self.sums[place] = told

    def at(self, place):
        if isinstance(self.sums[place], Overflow):
            raise self.sums[place]
        return self.sums[place]

    def add(self, tail, head, gain, amount):
        if tail is not None:
            self.change(tail, plus, amount)
        if head is not None:
            self.change(head, lambda running: minus(running, amount if tail is None else times(gain, amount)))


def ends_of(upper, widths):
    """C2: the ends of a flow's segments, as far as they are finite; None for infinite, which is the last one."""
    ends = [upper]
    for width in widths:
        if ends[-1] is None:
            break
        ends.append(None if width is None else plus(ends[-1], width))
    return ends


def add_cost(running, segments, amount):
    """C4: the running cost with that of an amount, by its segments: where each begins and ends, and its slope."""
    start, end, slope = segments[0]
    running = plus(running, times(slope, lesser(amount, end)))
    for start, end, slope in segments[1:]:
        if start < amount:
            running = plus(running, times(slope, minus(lesser(amount, end), start)))
    return running


def add_gap(running, reduced, lower, last_end):
    """C5: the running gap with the worth of a flow at its reduced cost by slope 0."""
    if reduced == 0:
        return running
    return plus(running, times(reduced, lower if reduced > 0 else last_end))


def add_product(running, left, right):
    """C5 and C6: a running sum with a product more."""
    return plus(running, times(left, right))
