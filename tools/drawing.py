"""The elements of a picture, as SVG."""
import xml.etree.ElementTree as ET
from fractions import Fraction

from labels import RAY_SPACE, SQUARE
from layout import CORNER
from plans import plain

WIDEST = 12
STYLE = """
text { font-family: 'DejaVu Sans', Verdana, Arial, sans-serif; font-size: 12px; fill: #222 }
.verdict { font-size: 17px; font-weight: bold }
.period { font-size: 14px; fill: #555 }
.name { font-size: 13px; font-weight: bold }
.full { font-weight: bold }
.certifying { font-weight: bold; fill: #8a1c62 }
.bound { font-weight: bold; fill: #8a1c62; text-decoration: underline }
.raytext { fill: #a04000 }
.node { fill: #fff; stroke: #333; stroke-width: 1.2 }
.supply { fill: #e2eef8 }
.need { fill: #fbe6c8; stroke-width: 2.4 }
.flow { fill: none; stroke: #0072b2 }
.ray { fill: none; stroke: #d55e00; stroke-dasharray: 9 3 }
.idle { fill: none; stroke: #777; stroke-dasharray: 2 3 }
.binding { stroke: #8a1c62; stroke-dasharray: none }
.flowhead { fill: #0072b2 }
.rayhead { fill: #d55e00 }
.idlehead { fill: #777 }
.bindinghead { fill: #8a1c62 }
.ground { fill: #fff }
.under { fill: #fff; fill-opacity: 0.85 }
.square { fill: #fff; stroke: #333; stroke-width: 1 }
.filled { fill: #333 }
"""


def number(value):
    return str(value) if isinstance(value, int) else plain(round(Fraction(value), 2), 2)


def add(parent, kind, text=None, **attributes):
    """An element in another one. A number is written as a decimal; `kind_` stands for `class`, and `a_b` for `a-b`."""
    names = {"kind_": "class"}
    written = {names.get(k, k.replace("_", "-")): v if isinstance(v, str) else number(v) for k, v in attributes.items()}
    element = ET.SubElement(parent, kind, written)
    element.text = text
    return element


def canvas(width, height, title, description):
    """An empty picture with its title and what it shows, for those who can't see it."""
    sizes = {"viewBox": f"0 0 {number(width)} {number(height)}", "width": number(width), "height": number(height)}
    svg = ET.Element("svg", {"xmlns": "http://www.w3.org/2000/svg", **sizes, "role": "img", "aria-labelledby": "title desc"})
    add(svg, "title", title, id="title")
    add(svg, "desc", description, id="desc")
    add(svg, "style", STYLE)
    add(svg, "rect", kind_="ground", x=0, y=0, width=width, height=height)
    return svg


def node_kind(supply):
    return "node supply" if supply > 0 else "node need" if supply < 0 else "node"


def draw_line(parent, kind, line, wide):
    """A line of a kind, so wide, with a head where it ends."""
    x, y, heading = line.end
    long, half = 7 + wide / 3, 3 + wide / 2
    start, (end_x, end_y) = line.start, (x - heading * (long - 1), y)
    if line.lane is None:
        path = f"M{number(start[0])},{number(start[1])} "
        if line.broken:
            (out_x, _), (in_x, in_y) = line.broken
            path += f"H{number(out_x)} M{number(in_x)},{number(in_y)} "
        path += f"H{number(end_x)}"
    else:
        path = bent(start, line.lane, line.outward, end_x, end_y)
    add(parent, "path", kind_=kind, d=path, stroke_width=wide)
    head = [(x, y), (x - heading * long, y - half), (x - heading * long, y + half)]
    add(parent, "polygon", kind_=kind.split(" ")[-1] + "head", points=" ".join(f"{number(a)},{number(b)}" for a, b in head))


def bent(start, lane, outward, end_x, end_y):
    """A path from the side of a box to a lane, along it, and back to the side of another box, with round corners."""
    x, y, _ = start
    down = 1 if end_y > y else -1
    corner = min(CORNER, abs(end_y - y) / 2)
    bend = number(lane - outward * corner)
    turn = f"H{bend} Q{number(lane)},{number(y)} {number(lane)},{number(y + down * corner)}"
    back = f"V{number(end_y - down * corner)} Q{number(lane)},{number(end_y)} {bend},{number(end_y)}"
    return f"M{number(x)},{number(y)} {turn} {back} H{number(end_x)}"


def draw_squares(parent, x, y, shares):
    """A square for each segment of a flow, filled from below as far as it is used."""
    for k, share in enumerate(shares):
        left, top, size = x + k * SQUARE, y - 9, SQUARE - 1
        add(parent, "rect", kind_="square", x=left, y=top, width=size, height=size)
        if share > 0:
            add(parent, "rect", kind_="filled", x=left, y=top + size * (1 - share), width=size, height=size * share)


def draw_label(parent, x, y, leads_right, label, title):
    """The words of a flow, which begin or end at x on the line y, its squares next to it, and the exact amount as a title."""
    group = add(parent, "g", kind_="label")
    add(group, "title", title)
    wide = label.width()
    add(group, "rect", kind_="under", x=x if leads_right else x - wide, y=y - 11, width=wide, height=15)
    way = 1 if leads_right else -1
    draw_squares(group, x if leads_right else x - label.squares_width() + 4, y, label.squares)
    anchor = {} if leads_right else {"text-anchor": "end"}
    text = add(group, "text", label.text, x=x + way * label.squares_width(), y=y, kind_="bound" if label.binds else "full" if label.is_bold else "words", **anchor)
    if label.ray:
        add(text, "tspan", label.ray, kind_="raytext", dx=RAY_SPACE)
