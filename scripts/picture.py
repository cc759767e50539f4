#!/usr/bin/env python3
"""Draws a stored tree as SVG: each parent's box in the colour of its level, each point as a dot.

    out/rstar_run pack < points | scripts/picture.py > tree.svg        from the standard library alone
    scripts/picture.py --places 2000 > points                          so many places around forty towns, always the same

The bytes are those of docs/DEFINITIONS.md, `Spells`; `unpack` checks them, and this draws what they say. Below
stands how many parents each level has, from the root down, in its colour.
"""

import random
import struct
import sys

SIDE = 800
COLOURS = ["#1b6ca8", "#c0392b", "#1e8449", "#8e44ad", "#b9770e", "#2c3e50"]


def numbers(data, at, form):
    return struct.unpack_from("<" + form, data, at), at + struct.calcsize("<" + form)


def nodes(data, at, level, boxes, points):
    """Reads a node with so many levels of parents from a place on; gives the place behind it."""
    if level == 0:
        point, at = numbers(data, at, "2q")
        points.append(point)
        return at
    (count, *box), at = numbers(data, at, "Q4q")
    boxes.append((level, box))
    for _ in range(count):
        at = nodes(data, at, level - 1, boxes, points)
    return at


def tree(data):
    """The height of the tree, its parents' boxes with their levels, and its points."""
    boxes, points = [], []
    (_count, height), at = numbers(data, 4, "QB")
    if height:
        nodes(data, at, height, boxes, points)
    return height, boxes, points


def drawing(data):
    height, boxes, points = tree(data)
    if not boxes:
        return f'<svg xmlns="http://www.w3.org/2000/svg" viewBox="0 0 {SIDE} {SIDE}"/>'
    left, low, right, high = boxes[0][1]
    scale = (SIDE - 20) / max(right - left, high - low, 1)

    def place(x, y):
        return 10 + (x - left) * scale, SIDE - 10 - (y - low) * scale

    lines = [f'<svg xmlns="http://www.w3.org/2000/svg" viewBox="0 0 {SIDE} {SIDE + 24}">']
    lines += ['<rect width="100%" height="100%" fill="white"/>', '<g fill="#999">']
    for point in points:
        x, y = place(*point)
        lines.append(f'<circle cx="{x:.1f}" cy="{y:.1f}" r="1.5"/>')
    lines += ["</g>", '<g fill="none">']
    # Lower levels first, so that the boxes around them are drawn over theirs.
    for level, (x1, y1, x2, y2) in sorted(boxes, key=lambda box: box[0]):
        (x, bottom), (end, top) = place(x1, y1), place(x2, y2)
        colour = COLOURS[(level - 1) % len(COLOURS)]
        width = 0.6 + 0.7 * (level - 1)
        size = f'width="{end - x:.1f}" height="{bottom - top:.1f}"'
        lines.append(f'<rect x="{x:.1f}" y="{top:.1f}" {size} stroke="{colour}" stroke-width="{width:.1f}"/>')
    lines += ["</g>", f'<text x="10" y="{SIDE + 12}" font-family="sans-serif" font-size="13">']
    lines += [f"{len(points)} points; parents"]
    for level in range(height, 0, -1):
        colour = COLOURS[(level - 1) % len(COLOURS)]
        count = sum(1 for of, _ in boxes if of == level)
        lines.append(f'<tspan dx="6" fill="{colour}">{count}</tspan>')
    return "\n".join([*lines, "</text>", "</svg>"])


def places(count):
    draw = random.Random(1990)
    towns = [(draw.uniform(-1e6, 1e6), draw.uniform(-1e6, 1e6), draw.uniform(1e4, 1.5e5)) for _ in range(40)]
    for _ in range(count):
        x, y, wide = draw.choice(towns)
        yield f"{draw.gauss(x, wide):.0f} {draw.gauss(y, wide):.0f}"


if __name__ == "__main__":
    if sys.argv[1:2] == ["--places"]:
        print("\n".join(places(int(sys.argv[2]))))
    else:
        print(drawing(sys.stdin.buffer.read()))
