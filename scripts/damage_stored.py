#!/usr/bin/env python3
"""Damages stored trees at random, and compares what the program reads of them with a reader of the format.

    scripts/damage_stored.py                                  builds the program, as proved, and tries 4,000 cases
    scripts/damage_stored.py --cases 20000 --seed 7 --program PATH

Whole trees come from `pack`, and from a maker of trees of any shape; some are left whole. The reader below takes nothing
from the library: it tells the first fault in the order that the format states, or the points. The last line has the
figures; a case that differs is printed, and the status is 1.
"""

import argparse
import random
import subprocess
import sys
from collections import Counter
from pathlib import Path

ROOT = Path(__file__).resolve().parent.parent
MAGIC = b"RST1"
LOW, HIGH = -(2**63), 2**63 - 1


# ---- the reader


class Fault(Exception):
    """The name of the first fault."""


class Reader:
    """Bytes, and how many of them were read."""

    def __init__(self, data):
        self.data = data
        self.at = 0

    def take(self, count):
        part = self.data[self.at : self.at + count]
        if len(part) < count:
            raise Fault("Truncated")
        self.at += count
        return part

    def number(self):
        return int.from_bytes(self.take(8), "little")

    def point(self):
        x, y = self.take(8), self.take(8)
        return int.from_bytes(x, "little", signed=True), int.from_bytes(y, "little", signed=True)

    def left(self):
        return len(self.data) - self.at


def merged(boxes):
    """The least box around some boxes; a box is its lower and its upper corner."""
    return (
        (min(b[0][0] for b in boxes), min(b[0][1] for b in boxes)),
        (max(b[1][0] for b in boxes), max(b[1][1] for b in boxes)),
    )


def read_node(reader, height, points):
    """The box of a node with so many levels of parents; its points are put behind a list."""
    if height == 0:
        point = reader.point()
        points.append(point)
        return point, point
    count = reader.number()
    if count == 0:
        raise Fault("BadLevel")
    if reader.left() < 32 + 16 * count:
        raise Fault("Truncated")
    box = reader.point(), reader.point()
    if merged([read_node(reader, height - 1, points) for _ in range(count)]) != box:
        raise Fault("BadBox")
    return box


def read(data):
    """The points that the bytes spell, ascending."""
    reader = Reader(data)
    if reader.take(4) != MAGIC:
        raise Fault("BadMagic")
    count = reader.number()
    height = reader.take(1)[0]
    if height > 64:
        raise Fault("BadLevel")
    points = []
    if height > 0:
        read_node(reader, height, points)
    if len(points) != count:
        raise Fault("BadCount")
    if reader.left():
        raise Fault("Trailing")
    return sorted(points)


def wanted(data):
    """What `unpack` prints of the bytes, and its status."""
    try:
        return lines_of(read(data)), 0
    except Fault as fault:
        return f"error: {fault}\n".encode(), 2


def lines_of(points):
    return "".join(f"{x} {y}\n" for x, y in points).encode()


# ---- whole trees


def spell(value):
    return (value % 2**64).to_bytes(8, "little")


def spell_point(point):
    return spell(point[0]) + spell(point[1])


def random_point(rng):
    side = rng.choice((3, 100, 2**40))
    return tuple(
        rng.choice((LOW, HIGH)) if rng.random() < 0.02 else rng.randint(-side, side) for _ in range(2)
    )


def random_points(rng, count):
    return [random_point(rng) for _ in range(count)]


def make_node(rng, height, most):
    """The bytes of a node with so many levels of parents, its box, and how many points it has."""
    if height == 0:
        point = random_point(rng)
        return spell_point(point), (point, point), 1
    count = rng.randint(1, most) if height < 5 else 1
    parts = [make_node(rng, height - 1, most) for _ in range(count)]
    box = merged([part[1] for part in parts])
    head = spell(count) + spell_point(box[0]) + spell_point(box[1])
    return head + b"".join(part[0] for part in parts), box, sum(part[2] for part in parts)


def make_tree(rng):
    """The bytes of a tree of any shape, which may be as high as the format allows."""
    height = rng.choice((0, 1, 1, 2, 2, 3, 4, 7, 64))
    if height == 0:
        return MAGIC + spell(0) + b"\0"
    data, _, count = make_node(rng, height, rng.choice((1, 2, 4)))
    return MAGIC + spell(count) + bytes([height]) + data


# ---- damage


def turn_bits(rng, data):
    for _ in range(rng.randint(1, 3)):
        if data:
            data[rng.randrange(len(data))] ^= 1 << rng.randrange(8)


def cut(rng, data):
    del data[rng.randrange(len(data) + 1) :]


def put_in(rng, data):
    at = rng.randrange(len(data) + 1)
    data[at:at] = rng.randbytes(rng.choice((1, 8, 16, 40)))


def add(rng, data):
    data += rng.randbytes(rng.choice((1, 8, 16)))


def take_out(rng, data):
    at = rng.randrange(len(data) + 1)
    del data[at : at + rng.choice((1, 8, 16, 40))]


def change_number(rng, data):
    """Another number where one stands: a child count, a coordinate of a box or of a leaf."""
    places = range(13, len(data) - 7, 8)
    if places:
        at = rng.choice(places)
        old = int.from_bytes(data[at : at + 8], "little")
        news = (0, 1, old + 1, old - 1, old * 2, old + 2**56, 2**60, 2**63, 2**64 - 1)
        data[at : at + 8] = spell(rng.choice(news))


def change_count(rng, data):
    count = int.from_bytes(data[4:12], "little")
    data[4:12] = spell(rng.choice((0, count + 1, count - 1, count + 2**32, 2**64 - 1)))


def change_height(rng, data):
    data[12:13] = bytes([rng.choice((0, 1, 2, 3, 63, 64, 65, 255))])


def turn_points(rng, data):
    """Two pieces of sixteen bytes change places."""
    if len(data) >= 13 + 32:
        one, other = (13 + 8 * rng.randrange((len(data) - 13 - 16) // 8 + 1) for _ in range(2))
        if abs(one - other) >= 16:
            data[one : one + 16], data[other : other + 16] = data[other : other + 16], data[one : one + 16]


DAMAGES = (turn_bits, cut, put_in, add, take_out, change_number, change_count, change_height, turn_points)


def damaged(rng, whole):
    data = bytearray(whole)
    for _ in range(rng.choice((0, 1, 1, 1, 1, 1, 2, 3))):
        rng.choice(DAMAGES)(rng, data)
    return bytes(data)


# ---- the program


def run(program, word, data):
    done = subprocess.run([program, word], input=data, stdout=subprocess.PIPE, timeout=60)
    return done.stdout, done.returncode


def packed(program, points):
    """The bytes that `pack` writes of the points, which must spell them."""
    data, status = run(program, "pack", lines_of(points))
    if status != 0 or read(data) != sorted(points):
        sys.exit(f"pack of {points}: status {status}, {data.hex()}")
    return data


def built():
    crate = ROOT / "crates" / "rstar_run"
    subprocess.run(["rt", "run"], cwd=crate, check=True, stdin=subprocess.DEVNULL, stdout=subprocess.DEVNULL)
    return str(crate / "out" / "rstar_run")


def main():
    parser = argparse.ArgumentParser()
    parser.add_argument("--cases", type=int, default=4000)
    parser.add_argument("--seed", type=int, default=1)
    parser.add_argument("--program")
    asked = parser.parse_args()
    rng = random.Random(asked.seed)
    program = asked.program or built()
    counts = (0, 1, 2, 6, 7, 25, 26, 60, 300)
    loads = [packed(program, random_points(rng, count)) for count in counts]
    told = Counter()
    for case in range(asked.cases):
        whole = rng.choice(loads) if rng.random() < 0.5 else make_tree(rng)
        data = damaged(rng, whole)
        want = wanted(data)
        got = run(program, "unpack", data)
        if got != want:
            print(f"case {case} of {data.hex()}: {got}, wanted {want}", file=sys.stderr)
            return 1
        told["read" if want[1] == 0 else want[0].decode().split()[1]] += 1
    figures = ", ".join(f"{count} {name}" for name, count in sorted(told.items()))
    print(f"{len(loads)} trees packed and read, {asked.cases} cases: {figures}; all as they should be")
    return 0


if __name__ == "__main__":
    sys.exit(main())
