#!/usr/bin/env python3
"""Times line programs side by side, on the same lines, and prints a table.

    apt-get install g++ libboost-dev libgeos++-dev gmt-gshhg-full python3-h5py
    taskset -c 1 /usr/bin/python3 scripts/speed.py PROGRAM [NAME=OTHER ..] [--data random:10000,clusters] [--rounds 15]

The programs answer the lines of docs/PROGRAM.md, and run in turn. `Boost` and `GEOS` are programs too: other_trees.cpp beside
this file, built for the run. A cell has PROGRAM's least processor time (user and system) over that of each OTHER, in their
order; in the last column it has peak memory over peak memory, in a load. A dash stands where OTHER has no answer, or where
memory is too little to be told. Seconds and megabytes go to the standard error, and so does the number of answers that
differ. Of `near` the distances are compared.

The boxes of a data set go in one by one, or are loaded and asked a tenth as many lines of a kind. A window lies around a box,
and is so large that some twenty boxes lie there. Half of the places of `near` lie anywhere, half are corners of boxes. With
`--works insert+near` the boxes are inserted, and then asked. `--keep FOLDER` keeps the lines.
"""

import argparse
import os
import random
import resource
import subprocess
import sys
import tempfile
from itertools import zip_longest
from pathlib import Path

HERE = Path(__file__).resolve().parent
SHORES = "/usr/share/gmt-gshhg/binned_GSHHS_f.nc"
HALF = 1_000_000
# In megabytes. A program's peak counts that of the process that starts it, so a lower one cannot be told.
OWN_MEMORY = resource.getrusage(resource.RUSAGE_SELF).ru_maxrss / 1000


def draw_place(source):
    return source.randrange(-HALF, HALF), source.randrange(-HALF, HALF)


def draw_random(source, count):
    """Rectangles of up to 2,000 by 2,000 in a square of 2,000,000."""
    for _ in range(count):
        x, y = draw_place(source)
        yield x, y, x + source.randrange(2000), y + source.randrange(2000)


def draw_clusters(source, count):
    """Around a thousand centres, of which the k-th is drawn 1/k times as often; spreads and sides by power laws too."""
    centres = [(*draw_place(source), min(1000 * source.paretovariate(1), HALF / 4)) for _ in range(1000)]
    for *centre, spread in source.choices(centres, [1 / k for k in range(1, 1001)], k=count):
        lower = [int(source.gauss(at, spread)) for at in centre]
        yield *lower, *(at + int(min(10 * source.paretovariate(1), HALF / 10)) for at in lower)


def draw_nested(source, count):
    """Each lies in an earlier one, and each of its sides is a quarter of that one's at least."""
    boxes = [(-HALF, -HALF, HALF, HALF)]
    while len(boxes) < count:
        x, y, right, top = source.choice(boxes)
        width, height = (source.randint(side // 4, side) for side in (right - x, top - y))
        x, y = source.randint(x, right - width), source.randint(y, top - height)
        boxes.append((x, y, x + width, y + height))
    return boxes


def draw_thin(source, count):
    """Up to 200,000 long and 20 wide, half of them upright."""
    for _ in range(count):
        x, y = draw_place(source)
        width, height = source.choice([(HALF // 5, 20), (20, HALF // 5)])
        yield x, y, x + source.randrange(width), y + source.randrange(height)


def draw_rising(_, count):
    """Points on a line, in their order."""
    return [(at, at, at, at) for at in range(count)]


def draw_equal(_, count):
    """One point."""
    return [(0, 0, 0, 0)] * count


def draw_shores(_, count):
    """Boxes of segments of the world's shorelines, evenly out of all, in degrees times 10**7 from 0 to 360."""
    islands, shores = open_shores()
    pieces = [piece[1:] for piece in islands.pieces(shores)]
    every, passed = sum(len(xs) - 1 for xs, _ in pieces) // count, 0
    for piece in pieces:
        for at in range(-passed % every, len(piece[0]) - 1, every):
            (west, east), (south, north) = (sorted(round(islands.SCALE * end) for end in axis[at : at + 2]) for axis in piece)
            yield west, south, east, north
        passed += len(piece[0]) - 1


def draw_islands(_, count):
    """Boxes of the largest islands, in degrees times 10**7, cut where longitudes turn from 360 to 0."""
    islands, shores = open_shores()
    turn = 360 * islands.SCALE
    for west, south, east, north in islands.boxes(shores, count):
        if east > 0:
            yield max(west, 0), south, east, north
        if west < 0:
            yield west + turn, south, min(east, 0) + turn, north


def open_shores():
    """The reader of shorelines, and those of Debian's gmt-gshhg-full. It needs python3-h5py."""
    sys.path.append(str(HERE.parent / "examples/map"))
    import h5py
    import islands

    return islands, h5py.File(SHORES)


DRAWS = [draw_random, draw_clusters, draw_nested, draw_thin, draw_rising, draw_equal, draw_shores, draw_islands]
DATA = {draw.__name__.removeprefix("draw_"): draw for draw in DRAWS}


def draw_windows(source, boxes, count):
    """Strips of boxes by x are cut into tiles of twenty by y. A window is as large as what the corners of a tile span."""
    boxes, strip, tiles = sorted(boxes), int((20 * len(boxes)) ** 0.5), []
    for first in range(0, len(boxes), strip):
        upward = sorted(boxes[first : first + strip], key=lambda box: box[1])
        tiles += [upward[at : at + 20] for at in range(0, len(upward), 20)]
    for tile in source.choices(tiles, k=count):
        x, y = source.choice(tile)[:2]
        xs, ys = [box[0] for box in tile], [box[1] for box in tile]
        width, height = (max(xs) - min(xs)) // 2, (max(ys) - min(ys)) // 2
        yield x - width, y - height, x + width, y + height


def draw_places(source, boxes, count):
    corners = [box[:2] for box in boxes]
    bounds = [(min(axis), max(axis)) for axis in zip(*corners)]
    for _ in range(count // 2):
        yield tuple(source.randint(*ends) for ends in bounds)
        yield source.choice(corners)


def draw_lines(work, boxes):
    source, asked = random.Random(1), len(boxes) // 10
    rows = ["%d %d %d %d %d" % (number, *box) for number, box in enumerate(boxes)]
    lines = ["insert " + row for row in rows] if work.startswith("insert") else [f"load {len(boxes)}", *rows]
    question = work.removeprefix("insert+")
    if question in ("hit", "in"):
        lines += [question + " %d %d %d %d" % window for window in draw_windows(source, boxes, asked)]
    elif question == "near":
        lines += ["near %d %d 10" % place for place in draw_places(source, boxes, asked)]
    elif question == "remove":
        lines += ["remove " + row for row in source.sample(rows, asked)]
    return lines


def write_lines(data, count, works, folder):
    """Writes the lines in a process of its own, which keeps this one small."""
    if os.fork() == 0:
        boxes = list(DATA[data](random.Random(1), count))[:count]
        for work in works:
            Path(folder, work).write_text("\n".join(draw_lines(work, boxes)) + "\n")
        os._exit(0)
    if os.wait()[1] != 0:
        sys.exit(f"no lines of {data}")


def run(program, lines, answers):
    """Processor seconds and peak megabytes, or None where the program has no answer to a line."""
    with open(lines, "rb") as lines, open(answers, "wb") as answers:
        process = subprocess.Popen([program], stdin=lines, stdout=answers)
    _, status, used = os.wait4(process.pid, 0)
    process.returncode = os.waitstatus_to_exitcode(status)
    if process.returncode not in (0, 2):
        sys.exit(f"{program}: status {process.returncode}")
    return (used.ru_utime + used.ru_stime, used.ru_maxrss / 1000) if process.returncode == 0 else None


def compare(work, ours, theirs):
    """The number of answers, of those that differ, and of theirs with a negative distance."""
    count = differ = negative = 0
    with open(ours, "rb") as ours, open(theirs, "rb") as theirs:
        for mine, other in zip_longest(ours, theirs, fillvalue=b""):
            count += mine != b"ok\n"
            if work.endswith("near"):
                mine, other = ([word.split(b":")[-1] for word in line.split()] for line in (mine, other))
                negative += any(word.startswith(b"-") and word != b"-" for word in other)
            differ += mine != other
    return count, differ, negative


def tell(text):
    print(text, file=sys.stderr, flush=True)


def row(cells):
    print("| " + " | ".join(cells) + " |", flush=True)


def time_work(programs, work, rounds, folder):
    """Of each program its least seconds and megabytes, or None where it has no answer. Tells how many answers differ."""
    ran, answers = [], {name: f"{folder}/answers of {name}" for name in programs}
    for _ in range(rounds):
        ran.append([run(program, f"{folder}/{work}", answers[name]) for name, program in programs.items()])
    first, *_ = programs
    for name, timed in zip(programs, ran[0]):
        count, differ, negative = compare(work, answers[first], answers[name]) if timed else (0, 0, 0)
        if differ:
            tell(f"{work}: of {count} answers of {name} {differ} differ, and {negative} have a negative distance")
    return {name: timed[0] and tuple(map(min, zip(*timed))) for name, timed in zip(programs, zip(*ran))}


def ratios(timed, place, least=0):
    """The first program's figure over each other's; a dash where one has none, or where one is not above the least."""
    ours, *others = (one[place] if one and one[place] > least else None for one in timed.values())
    found = [f"{ours / theirs:.2f}" if ours and theirs else "–" for theirs in others]
    return " / ".join(found) if any(one != "–" for one in found) else ""


def time_data(programs, data, count, works, rounds, keep):
    """Prints a row of the table."""
    cells, memory = [], ""
    with tempfile.TemporaryDirectory() as made:
        folder = Path(keep, data) if keep else made
        os.makedirs(folder, exist_ok=True)
        write_lines(data, count, works, folder)
        for work in works:
            if data == "equal" and work not in ("insert", "load"):
                cells.append("")  # each line would look at all points
                continue
            timed = time_work(programs, work, rounds, folder)
            told = (f"{name} {one[0]:.3f} s {one[1]:.0f} MB" for name, one in timed.items() if one)
            tell(f"{data}, {count:,}, {work}: " + ", ".join(told))
            cells.append(ratios(timed, 0))
            if work == "load":
                memory = ratios(timed, 1, 1.1 * OWN_MEMORY)
    row([f"{data}, {count:,}", *cells, memory])


def build(tree, folder):
    words = ["-std=c++17", "-O3", "-DNDEBUG", "-DUSE_UNSTABLE_GEOS_CPP_API", f"-DTREE={tree}", "-o", f"{folder}/{tree}"]
    subprocess.run(["c++", "-w", *words, HERE / "other_trees.cpp", "-lgeos"], check=True, stderr=subprocess.DEVNULL)
    return f"{folder}/{tree}"


def main():
    parser = argparse.ArgumentParser(description=__doc__, formatter_class=argparse.RawDescriptionHelpFormatter)
    parser.add_argument("programs", nargs="+", metavar="PROGRAM")
    parser.add_argument("--data", default="random,random:1000000,clusters,nested,thin,rising,equal,shores,islands:180000")
    parser.add_argument("--works", default="insert,load,hit,in,near,remove")
    parser.add_argument("--rounds", type=int, default=15)
    parser.add_argument("--keep", metavar="FOLDER")
    chosen = parser.parse_args()
    works = chosen.works.split(",")
    with tempfile.TemporaryDirectory() as folder:
        programs = {}
        for word in chosen.programs:
            name, _, program = word.rpartition("=")
            programs[name or Path(program).name] = build(program, folder) if program in ("Boost", "GEOS") else program
        row([" / ".join(list(programs)[1:]), *works, "memory of a load"])
        row(["---"] * (len(works) + 2))
        for word in chosen.data.split(","):
            data, _, count = word.partition(":")
            time_data(programs, data, int(count or 100_000), works, chosen.rounds, chosen.keep)


if __name__ == "__main__":
    main()
