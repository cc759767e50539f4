"""The command `python3 -m vaikrone`: questions as words, answers as lines of JSON."""

import argparse
import json
import sys

from boxes import Boxes
from degrees import Degrees, Whole, whole
from files import read
from vaikrone import PROGRAM, Progress, Refused

# Of each word: the method, and its arguments: an ID, a box, a point, a square of a distance, or a count.
WORDS = {
    "insert": ("insert", ["ID", "BOX"]),
    "move": ("move", ["ID", "BOX"]),
    "remove": ("remove", ["ID"]),
    "in": ("inside", ["BOX"]),
    "hit": ("hit", ["BOX"]),
    "at": ("at", ["POINT"]),
    "within": ("within", ["POINT", "SQUARE"]),
    "near": ("near", ["POINT", "COUNT"]),
    "near-within": ("near", ["POINT", "COUNT", "SQUARE"]),
    "pairs": ("pairs", []),
    "size": ("__len__", []),
    "removeat": ("remove_at", ["POINT"]),
    "pop": ("pop", ["POINT"]),
    "drain in": ("drain_inside", ["BOX", "COUNT"]),
    "drain hit": ("drain_hit", ["BOX", "COUNT"]),
}
LENGTHS = {"BOX": 4, "POINT": 2}


def usage():
    shown = {"BOX": "X1 Y1 X2 Y2", "POINT": "X Y"}
    lines = [" ".join([word, *(shown.get(it, it) for it in kinds)]) for word, (_, kinds) in WORDS.items()]
    return "questions and changes:\n  " + "\n  ".join(lines) + (
        "\n\nSQUARE is the square of a distance. Without words each line of the input is a question. Each answer is a line of\n"
        "JSON: rectangles as [ID, [X1, Y1, X2, Y2]], `near` with the squared distance behind, a refusal as {\"error\": ..}."
    )


def asked(boxes, words, units):
    """The answer to a question's words."""
    length = 2 if words[0] == "drain" else 1
    word, rest, arguments = " ".join(words[:length]), words[length:], []
    if word not in WORDS:
        raise ValueError(f"{word!r} is none of {', '.join(WORDS)}")
    name, kinds = WORDS[word]
    readers = {"ID": whole, "COUNT": whole, "BOX": units.box, "POINT": units.point, "SQUARE": units.square}
    wanted = sum(LENGTHS.get(kind, 1) for kind in kinds)
    if len(rest) != wanted:
        raise ValueError(f"{word}: {wanted} numbers are wanted, and not {len(rest)}")
    for kind in kinds:
        length = LENGTHS.get(kind)
        arguments.append(readers[kind](rest[:length] if length else rest[0]))
        rest = rest[length or 1 :]
    return shown(name, getattr(boxes, name)(*arguments), units)


def shown(name, answer, units):
    """The answer in the units that were asked in."""

    def box(corners):
        return [units.shown(number) for number in corners]

    def row(number, corners, *distance):
        return [number, box(corners), *map(units.shown_square, distance)]

    if name == "remove":
        return box(answer)
    if name in ("pop", "remove_at"):
        return answer and row(*answer)
    if name in ("insert", "move"):
        return "ok"
    return [row(*found) for found in answer] if isinstance(answer, list) and name != "pairs" else answer


def main(words=None):
    parser = argparse.ArgumentParser(
        prog="python3 -m vaikrone",
        description="Boxes by ID in a process of the proved program: loads them, and answers questions.",
        epilog=usage(),
        formatter_class=argparse.RawDescriptionHelpFormatter,
    )
    parser.add_argument("--program", default=PROGRAM, help="the program that `rt run` built (or VAIKRONE names it)")
    parser.add_argument("--journal", metavar="FILE", help="keeps all changes in this file, and begins with what it says")
    parser.add_argument("--sync", action="store_true", help="waits for the disk at each change of the journal")
    parser.add_argument("--load", metavar="FILE", help="holds just the rectangles of this .csv, .json or .geojson")
    parser.add_argument("--degrees", action="store_true", help="degrees in questions and files, held as whole numbers of 10**-7")
    parser.add_argument("words", nargs="*", metavar="WORD", help="a question, as: hit 0 0 4 4")
    chosen = parser.parse_args(words)
    units = Degrees if chosen.degrees else Whole
    try:
        with Boxes(chosen.journal, chosen.program, chosen.sync) as boxes:
            if chosen.load:
                tell = Progress()
                boxes.load(read(chosen.load, units, tell), tell)
            return answer_all(boxes, [chosen.words] if chosen.words else map(str.split, sys.stdin), units)
    except (OSError, ValueError, Refused) as fault:
        print(f"vaikrone: {fault}", file=sys.stderr)
        return 2
    except KeyboardInterrupt:
        return 130


def answer_all(boxes, questions, units):
    """Prints each answer before it reads the next question; 1 where one was refused."""
    status = 0
    for words in filter(None, questions):
        try:
            answer = asked(boxes, words, units)
        except KeyError as fault:
            answer, status = {"error": f"the ID {fault} is not there"}, 1
        except (ValueError, OSError) as fault:
            answer, status = {"error": str(fault)}, 1
        print(json.dumps(answer), flush=True)
    return status
