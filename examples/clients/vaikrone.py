"""The program as a service over a pipe, from Python's standard library alone.

    from vaikrone import Index
    with Index() as index:
        index.insert(7, (0, 0, 2, 2))
        index.hit((1, 1, 9, 9))                        # [7]
        index.near((5, 5), 3)                          # [(7, 18)]: the ID and the squared distance
        index.ask_all([("at", 1, 1), ("size",)])       # [[7], 1]: sent at once, answered in order

`Index` has a method for each line of docs/PROGRAM.md. A box is (x1, y1, x2, y2), two opposite corners; coordinates go from
-2**63 to 2**63 - 1, IDs and counts from 0 to 2**64 - 1. Numbers are tested before a line is written: what is no such number
is a ValueError, and the index is as it was. One thread uses an index at a time.

boxes.py has an index by ID with a journal, files.py reads CSV and GeoJSON, and `python3 -m vaikrone --help` is a command.
"""

import os
import struct
import subprocess
import sys
from contextlib import contextmanager
from select import PIPE_BUF
from threading import Thread
from time import monotonic

HERE = os.path.dirname(os.path.abspath(__file__))
PROGRAM = os.environ.get("VAIKRONE") or os.path.normpath(f"{HERE}/../../crates/rstar_run/out/rstar_run")
STEP = 20000  # rows of a load between two looks at the clock
KINDS = {"q": "from -2**63 to 2**63 - 1", "Q": "from 0 to 2**64 - 1"}
ROW = "Qqqqq"


class Refused(Exception):
    """The program ended: its last line, and its status."""


def ids(answer):
    return [] if answer == "-" else [int(word) for word in answer.split(" ")]


def one_id(answer):
    return None if answer == "-" else int(answer)


def neighbours(answer):
    return [] if answer == "-" else [tuple(map(int, word.split(":"))) for word in answer.split(" ")]


def nothing(_):
    return None


# Of each question: the program's words, the kinds of its numbers as `struct` names them, and how its answer is read.
QUESTIONS = {
    "insert": ("insert", ROW, nothing),
    "remove": ("remove", ROW, lambda answer: answer != "-"),
    "remove_at": ("removeat", "qq", one_id),
    "pop": ("pop", "qq", one_id),
    "inside": ("in", "qqqq", ids),
    "hit": ("hit", "qqqq", ids),
    "at": ("at", "qq", ids),
    "within": ("within", "qqq", ids),
    "near": ("near", "qqQ", neighbours),
    "drain_inside": ("drain in", "qqqqQ", ids),
    "drain_hit": ("drain hit", "qqqqQ", ids),
    "size": ("size", "", int),
}


def tested(name, kinds, numbers):
    """The numbers as plain ints, where there are as many as kinds and each is whole and in range; else a ValueError."""
    form = "<" + kinds
    try:
        return struct.unpack(form, struct.pack(form, *numbers))
    except struct.error:
        raise ValueError(f"{name}: {fault(kinds, numbers)}") from None


def fault(kinds, numbers):
    if len(kinds) != len(numbers):
        return f"{len(kinds)} numbers are wanted, and not {len(numbers)}: {numbers!r}"
    for kind, number in zip(kinds, numbers):
        try:
            struct.pack("<" + kind, number)
        except struct.error:
            return f"{number!r} is no whole number {KINDS[kind]}"


def line(name, numbers):
    """The line of a question."""
    word, kinds, _ = QUESTIONS[name]
    return " ".join([word, *map(str, tested(name, kinds, numbers))]) + "\n"


class Progress:
    """Tells on standard error how far a load is, once a second, where it takes longer than that."""

    def __init__(self):
        self.start = self.last = monotonic()

    def __call__(self, what, rows):
        if monotonic() - self.last >= 1:
            self.last = monotonic()
            print(f"load: {rows:,} rows {what}, {self.last - self.start:.0f} s", file=sys.stderr, flush=True)


class Index:
    """Rectangles with IDs, in a process of their own."""

    def __init__(self, program=PROGRAM):
        self.process = subprocess.Popen([program], stdin=subprocess.PIPE, stdout=subprocess.PIPE, text=True)

    def __enter__(self):
        return self

    def __exit__(self, *_):
        self.close()

    def close(self):
        """Ends the process, and gives its status."""
        for pipe in (self.process.stdin, self.process.stdout):
            try:
                pipe.close()
            except OSError:
                pass  # the process has ended, and lines that were not sent are lost with it
        return self.process.wait()

    def ask(self, name, *numbers):
        """One question by its method's name, and its answer."""
        return self.ask_all([(name, *numbers)])[0]

    def ask_all(self, questions):
        """Sends many questions at once, each its method's name and plain numbers; gives their answers in order."""
        questions = list(questions)
        text = "".join(line(name, numbers) for name, *numbers in questions)
        answers = self.exchange(text, len(questions))
        return [QUESTIONS[name][2](answer) for (name, *_), answer in zip(questions, answers)]

    def exchange(self, text, count):
        """Sends lines and reads so many answers.

        A thread writes what a pipe may not take at once: the program stops reading while nobody reads its answers.
        """
        if len(text) <= PIPE_BUF:
            with self.to_the_end():
                self.send(text)
                return self.answers(count)
        writer = Thread(target=self.send, args=(text,))
        writer.start()
        try:
            with self.to_the_end():
                return self.answers(count)
        finally:
            writer.join()

    @contextmanager
    def to_the_end(self):
        """What breaks off ends the process: an answer that is not read would be taken for that of a later question."""
        try:
            yield
        except BaseException:
            self.process.kill()
            self.process.wait()
            raise

    def send(self, text):
        try:
            self.process.stdin.write(text)
            self.process.stdin.flush()
        except (OSError, ValueError):
            pass  # the program has ended, or the index is closed: `answer` tells

    def answers(self, count):
        return [self.answer() for _ in range(count)]

    def answer(self):
        """The next answer."""
        line = self.process.stdout.readline() if self.process.returncode is None else ""
        if line.startswith("error: "):
            raise Refused(line.rstrip("\n"), self.close())
        if not line.endswith("\n"):  # a killed program may leave the beginning of an answer
            raise Refused("the program has ended", self.close())
        return line.rstrip("\n")

    def load(self, rows, tell=None):
        """Holds just the rectangles of these rows, an (ID, box) each. All are tested before one is sent.

        `tell` is called now and then with a word and a number of rows.
        """
        tell, lines = tell or Progress(), []
        for number, box in rows:
            lines.append(" ".join(map(str, tested("load", ROW, (number, *box)))))
            if len(lines) % STEP == 0:
                tell("prepared", len(lines))
        with self.to_the_end():
            self.send(f"load {len(lines)}\n")
            for start in range(0, len(lines), STEP):
                some = lines[start : start + STEP]
                self.send("\n".join(some) + "\n")
                tell("sent", start + len(some))
            self.answer()

    def insert(self, number, box):
        self.ask("insert", number, *box)

    def remove(self, number, box):
        """Whether a rectangle with this ID and this box was there, and was taken out."""
        return self.ask("remove", number, *box)

    def remove_at(self, point):
        """Takes out one that contains the point, and gives its ID; None where none does."""
        return self.ask("remove_at", *point)

    def pop(self, point):
        """Takes out the first that `near` gives, and gives its ID; None where there is none."""
        return self.ask("pop", *point)

    def inside(self, box):
        """The IDs of the rectangles that lie in the box, ascending."""
        return self.ask("inside", *box)

    def hit(self, box):
        """The IDs of the rectangles that meet the box, ascending; touching is enough."""
        return self.ask("hit", *box)

    def at(self, point):
        """The IDs of the rectangles that contain the point, ascending; borders belong to them."""
        return self.ask("at", *point)

    def within(self, point, limit):
        """The IDs of the rectangles whose squared distance from the point is at most the limit, ascending."""
        return self.ask("within", *point, limit)

    def near(self, point, most):
        """The nearest so many, by distance, corners and ID: each an ID with its squared distance."""
        return self.ask("near", *point, most)

    def drain_inside(self, box, most):
        """Takes out at most so many that lie in the box, and gives their IDs, ascending."""
        return self.ask("drain_inside", *box, most)

    def drain_hit(self, box, most):
        """Takes out at most so many that meet the box, and gives their IDs, ascending."""
        return self.ask("drain_hit", *box, most)

    def __len__(self):
        return self.ask("size")


if __name__ == "__main__":
    from command import main

    sys.exit(main())
