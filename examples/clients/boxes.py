"""Boxes by ID over one process of the program, with a journal that a restart replays.

    from boxes import Boxes
    with Boxes("fleet.journal") as boxes:
        boxes.insert(7, (0, 0, 2, 2))
        boxes.insert(8, (2, 2, 4, 4))
        boxes.move(7, (1, 1, 3, 3))
        boxes.hit((0, 0, 2, 2))                        # [(7, (1, 1, 3, 3)), (8, (2, 2, 4, 4))]
        boxes.near((9, 9), 1)                          # [(8, (2, 2, 4, 4), 50)]: and the squared distance
        boxes.pairs()                                  # [(7, 8)]: each two that meet, once
        boxes.ask_all([("at", 2, 2), ("hit", 0, 0, 9, 9)])     # many questions, sent at once
        boxes.remove(7)                                # (1, 1, 3, 3)

Each ID is there once. Answers have the corners, the lower one first. A change is in the journal before it is answered. Killed
at any moment and started again, the boxes are those that were answered. A change that was in hand may be there too, and of many
changes at once the first ones.
"""

from journal import Journal
from vaikrone import PROGRAM, ROW, STEP, Index, Progress, tested


def upright(number, box):
    """The ID and the box as plain ints, the lower corner first; a ValueError where they are none."""
    number, x1, y1, x2, y2 = tested("a box", ROW, (number, *box))
    return number, (min(x1, x2), min(y1, y2), max(x1, x2), max(y1, y2))


class Boxes:
    """Without a journal the boxes are gone with the process."""

    def __init__(self, journal=None, program=PROGRAM, sync=False):
        self.index = Index(program)
        self.journal, self.boxes = None, {}
        try:
            if journal is not None:
                self.journal = Journal(journal, sync)
                self.boxes = self.journal.boxes
                if self.journal.is_long:
                    self.journal.rewrite(self.boxes.items())
                self.index.load(self.boxes.items())
        except BaseException:
            self.close()
            raise

    def __enter__(self):
        return self

    def __exit__(self, *_):
        self.close()

    def close(self):
        self.index.close()
        if self.journal:
            self.journal.close()

    def __len__(self):
        return len(self.boxes)

    def __iter__(self):
        """The IDs."""
        return iter(self.boxes)

    def __contains__(self, number):
        return number in self.boxes

    def __getitem__(self, number):
        return self.boxes[number]

    def insert(self, number, box):
        """Adds a box; a ValueError where its ID is there."""
        self.insert_all([(number, box)])

    def insert_all(self, rows):
        """Adds many, an (ID, box) each; none where an ID is there or comes twice."""
        added = {}
        for number, box in (upright(*row) for row in rows):
            if number in self.boxes or number in added:
                raise ValueError(f"the ID {number} is there")
            added[number] = box
        self.change(added.items(), [("insert", number, *box) for number, box in added.items()])

    def move(self, number, box):
        """Gives the box of this ID another place; a KeyError where there is none."""
        number, box = upright(number, box)
        self.change([(number, box)], [("remove", number, *self.boxes[number]), ("insert", number, *box)])

    def remove(self, number):
        """Takes the box of this ID out, and gives it; a KeyError where there is none."""
        return self.remove_all([number])[0][1]

    def remove_all(self, numbers):
        """Takes many out, and gives them, an (ID, box) each; none where one is not there."""
        taken = self.with_corners(dict.fromkeys(tested("an ID", "Q", (number,))[0] for number in numbers))
        self.change([(number, None) for number, _ in taken], [("remove", number, *box) for number, box in taken])
        return taken

    def load(self, rows, tell=None):
        """Holds just these boxes, an (ID, box) each. Bad rows change nothing; what fails behind them closes all."""
        boxes, tell = {}, tell or Progress()
        for at, (number, box) in enumerate(upright(*row) for row in rows):
            if number in boxes:
                raise ValueError(f"the ID {number} comes twice")
            boxes[number] = box
            if at % STEP == 0:
                tell("tested", at)
        try:
            if self.journal:
                self.journal.rewrite(boxes.items())
            self.index.load(boxes.items(), tell)
            self.boxes = boxes
        except BaseException:
            self.close()
            raise

    def change(self, changes, questions):
        """Lets the journal, the program and the table of boxes have the changes, in this order.

        Where the journal refuses them nothing has changed. What fails behind it closes all: the next start replays them.
        """
        if self.journal:
            self.journal.write(changes)
        try:
            self.index.ask_all(questions)
            for number, box in changes:
                if box is None:
                    del self.boxes[number]
                else:
                    self.boxes[number] = box
        except BaseException:
            self.close()
            raise

    def with_corners(self, numbers):
        return [(number, self.boxes[number]) for number in numbers]

    def inside(self, box):
        """Those that lie in the box, an (ID, box) each, by ID."""
        return self.with_corners(self.index.inside(box))

    def hit(self, box):
        """Those that meet the box, by ID; touching is enough."""
        return self.with_corners(self.index.hit(box))

    def at(self, point):
        """Those that contain the point, by ID; borders belong to them."""
        return self.with_corners(self.index.at(point))

    def within(self, point, limit):
        """Those whose squared distance from the point is at most the limit, by ID."""
        return self.with_corners(self.index.within(point, limit))

    def near(self, point, most, limit=None, test=None):
        """The nearest so many, an (ID, box, squared distance) each.

        Only those count whose squared distance is at most the limit, and for which test(ID, box) holds.
        """
        kept, seen, asked = [], 0, most
        while True:
            found = self.index.near(point, asked)
            for number, distance in found[seen:]:
                box = self.boxes[number]
                if limit is not None and distance > limit:
                    return kept
                if len(kept) < most and (test is None or test(number, box)):
                    kept.append((number, box, distance))
            if len(kept) == most or len(found) < asked:
                return kept
            seen, asked = asked, min(4 * asked, 2**64 - 1)

    def ask_all(self, questions):
        """Sends many questions at once, as `Index.ask_all`: each `inside`, `hit`, `at`, `within` or `near`."""
        questions = list(questions)
        for name, *_ in questions:
            if name not in ("inside", "hit", "at", "within", "near"):
                raise ValueError(f"{name!r} is no question")
        answers = zip(questions, self.index.ask_all(questions))
        near = lambda found: [(number, self.boxes[number], distance) for number, distance in found]
        return [near(found) if name == "near" else self.with_corners(found) for (name, *_), found in answers]

    def pairs(self):
        """Each two IDs whose boxes meet, once, the lesser one first; touching is enough."""
        numbers, pairs = sorted(self.boxes), []
        for start in range(0, len(numbers), STEP):
            some = numbers[start : start + STEP]
            found = self.index.ask_all(("hit", *self.boxes[number]) for number in some)
            pairs += [(number, other) for number, others in zip(some, found) for other in others if other > number]
        return pairs

    def pop(self, point):
        """Takes out the first that `near` gives, and gives it; None where there is none."""
        return self.first([number for number, _ in self.index.near(point, 1)])

    def remove_at(self, point):
        """Takes out one that contains the point, and gives it; None where none does."""
        return self.first(self.index.at(point))

    def first(self, numbers):
        return self.remove_all(numbers[:1])[0] if numbers else None

    def drain_inside(self, box, most):
        """Takes out the first so many that `inside` gives, and gives them."""
        return self.remove_all(self.index.inside(box)[:most])

    def drain_hit(self, box, most):
        """Takes out the first so many that `hit` gives, and gives them."""
        return self.remove_all(self.index.hit(box)[:most])
