"""A journal of boxes by ID: a text file with a line for each change, written before the change is answered.

    vaikrone journal 1
    put 7 0 0 2 2          the box of this ID is this one, whether it had one or not
    remove 7

A last line without an end was cut off by a kill. Nobody had its answer, and it is dropped. Any other line that is none of
these is a ValueError, and the file stays as it is. A file with `.lock` behind its name keeps a second process away.
"""

import errno
import fcntl
import os

HEAD = "vaikrone journal 1\n"


class Journal:
    """The journal of one process: `boxes` has what its file says. `sync` also waits for the disk at each change."""

    def __init__(self, path, sync=False):
        self.path, self.sync = os.fspath(path), sync
        self.lock, self.file = open(f"{self.path}.lock", "w"), None
        try:
            fcntl.flock(self.lock, fcntl.LOCK_EX | fcntl.LOCK_NB)
            if not os.path.exists(self.path):
                self.replace([])
            self.file = open(self.path, "r+b", buffering=0)
            self.boxes = self.replay()
        except BaseException:
            self.close()
            raise

    def replay(self):
        """The boxes by ID, and an end behind the last whole line."""
        data = self.file.read()
        end = data.rfind(b"\n") + 1
        head, *lines = data[:end].decode("ascii", "replace").splitlines(keepends=True) or [""]
        if head != HEAD:
            raise ValueError(f"{self.path} does not begin with the line {HEAD.strip()!r}")
        boxes = {}
        for at, line in enumerate(lines, 2):
            try:
                word, number, *box = line.split()
                if word == "put" and len(box) == 4:
                    boxes[int(number)] = tuple(map(int, box))
                elif word == "remove" and not box:
                    del boxes[int(number)]
                else:
                    raise ValueError
            except (ValueError, KeyError):
                raise ValueError(f"{self.path}, line {at}: {line.strip()!r} is no change") from None
        self.file.truncate(end)
        self.file.seek(end)
        self.is_long = len(lines) > 2 * len(boxes) + 100
        return boxes

    def write(self, changes):
        """Adds a line for each (ID, box or None); where they do not all go in, none does, and an OSError says why."""
        lines = [f"remove {number}\n" if box is None else put(number, box) for number, box in changes]
        data, end = "".join(lines).encode(), self.file.tell()
        try:
            if self.file.write(data) != len(data):
                raise OSError(errno.ENOSPC, os.strerror(errno.ENOSPC), self.path)
            if self.sync:
                os.fsync(self.file.fileno())
        except OSError:
            self.file.truncate(end)
            self.file.seek(end)
            raise

    def replace(self, boxes):
        """Says just these boxes from now on. The file is written beside the old one, and then takes its place."""
        with open(f"{self.path}.new", "w") as file:
            file.write(HEAD)
            file.writelines(put(number, box) for number, box in boxes)
            file.flush()
            os.fsync(file.fileno())
        os.replace(f"{self.path}.new", self.path)
        # The name is on the disk when its folder is.
        folder = os.open(os.path.dirname(os.path.abspath(self.path)), os.O_RDONLY)
        os.fsync(folder)
        os.close(folder)

    def rewrite(self, boxes):
        self.replace(boxes)
        self.file.close()
        self.file = open(self.path, "r+b", buffering=0)
        self.file.seek(0, os.SEEK_END)

    def close(self):
        if self.file:
            self.file.close()
        self.lock.close()


def put(number, box):
    return "put {} {} {} {} {}\n".format(number, *box)
