"""The library: refused memory, where it is found, and the examples of the docstrings."""

import doctest
import os
import shutil
import subprocess
import sys
import tempfile
import unittest
from pathlib import Path

import vaikrone
from vaikrone import _index

REFUSED = """
import resource
from array import array
from vaikrone import Index

all_memory = resource.getrlimit(resource.RLIMIT_AS)

def limit(megabytes):
    held = int(open("/proc/self/statm").read().split()[0]) * resource.getpagesize()
    resource.setrlimit(resource.RLIMIT_AS, (held + (megabytes << 20), all_memory[1]))

def refused(call, *arguments):
    try:
        call(*arguments)
    except MemoryError:
        return True

boxes, ids = array("q", [3]) * (4 << 20), array("Q", [7]) * (1 << 20)
index = Index([(1, 1, 2, 2)])
limit(8)
assert refused(index.load, boxes, ids), "the load was not refused"
resource.setrlimit(resource.RLIMIT_AS, all_memory)
assert len(index) == 1 and (0, (1, 1, 2, 2)) in index, "a refused load changed the index"
index = Index(boxes, ids)
limit(2)
assert refused(index.query, (0, 0, 9, 9)) and refused(index.pairs) and refused(index.items), "an answer was not refused"
assert refused(index.drain, (0, 0, 9, 9)), "the drain was not refused"
resource.setrlimit(resource.RLIMIT_AS, all_memory)
assert len(index) == 1 << 20, "a refused drain changed the index"
index, count = Index(), 0
limit(8)
while count < 1 << 22 and not refused(index.insert, count, (count, 0, count, 0)):
    count += 1
resource.setrlimit(resource.RLIMIT_AS, all_memory)
assert 1000 < count < 1 << 22, f"{count} insertions, and none was refused"
assert sorted(index.items()[1].tolist()) == list(range(count)), "a refused insertion changed the index"
print("refused", count)
"""


def python(code, **environment):
    return subprocess.run([sys.executable, "-c", code], env={**os.environ, **environment}, capture_output=True, text=True)


GIVEN_BACK = """
from array import array
from resource import RUSAGE_SELF, getrusage
from vaikrone import Index

boxes = array("q", range(80000))
for turn in range(200):
    if turn == 10:
        before = getrusage(RUSAGE_SELF).ru_maxrss
    index = Index(boxes)
    index.__init__(boxes)
    index.load(boxes)
    index.drain((0, 0, 40000, 40000))
    if turn % 2:
        index.clear()
print(getrusage(RUSAGE_SELF).ru_maxrss - before)
"""


class Library(unittest.TestCase):
    @unittest.skipUnless(sys.platform == "linux", "memory is limited as Linux does it")
    def test_refused_memory(self):
        done = python(REFUSED)
        self.assertTrue(done.stdout.startswith("refused"), done.stderr)

    @unittest.skipUnless(sys.platform == "linux", "memory is told as Linux does it")
    def test_memory_is_given_back(self):
        done = python(GIVEN_BACK)
        self.assertLess(int(done.stdout), 20000, f"kilobytes more {done.stderr}")

    def test_it_is_named_by_the_environment(self):
        library = os.environ.get("VAIKRONE_LIBRARY") or Path(vaikrone.__file__).with_name("librstar.so")
        ask = "import vaikrone; print(vaikrone.Index([(0, 0, 1, 1)]).at((1, 1)).tolist())"
        with tempfile.TemporaryDirectory() as folder:
            other = shutil.copy(library, Path(folder) / "another.so")
            self.assertEqual(python(ask, VAIKRONE_LIBRARY=str(other)).stdout, "[0]\n")
        missing = python(ask, VAIKRONE_LIBRARY="/nowhere/librstar.so")
        self.assertIn("ImportError: vaikrone finds no library: /nowhere/librstar.so", missing.stderr)


def load_tests(loader, tests, pattern):
    for module in (vaikrone, _index):
        tests.addTests(doctest.DocTestSuite(module))
    return tests
