"""Threads that share an index."""

import gc
import sys
import unittest
from threading import Thread
from time import sleep

from vaikrone import Index

EACH, THREADS = 1000, 4


def run(*calls):
    """Runs each call in a thread of its own. What one raises is raised here; None may hang."""
    errors = []

    def caught(call):
        try:
            call()
        except BaseException as error:
            errors.append(error)

    threads = [Thread(target=caught, args=(call,), daemon=True) for call in calls]
    for thread in threads:
        thread.start()
    for thread in threads:
        thread.join(120)
        if errors:
            raise errors[0]
        if thread.is_alive():
            raise AssertionError("a thread hangs")


class Threads(unittest.TestCase):
    def setUp(self):
        self.switch = sys.getswitchinterval()
        sys.setswitchinterval(1e-5)

    def tearDown(self):
        sys.setswitchinterval(self.switch)

    def test_questions_beside_insertions(self):
        """An answer holds all that was in before the question, and nothing that came in after the answer."""
        index, begun, done, turns = Index(), [0] * THREADS, [0] * THREADS, [0] * 3

        def insert(t):
            for n in range(EACH):
                while n > 5 * min(turns) + 5:  # so that questions come all the while
                    sleep(0)
                begun[t] = n + 1
                index.insert(t * EACH + n, (n, t, n + 1, t + 1))
                done[t] = n + 1

        def ask(k):
            while sum(done) < EACH * THREADS:
                turn = turns[k] = turns[k] + 1
                before = [t * EACH + n for t in range(THREADS) for n in range(done[t])]
                if (turn + k) % 3 == 0:
                    ids = index.query_many([(0, 0, EACH, THREADS)])[1].tolist()
                elif (turn + k) % 3 == 1:
                    ids = index.nearest((5, 5), EACH * THREADS)[0].tolist()
                else:
                    ids = index.query((0, 0, EACH, THREADS)).tolist()
                after = {t * EACH + n for t in range(THREADS) for n in range(begun[t])}
                assert len(ids) == len(set(ids)), f"turn {turn}: an ID stands twice"
                assert set(before) <= set(ids) <= after, f"turn {turn}: {len(before)}, {len(ids)}, {len(after)}"

        run(*[lambda t=t: insert(t) for t in range(THREADS)], *[lambda k=k: ask(k) for k in range(3)])
        self.assertEqual(sorted(index.items()[1].tolist()), list(range(EACH * THREADS)))

    def test_each_rectangle_is_taken_out_once(self):
        index = Index([(n, n % 50, n + 3, n % 50 + 3) for n in range(EACH)])
        taken = [[] for _ in range(THREADS)]

        def take(t):
            while len(index):
                popped = index.pop_nearest((EACH // THREADS * t, 25))
                taken[t] += [] if popped is None else [popped[0]]
                taken[t] += index.drain((EACH // THREADS * t, 0, EACH // THREADS * t + 9, 60)).tolist()

        run(*[lambda t=t: take(t) for t in range(THREADS)])
        self.assertEqual(sorted(sum(taken, [])), list(range(EACH)))

    def test_joins_both_ways_do_not_wait_for_each_other(self):
        one, other = Index([(n, 0, n, 0) for n in range(50)]), Index([(n, 0, n, 0) for n in range(50)])

        def join(here, there):
            for _ in range(500):
                assert sorted(here.pairs_with(there)[0].tolist()) == list(range(50))

        run(lambda: join(one, other), lambda: join(other, one), lambda: join(one, one))

    def test_a_finalizer_may_ask_amid_a_call(self):
        index, asked = Index([(n, 0, n, 0) for n in range(50)]), []

        class Ends:
            def __init__(self):
                self.cycle = self

            def __del__(self):
                index.insert(99, (99, 0, 99, 0))
                asked.append(sorted(index.query((0, 0, 9, 0)).tolist()))
                index.remove(99, (99, 0, 99, 0))

        def ask():
            for n in range(600):
                gc.set_threshold(n % 30 + 1)  # so that it comes at each place of a call
                Ends()
                assert sorted(index.query((20, 0, 29, 0)).tolist()) == list(range(20, 30))
                assert sorted(index.nearest((5, 0), 9)[0].tolist()) == list(range(1, 10))
                assert sorted(index.items()[1].tolist()) == list(range(50))

        before = gc.get_threshold()
        try:
            run(ask)
        finally:
            gc.set_threshold(*before)
        self.assertGreater(len(asked), 100)
        self.assertEqual(set(map(tuple, asked)), {tuple(range(10))})

    def test_indexes_that_come_and_go(self):
        def make(t):
            for n in range(300):
                assert Index([(n, n, n + k, n + t) for k in range(20)]).query((n, n, n, n)).tolist()

        run(*[lambda t=t: make(t) for t in range(THREADS)])
