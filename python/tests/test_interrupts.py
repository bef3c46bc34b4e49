"""Calls that are cut off: none may give a later call anything but its own answer."""
import os
import random
import signal
import threading
import time
import unittest
from typing import Callable

import release
import support
from hosecrag import Fault, Pool, Queries

MOMENTS = 200
THREADS = 8


class Interrupt(Exception):
    pass


def _interrupt(*_: object) -> None:
    raise Interrupt


def _late(*_: object) -> None:
    raise TimeoutError


class Answers(unittest.TestCase):
    def setUp(self) -> None:
        self.random = random.Random(2024)
        self.engine = support.engine()
        self.addCleanup(self.engine.close)

    def answer_is_right(self, queries: Queries, turn: int) -> bool:
        constraint, places = support.CONSTRAINTS[turn % len(support.CONSTRAINTS)]
        kind = turn % 4
        if kind == 0:
            return queries.count(constraint) == len(places)
        if kind == 1:
            found = queries.expand(constraint)
            return found.total == len(places) and list(found) == support.concepts(places)
        if kind == 2:
            place = self.random.randrange(release.CONCEPTS)
            return queries.is_member(release.IDENTIFIERS[place], constraint) == (place in places)
        place = turn % release.CONCEPTS
        return queries.describe(release.IDENTIFIERS[place]).children == support.concepts(release.children(place))

    def interrupted(self, handler: Callable[..., None], moments: int) -> int:
        """Makes calls, one of which is interrupted at each of so many random moments; returns how many were."""
        before = signal.signal(signal.SIGALRM, handler)
        cut = 0
        try:
            for turn in range(moments):
                # some calls are over before, so that none is interrupted
                signal.setitimer(signal.ITIMER_REAL, self.random.uniform(1e-5, 0.02))
                try:
                    for more in range(1000):
                        self.assertTrue(self.answer_is_right(self.engine, turn + more))
                except (Interrupt, TimeoutError):
                    cut += 1
                signal.setitimer(signal.ITIMER_REAL, 0)
                self.assertTrue(self.answer_is_right(self.engine, turn))
        finally:
            signal.signal(signal.SIGALRM, before)
        return cut

    def test_interrupted_at_random_moments(self) -> None:
        self.assertGreater(self.interrupted(_interrupt, MOMENTS), MOMENTS * 9 // 10)

    def test_interrupted_by_a_time_limit_of_the_caller(self) -> None:
        # `subprocess` passes over an OSError that interrupts it, as this one is
        self.assertGreater(self.interrupted(_late, MOMENTS // 4), MOMENTS // 4 * 9 // 10)

    def test_time_limits(self) -> None:
        over = 0
        for turn in range(MOMENTS // 2):
            try:
                self.engine.expand("*", timeout=self.random.choice([0, 1e-4, 1e-3, 1e-2]))
            except TimeoutError:
                over += 1
            if turn % 10 == 0:
                self.assertTrue(self.answer_is_right(self.engine, turn))
        self.assertGreater(over, 0)
        self.assertTrue(self.answer_is_right(self.engine, 1))

    def test_a_time_limit_leaves_a_process_to_its_loading(self) -> None:
        self.signalled(signal.SIGKILL)
        time.sleep(0.1)
        with self.assertRaises(TimeoutError):
            self.engine.count("*", timeout=0)
        pid = self.engine.pid
        self.assertTrue(self.answer_is_right(self.engine, 1))
        self.assertEqual(self.engine.pid, pid)

    def test_a_process_that_stands_still(self) -> None:
        for request in ("*", " " * 1_000_000 + "*"):
            self.signalled(signal.SIGSTOP)
            began = time.monotonic()
            with self.assertRaises(TimeoutError):
                self.engine.count(request, timeout=0.1)
            self.assertLess(time.monotonic() - began, 5)
            self.assertTrue(self.answer_is_right(self.engine, 1))

    def test_killed_while_idle(self) -> None:
        for turn in range(5):
            self.signalled(signal.SIGKILL)
            time.sleep(0.05)
            self.assertTrue(self.answer_is_right(self.engine, turn))

    def test_killed_at_random_moments(self) -> None:
        for turn in range(20):
            timer = threading.Timer(self.random.uniform(0, 0.02), self.signalled, (signal.SIGKILL,))
            timer.start()
            try:
                for more in range(1000):
                    self.assertTrue(self.answer_is_right(self.engine, turn + more))
                    if not timer.is_alive():
                        break
            except Fault as error:
                self.assertEqual(error.status, -signal.SIGKILL)
            timer.join()
            # a signal takes its time
            time.sleep(0.05)
            self.assertTrue(self.answer_is_right(self.engine, turn))

    def test_closed_in_the_middle_of_a_call(self) -> None:
        self.signalled(signal.SIGSTOP)
        timer = threading.Timer(0.1, self.engine.close)
        timer.start()
        with self.assertRaises(Fault):
            self.engine.count("*")
        timer.join()
        with self.assertRaises(ValueError):
            self.engine.count("*")

    def signalled(self, number: int) -> None:
        """Sends a signal to the process of the engine."""
        assert self.engine.pid is not None
        os.kill(self.engine.pid, number)

    def in_threads(self, queries: Queries, calls: int) -> None:
        wrong: list[object] = []

        def work(start: int) -> None:
            for turn in range(start, start + calls):
                try:
                    if not self.answer_is_right(queries, turn):
                        wrong.append(turn)
                except Exception as error:  # any error is a fault here, whichever it is
                    wrong.append(error)

        threads = [threading.Thread(target=work, args=(7 * it,)) for it in range(THREADS)]
        for thread in threads:
            thread.start()
        for thread in threads:
            thread.join()
        self.assertEqual(wrong, [])

    def test_threads_on_one_object(self) -> None:
        self.in_threads(self.engine, 40)

    def test_a_thread_that_waits_too_long_for_another(self) -> None:
        self.signalled(signal.SIGSTOP)
        thread = threading.Thread(target=self.answer_is_right, args=(self.engine, 0))
        thread.start()
        time.sleep(0.1)
        with self.assertRaises(TimeoutError):
            self.engine.count("*", timeout=0.05)
        self.signalled(signal.SIGCONT)
        thread.join()
        self.assertTrue(self.answer_is_right(self.engine, 1))

    def test_a_pool(self) -> None:
        with Pool([support.FOLDER], 3, program=support.PROGRAM) as pool:
            self.assertEqual(pool.ready(), 3)
            self.in_threads(pool, 40)
            for turn in range(20):
                try:
                    pool.expand("*", timeout=self.random.uniform(0, 0.02))
                except TimeoutError:
                    pass
                self.assertTrue(self.answer_is_right(pool, turn))
        with self.assertRaises(ValueError):
            pool.count("*")
        with self.assertRaises(ValueError):
            Pool([support.FOLDER], 0, program=support.PROGRAM)

    def test_a_pool_whose_processes_are_all_taken(self) -> None:
        with Pool([support.FOLDER], 1, program=support.PROGRAM) as pool:
            pid = pool.pids[0]
            os.kill(pid, signal.SIGSTOP)
            thread = threading.Thread(target=self.answer_is_right, args=(pool, 0))
            thread.start()
            time.sleep(0.1)
            with self.assertRaises(TimeoutError):
                pool.count("*", timeout=0.05)
            os.kill(pid, signal.SIGCONT)
            thread.join()

    def test_forks(self) -> None:
        pool = Pool([support.FOLDER], 1, program=support.PROGRAM)
        for _ in range(3):
            child = os.fork()
            if child == 0:
                os._exit(self.forked(pool))
            self.assertTrue(self.answer_is_right(self.engine, 1))
            self.assertEqual(os.waitstatus_to_exitcode(os.waitpid(child, 0)[1]), 0)
            self.assertTrue(self.answer_is_right(self.engine, 5))
            self.assertTrue(self.answer_is_right(pool, 5))
        pool.close()

    def forked(self, pool: Pool) -> int:
        """Runs in a forked child; returns 0 if all went as it should."""
        for queries in (self.engine, pool):
            try:
                queries.count("*")
                return 1
            except RuntimeError:
                queries.close()
        with support.engine() as own:
            return 0 if self.answer_is_right(own, 1) else 2


if __name__ == "__main__":
    unittest.main()
