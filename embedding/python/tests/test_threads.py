"""Threads, and the calls that signal handlers and finalizers make in the middle of others."""
import gc
import random
import signal
import sys
import threading
import time
import unittest
import weakref
from unittest import mock

from room import Room, listed, nardsill, run_all


class Stop(Exception):
    """What a signal handler raises."""


class Shared(Room):
    def test_a_scan_of_eight_threads(self):
        """Each entry is given once, and to each thread in order."""
        many = [(b"%08d" % at, (at, 1)) for at in range(20_000)]
        index = self.opened(pages=4096)
        index.insert_many(many)
        for _ in range(5):
            scan, given = index.scan(), [[] for _ in range(8)]
            run_all(*(lambda mine=mine: mine.extend(scan) for mine in given))
            for mine in given:
                self.assertEqual(mine, sorted(mine))
            self.assertEqual(listed(sorted(entry for mine in given for entry in mine)), many)
            self.assertRaises(StopIteration, next, scan)
        self.assertEqual(index.info().scans, 0)

    def test_a_scan_that_is_closed_and_sought_meanwhile(self):
        index = self.opened(pages=4096)
        index.insert_many([(b"%08d" % at, (at, 1)) for at in range(5_000)])
        scan, is_over = index.scan(), threading.Event()

        def read():
            while not is_over.is_set():
                for key, row in scan:
                    self.assertEqual(int(key), row.block)

        def disturb():
            dice = random.Random(2)
            for _ in range(300):
                scan.close()
                scan.seek(b"%08d" % dice.randrange(5_000))
                time.sleep(0.0005)
            is_over.set()

        run_all(read, read, read, disturb)
        scan.close()
        self.assertEqual(index.info().scans, 0)

    def test_the_row_is_of_the_very_call(self):
        index = self.opened(unique=True)
        for number in range(8):
            index.insert(b"key %d" % number, (number + 1, number + 1))
        wrong = []

        def work(number):
            for _ in range(10_000):
                try:
                    index.insert(b"key %d" % number, (99, 99))
                except nardsill.KeyExists as fault:
                    if fault.row != (number + 1, number + 1):
                        wrong.append(fault.row)

        run_all(*(lambda number=number: work(number) for number in range(8)))
        self.assertEqual(len(wrong), 0)

    def test_a_close_beside_running_calls(self):
        calls = [
            lambda index, at: index.add(b"%d" % (at % 5000), (at, 1)),
            lambda index, at: index.commit(),
            lambda index, at: [entry for entry, _ in zip(index.scan(), range(300))],
            lambda index, at: index.get(b"%d" % at),
            lambda index, at: index.info(),
        ]
        for _ in range(60):
            nardsill.open(self.path).close()
            index, counts = nardsill.Index(self.path), [0] * len(calls)

            def work(number):
                try:
                    for at in range(10**9):
                        calls[number](index, at)
                        counts[number] += 1
                except ValueError as error:
                    self.assertEqual(str(error), "the index is closed")

            def close():
                while not all(counts):
                    time.sleep(0.001)
                index.close()
                self.refused(ValueError, index.commit)
                # It is closed: another may have the file.
                nardsill.Index(self.path).close()

            run_all(*(lambda number=number: work(number) for number in range(len(calls))), close)
        self.assertEqual(nardsill.check(self.path).damage, 0)

    def test_many_close_at_once(self):
        for _ in range(60):
            index = nardsill.open(self.path)

            def close():
                index.close()
                self.assertTrue(index.closed)
                try:
                    nardsill.Index(self.path).close()
                except nardsill.Locked:
                    pass  # another thread has just opened it

            run_all(close, close, close, close)
            nardsill.Index(self.path).close()

    def test_a_call_of_another_thread_is_waited_for(self):
        """A call that runs when the index is closed ends as ever."""
        index, is_inside, ended = self.opened(), threading.Event(), []

        def slow(at):
            is_inside.set()
            time.sleep(0.3)
            return nardsill._library.commit(at, None)

        def work():
            index._held.ask(slow, index._held.at.value)
            ended.append("call")

        def close():
            is_inside.wait()
            index.close()
            ended.append("close")

        run_all(work, close)
        self.assertEqual(ended, ["call", "close"])


class Between(Room):
    """Signal handlers, and finalizers, between the steps of a call."""

    def timed(self, handler, seconds, work, is_enough=lambda: True):
        """Works, while the handler comes in over and over, but not into itself: so many seconds, or longer, until it is enough."""
        inside = []

        def come(*_):
            if not inside:
                inside.append(True)
                try:
                    handler()
                finally:
                    inside.clear()

        before = signal.signal(signal.SIGALRM, come)
        signal.setitimer(signal.ITIMER_REAL, 0.0003, 0.0003)
        try:
            end = time.monotonic() + seconds
            while time.monotonic() < end or not is_enough():
                self.assertLess(time.monotonic(), end + 60)
                work()
        finally:
            signal.setitimer(signal.ITIMER_REAL, 0)
            signal.signal(signal.SIGALRM, before)

    def at_each_step(self, begin, work, handler, check):
        """Works again and again. In each turn the handler comes in once, at the next step: the beginning of a function, or the end of one
        that is C's. There signal handlers come in."""
        for step in range(10_000):
            held, left = begin(), [step]

            def profile(frame, event, _):
                if event in ("call", "c_return"):
                    left[0] -= 1
                    if left[0] < 0:
                        sys.setprofile(None)
                        handler(held)

            sys.setprofile(profile)
            try:
                work(held)
            except Stop:
                pass
            finally:
                sys.setprofile(None)
            check(held)
            if left[0] >= 0:
                self.assertGreater(step, 5)
                return
        self.fail("it doesn't end")

    def test_a_scan_that_is_read_at_each_step(self):
        index, many = self.opened(), [b"%02d" % at for at in range(30)]
        index.insert_many([(key, (1, 1)) for key in many])

        def begin():
            return index.scan(), []

        def work(held):
            scan, given = held
            for entry in scan:
                given.append(entry.key)

        def handler(held):
            scan, given = held
            for _, entry in zip(range(7), scan):
                given.append(entry.key)

        def check(held):
            self.assertEqual(sorted(held[1]), many)
            self.assertEqual(list(held[0]), [])

        self.at_each_step(begin, work, handler, check)
        self.assertEqual(index.info().scans, 0)

    def test_an_exception_at_each_step(self):
        """No call counts as one that runs behind it, so that a close would wait for it, and at most one entry is lost."""

        index, many = self.opened(), [b"%02d" % at for at in range(30)]
        index.insert_many([(key, (1, 1)) for key in many])

        def work(held):
            scan, given = held
            index.add(b"00", (1, 1))
            index.get(b"00")
            for entry in scan:
                given.append(entry.key)

        def handler(_):
            raise Stop

        def check(held):
            scan, given = held
            given += [entry.key for entry in scan]
            self.assertEqual(given, sorted(set(given)))
            self.assertGreaterEqual(len(given), len(many) - 1)
            self.assertEqual((index._held.callers, scan._reading.callers, nardsill._held._interrupted), ([], [], []))

        self.at_each_step(lambda: (index.scan(), []), work, handler, check)
        self.assertEqual(index.info().scans, 0)

    def test_a_close_at_each_step(self):
        """Also of a close itself. What it comes between ends as a call of a closed index, or as it was."""
        nardsill.create(self.path, pages=64, log_bytes=65536)

        def work(index):
            try:
                index.add(b"a", (1, 1))
                index.get(b"a")
                scan = index.scan()
                next(scan)
                scan.seek(b"")
                next(scan)
                scan.close()
                index.info()
            except ValueError as error:
                self.assertEqual(str(error), "the index is closed")
            index.close()

        def check(index):
            self.assertTrue(index.closed and index._is_closed)

        self.at_each_step(lambda: nardsill.Index(self.path), work, lambda index: index.close(), check)

    def test_a_close_in_a_close(self):
        """A handler that closes comes while the library closes: it doesn't wait for that."""
        index, real = self.opened(), nardsill._library.close
        with mock.patch.object(nardsill._library, "close", lambda at: index.close() or real(at)):
            index.close()
        self.assertTrue(index._is_closed)
        nardsill.Index(self.path).close()

    def test_a_refused_call_at_each_step(self):
        index, other = self.opened(unique=True), self.opened(self.path + ".other", unique=True)
        index.insert(b"mine", (1, 1))
        other.insert(b"other", (2, 2))

        def work(rows):
            try:
                index.insert(b"mine", (3, 3))
            except nardsill.KeyExists as fault:
                rows.append(fault.row)

        def handler(_):
            self.assertEqual(self.refused(nardsill.KeyExists, other.insert, b"other", (3, 3)).row, (2, 2))

        self.at_each_step(list, work, handler, lambda rows: self.assertEqual(rows, [(1, 1)]))

    def test_a_refused_call_in_a_handler(self):
        index, other = self.opened(unique=True), self.opened(self.path + ".other", unique=True)
        index.insert(b"mine", (1, 1))
        other.insert(b"other", (2, 2))
        counts = {"handler": 0, "mine": 0}

        def handler():
            counts["handler"] += 1
            self.assertEqual(self.refused(nardsill.KeyExists, other.insert, b"other", (3, 3)).row, (2, 2))
            self.assertIsNone(other.get(b"none"))

        def work():
            self.assertEqual(self.refused(nardsill.KeyExists, index.insert, b"mine", (3, 3)).row, (1, 1))
            counts["mine"] += 1

        self.timed(handler, 3, work, lambda: counts["handler"] > 100 and counts["mine"] > 100)

    def test_a_refused_call_between_a_call_and_its_fault(self):
        """The worst moment, each time: as a handler that comes exactly there."""
        index, other = self.opened(unique=True), self.opened(self.path + ".other", unique=True)
        index.insert(b"mine", (1, 1))
        other.insert(b"other", (2, 2))

        def call(*arguments):
            status = nardsill._library.insert(*arguments)
            self.assertEqual(self.refused(nardsill.KeyExists, other.insert, b"other", (3, 3)).row, (2, 2))
            self.assertEqual(self.refused(nardsill.NoFile, nardsill.Index, self.path + ".none").errno, 2)
            self.assertIsNone(other.get(b"none"))
            return status

        row = nardsill._library.RowStruct(3, 3)
        fault = self.refused(nardsill.KeyExists, index._ask, call, b"mine", 4, row, None)
        self.assertEqual(fault.row, (1, 1))
        self.assertEqual(nardsill._held._this.caller.fault.status, 0)

    def test_a_refused_call_in_a_finalizer(self):
        index, other = self.opened(unique=True), self.opened(self.path + ".other", unique=True)
        index.insert(b"mine", (1, 1))
        other.insert(b"other", (2, 2))
        rows = []

        class Cycle:
            def __init__(self):
                self.me = self

            def __del__(self):
                try:
                    other.insert(b"other", (3, 3))
                except nardsill.KeyExists as fault:
                    rows.append(fault.row)

        before = gc.get_threshold()
        gc.set_threshold(1)
        try:
            for _ in range(3_000):
                Cycle()
                try:
                    index.insert(b"mine", (3, 3))
                except nardsill.KeyExists as fault:
                    self.assertEqual(fault.row, (1, 1))
        finally:
            gc.set_threshold(*before)
        gc.collect()
        self.assertEqual(rows, [(2, 2)] * 3_000)

    def test_a_close_in_a_handler(self):
        """The call that it comes between ends as one of a closed index, or as it was."""
        opened = []

        def handler():
            if opened:
                opened[0].close()

        def work():
            index = nardsill.open(self.path)
            opened[:] = [index]
            try:
                for at in range(10**9):
                    index.add(b"%d" % (at % 100), (at, 1))
                    for _ in index.scan(b"1"):
                        pass
            except ValueError as error:
                self.assertEqual(str(error), "the index is closed")
            finally:
                opened.clear()
                index.close()

        self.timed(handler, 3, work)
        self.assertEqual(nardsill.check(self.path).damage, 0)

    def test_an_exception_of_a_handler(self):
        """A loop over a scan that is left by one goes on with the next entry, but for one that was on its way."""

        def handler(*_):
            raise Stop

        many = [b"%08d" % at for at in range(20_000)]
        index = self.opened(pages=4096)
        index.insert_many([(key, (1, 1)) for key in many])
        lost, stops = 0, 0
        for _ in range(3):
            scan, given, is_over = index.scan(), [], False
            before = signal.signal(signal.SIGALRM, handler)
            while not is_over:
                try:
                    try:
                        signal.setitimer(signal.ITIMER_REAL, 0.0004)
                        for entry in scan:
                            given.append(entry.key)
                        is_over = True
                    finally:
                        signal.setitimer(signal.ITIMER_REAL, 0)
                except Stop:
                    stops += 1
            signal.signal(signal.SIGALRM, before)
            self.assertEqual(given, sorted(set(given)))
            lost += len(many) - len(given)
        self.assertTrue(stops > 10)
        self.assertLessEqual(lost, stops)

        # No call is left behind: a close of another thread doesn't wait.
        run_all(index.close)

    def test_a_scan_that_a_handler_reads_and_seeks(self):
        many = [b"%08d" % at for at in range(5_000)]
        index = self.opened(pages=4096)
        index.insert_many([(key, (1, 1)) for key in many])
        given, scans = [], [None]

        def handler():
            for _, entry in zip(range(3), scans[0] or ()):
                given.append(entry.key)

        def work():
            given.clear()
            scans[0] = index.scan()
            for entry in scans[0]:
                given.append(entry.key)
            self.assertEqual(sorted(given), many)

        self.timed(handler, 2, work)

        def seek():
            if scans[0]:
                scans[0].seek(b"00001000")

        def again():
            scans[0] = index.scan(b"00000000", b"00001500")
            for entry, _ in zip(scans[0], range(20_000)):
                self.assertEqual(len(entry.key), 8)

        self.timed(seek, 2, again)

    def test_closes_that_cross(self):
        """Two threads are each inside a call of one index, and close the other there."""
        indexes = self.opened(), self.opened(self.path + ".other")
        both = threading.Barrier(2)

        def work(mine, other):
            def call():
                both.wait()
                other.close()
                return 0

            mine._held.ask(call)

        run_all(lambda: work(*indexes), lambda: work(*indexes[::-1]))
        self.assertTrue(indexes[0].closed and indexes[1].closed)
        nardsill.Index(self.path).close()

    def test_a_call_inside_of_a_close_that_waits(self):
        """A handler in a close that waits calls another index, and is waited for there."""
        index, other = self.opened(), self.opened(self.path + ".other")
        is_inside, may_end, ended = threading.Event(), threading.Event(), []

        def slow():
            is_inside.set()
            may_end.wait()
            time.sleep(0.1)
            ended.append("call")
            return 0

        def first():
            nardsill._held.waiting(lambda: other._held.ask(slow))

        def second():
            is_inside.wait()
            may_end.set()
            other.close()
            ended.append("close")

        run_all(first, second)
        self.assertEqual(ended, ["call", "close"])
        index.close()

    def test_finalizers_that_close(self):
        """Weak references' callbacks and finalizers close scans and indexes, in the middle of calls of many threads."""
        shared = self.opened(pages=4096)
        shared.insert_many([(b"%08d" % at, (at, 1)) for at in range(2_000)])
        before = gc.get_threshold()
        gc.set_threshold(5)
        self.addCleanup(gc.set_threshold, *before)

        def work(number):
            path = f"{self.path}.{number}"
            nardsill.create(path, pages=64, log_bytes=65536)
            for at in range(40):
                index = nardsill.Index(path)
                index.add(b"%d" % at, (at, 1))
                scans = [shared.scan() for _ in range(3)] + [index.scan()]
                holder = type("Holder", (), {})()
                holder.me = holder
                weakref.finalize(holder, scans[0].close)
                weakref.finalize(holder, index.close)
                for scan in scans:
                    next(scan)
                del holder
                for _ in zip(scans[1], range(500)):
                    pass
                index.close()
                if not at % 4:
                    # Else holders that no collection has met have all places.
                    gc.collect()

        run_all(*(lambda number=number: work(number) for number in range(6)))
        gc.collect()
        self.assertEqual(shared.info().scans, 0)


if __name__ == "__main__":
    unittest.main()
