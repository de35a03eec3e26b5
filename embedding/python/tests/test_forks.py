"""Forked children: they hold nothing of the parent's, use none of its objects, and harm none."""
import gc
import multiprocessing
import os
import signal
import threading
import time
import traceback
import unittest
import warnings

from room import Room, listed, nardsill


def child_of(work):
    """Works in a forked child, and answers its id. It ends with 0 if the work raises nothing, within a minute."""
    with warnings.catch_warnings():
        warnings.simplefilter("ignore", DeprecationWarning)
        child = os.fork()
    if child:
        return child
    status = 1
    try:
        signal.alarm(60)
        work()
        status = 0
    except BaseException:
        traceback.print_exc()
    finally:
        os._exit(status)


class Forks(Room):
    def ended(self, child):
        self.assertEqual(os.waitpid(child, 0)[1], 0)

    def test_the_parent_closes_and_opens_while_the_child_lives(self):
        told, tell = os.pipe()
        runs, says = os.pipe()
        index = self.opened()
        index.insert(b"a", (1, 1))
        child = child_of(lambda: (os.write(says, b"x"), os.read(told, 1)))
        os.read(runs, 1)
        index.close()
        for _ in range(3):
            with nardsill.Index(self.path) as index:
                self.assertEqual(listed(index), [(b"a", (1, 1))])
        os.write(tell, b"x")
        self.ended(child)
        for end in (told, tell, runs, says):
            os.close(end)

    def test_each_call_in_the_child(self):
        index = self.opened()
        index.insert_many([(b"%04d" % at, (at, 1)) for at in range(500)])
        scan, ended = index.scan(), index.scan(stop=b"")
        next(scan)
        list(ended)

        def work():
            calls = [index.commit, index.checkpoint, index.vacuum, index.info, index.scan, lambda: index.get(b"a"), lambda: list(index)]
            calls += [lambda: index.insert(b"a", (1, 1)), lambda: index.insert_many([(b"a", (1, 1))]), lambda: index.delete_rows([(1, 1)])]
            calls += [lambda: next(scan), lambda: scan.seek(b"")]
            for call in calls:
                error = self.refused(nardsill.Forked, call)
                self.assertEqual((error.number, error.filename), (104, self.path))
            scan.close()
            index.close()
            index.close()
            with index:
                pass

        self.ended(child_of(work))
        self.assertEqual(next(scan).row.block, 1)
        scan.close()
        index.insert(b"behind the fork", (1, 1))
        self.assertEqual(index.info().scans, 0)

    def test_objects_that_are_dropped_in_the_child(self):
        nardsill.create(self.path, pages=1024, log_bytes=65536)
        held = [nardsill.Index(self.path)]
        held[0].insert_many([(b"%04d" % at, (at, 1)) for at in range(500)])
        held += [held[0].scan() for _ in range(5)]
        for scan in held[1:]:
            next(scan)
        del scan

        def work():
            with warnings.catch_warnings():
                warnings.simplefilter("error")
                held.clear()
                gc.collect()
            with nardsill.open(self.path + ".child") as index:
                index.add(b"child", (1, 1))

        self.ended(child_of(work))
        held[0].insert(b"behind the fork", (1, 1))
        self.assertEqual(len(list(held[0])), 501)
        self.assertEqual(held[0].info().scans, 5)
        held[0].close()

    def test_a_child_opens_for_itself(self):
        index = self.opened()
        index.insert(b"a", (1, 1))

        def work():
            while True:
                try:
                    with nardsill.Index(self.path) as mine:
                        mine.insert(b"child", (1, 1))
                        return
                except nardsill.Locked:
                    time.sleep(0.01)

        child = child_of(work)
        index.insert(b"b", (1, 1))
        index.close()
        self.ended(child)
        with nardsill.Index(self.path) as index:
            self.assertEqual([key for key, _ in index], [b"a", b"b", b"child"])

    def test_forks_beside_threads(self):
        """The child has none of the parent's threads, which were in the middle of calls, reads and closes."""
        index = self.opened(pages=4096)
        index.insert_many([(b"%06d" % at, (at, 1)) for at in range(3_000)])
        other = self.path + ".other"
        nardsill.create(other, pages=64, log_bytes=65536)
        is_over, scan = threading.Event(), index.scan()

        def read():
            while not is_over.is_set():
                for _ in scan:
                    pass
                scan.seek()

        def add():
            for at in range(10**9):
                if is_over.is_set():
                    return
                index.add(b"%d" % at, (at, 2))
                for _ in zip(index.scan(), range(3)):
                    pass

        def close():
            while not is_over.is_set():
                try:
                    nardsill.Index(other).close()
                except nardsill.Locked:
                    pass  # a child has begun just now, and not yet let it go

        def work():
            self.refused(nardsill.Forked, lambda: list(scan))
            self.refused(nardsill.Forked, scan.seek)
            self.refused(nardsill.Forked, index.add, b"a", (1, 1))
            scan.close()
            index.close()
            with nardsill.open(self.path + ".child") as mine:
                mine.add(b"child", (1, 1))
                list(mine)

        threads = [threading.Thread(target=one, daemon=True) for one in (read, read, add, close)]
        for thread in threads:
            thread.start()
        try:
            for _ in range(30):
                self.ended(child_of(work))
        finally:
            is_over.set()
            for thread in threads:
                thread.join(60)
        scan.close()
        self.assertEqual(index.info().scans, 0)

    def test_multiprocessing(self):
        context = multiprocessing.get_context("fork")
        index = self.opened()
        index.insert(b"a", (1, 1))
        answers, go = context.SimpleQueue(), context.Event()

        def work():
            try:
                index.get(b"a")
            except nardsill.Error as fault:
                answers.put(fault)
            go.wait()

        with warnings.catch_warnings():
            warnings.simplefilter("ignore", DeprecationWarning)
            child = context.Process(target=work, daemon=True)
            child.start()
        self.addCleanup(child.kill)
        fault = answers.get()
        self.assertIsInstance(fault, nardsill.Forked)
        self.assertEqual(fault.filename, self.path)
        index.close()
        nardsill.Index(self.path).close()
        go.set()
        child.join()
        self.assertEqual(child.exitcode, 0)

    def test_a_fork_in_the_middle_of_a_call(self):
        """A signal handler forks there: the child's call ends as one of the parent's index."""
        index = self.opened()

        def call(at, *_):
            child = child_of(lambda: (self.refused(nardsill.Forked, index.commit), index.close()))
            self.ended(child)
            return nardsill._library.commit(at, None)

        index._ask(call)
        index.insert(b"a", (1, 1))


if __name__ == "__main__":
    unittest.main()
