"""Commits of many threads: what each is told, and what they share."""
import pathlib
import threading
import unittest

from long import Judge
from room import Room, nardsill, run_all

IO = pathlib.Path("/proc/self/io")


def writes():
    """How many calls of this process have written."""
    return int(IO.read_text().split("syscw: ")[1].split()[0])


class Commits(Room):
    def insert_and_commit(self, index, threads, count):
        early = []

        def work(number):
            for at in range(count):
                action = index.insert(b"%d %d" % (number, at), (at, number + 1))
                if index.commit() < action:
                    early.append(action)

        run_all(*(lambda number=number: work(number) for number in range(threads)))
        self.assertEqual(early, [])

    def test_threads_that_insert_and_commit(self):
        index = self.opened()
        self.insert_and_commit(index, 8, 100)
        self.assertEqual(index.vacuum().entries, 800)
        index.close()
        with nardsill.Index(self.path) as again:
            for number in range(8):
                for at in range(100):
                    self.assertEqual(again.get(b"%d %d" % (number, at)), (at, number + 1))

    @unittest.skipUnless(IO.exists(), "without /proc/self/io nobody counts what commits share")
    def test_commits_that_share_a_force(self):
        """A force writes twice at least, so eight commits that share none write sixteen times. They come together: behind batches, of which
        each keeps the others from the lock for a while. So they do where a sync takes no time. The best of some runs counts: other work
        on the machine may part them."""
        shares = []
        for turn in range(20):
            nardsill.create(f"{self.path}.{turn}", log_bytes=1 << 24)
            index = nardsill.Index(f"{self.path}.{turn}", 1024)
            batches = [[[(b"%d %d %d" % (number, at, k), (at, number + 1)) for k in range(100)] for at in range(25)] for number in range(8)]
            together, before = threading.Barrier(8), writes()

            def work(mine):
                for batch in mine:
                    together.wait()
                    index.insert_many(batch)
                    index.commit()

            run_all(*(lambda mine=mine: work(mine) for mine in batches))
            shares.append((writes() - before) / 200)
            index.close()
            if shares[-1] < 1:
                break
        self.assertLess(min(shares), 1)

    def test_commits_beside_other_calls(self):
        """Threads that never commit keep no commit waiting, and a commit keeps no scan from its end."""
        index, is_over, scans = self.opened(pages=4096), threading.Event(), []

        def commit():
            for at in range(100):
                action = index.insert(b"commit %d" % at, (at, 1))
                self.assertGreaterEqual(index.commit(), action)
            is_over.set()

        def insert():
            for at in range(20_000):
                index.add(b"insert %d" % at, (at, 2))
                if is_over.is_set():
                    break

        def scan():
            while not is_over.is_set() or not scans:
                keys = [key for key, _ in index.scan()]
                self.assertEqual(keys, sorted(keys))
                scans.append(len(keys))

        run_all(commit, insert, scan)
        self.assertTrue(scans)

    def test_a_judge_beside_all_calls(self):
        Judge(self.path).run(2)


if __name__ == "__main__":
    unittest.main()
