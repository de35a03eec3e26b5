"""Copies of an index: what is in them, and what is left if one is refused or given up."""
import os
import signal
import threading
import unittest

from room import Room, listed, nardsill, run_all


def filled(index, count):
    index.insert_many((b"%08d" % (i * 7919 % count), (i, 1)) for i in range(count))


class Copies(Room):
    def setUp(self):
        super().setUp()
        self.target = os.path.join(self.folder, "copy.idx")

    def nothing_is_there(self):
        self.assertEqual(sorted(os.listdir(self.folder)), ["test.idx"])

    def test_entries(self):
        index, told = self.opened(), []
        filled(index, 5000)
        self.assertEqual(index.copy(self.target, progress=told.append), 5000)
        self.assertEqual((told[-1], told), (5000, sorted(told)))
        info = index.info()
        with nardsill.Index(self.target) as other:
            self.assertEqual(listed(other), listed(index))
            found = other.info()
            self.assertEqual((found.items, found.pages, found.log_bytes, found.unique), (info.items, info.pages, info.log_bytes, info.unique))
            self.assertLess(found.pages_used, 5000 / 45)
        report = nardsill.check(self.target)
        self.assertEqual((report.damage, report.entries), (0, 5000))

    def test_sizes(self):
        index = self.opened()
        filled(index, 300)
        sizes = {"items": 20, "pages": 2000, "log_bytes": 131072, "unique": True}
        self.assertEqual(index.copy(self.target, **sizes), 300)
        with nardsill.Index(self.target) as other:
            info = other.info()
            self.assertEqual({name: getattr(info, name) for name in sizes}, sizes)
            self.assertEqual(other[b"%08d" % 7], index.get(b"%08d" % 7))

    def test_of_a_file(self):
        with self.opened() as index:
            filled(index, 100)
            self.refused(nardsill.Locked, nardsill.copy, self.path, self.target)
        self.assertEqual(nardsill.copy(self.path, self.target, pages=64), 100)
        self.refused(nardsill.NoFile, nardsill.copy, self.path + "no", self.target + "no")

    def test_refused(self):
        index = self.opened()
        index.insert_many([(b"key", (1, 1)), (b"key", (2, 1)), (b"other", (3, 1))])
        error = self.refused(nardsill.KeyExists, index.copy, self.target, unique=True)
        self.assertEqual((error.filename, error.row), (self.target, (1, 1)))
        self.nothing_is_there()
        filled(index, 1000)
        self.assertEqual(self.refused(nardsill.IndexFull, index.copy, self.target, pages=8).filename, self.target)
        self.assertEqual(self.refused(nardsill.BadLimits, index.copy, self.target, items=3).filename, self.target)
        self.refused(nardsill.BadLimits, index.copy, self.target, pages=-1)
        self.nothing_is_there()
        error = self.refused(nardsill.FileIsThere, index.copy, self.path)
        self.assertEqual(error.filename, self.path)
        index.close()
        self.refused(ValueError, index.copy, self.target)

    def test_progress_raises(self):
        index = self.opened()
        filled(index, 5000)
        given_up, seen = KeyError("mine"), []

        def gives_up(count):
            seen.append(count)
            raise given_up

        self.assertIs(self.refused(KeyError, index.copy, self.target, progress=gives_up), given_up)
        self.assertEqual(len(seen), 1)
        self.nothing_is_there()
        self.refused(ValueError, index.copy, self.target, progress=lambda count: index.close())
        self.nothing_is_there()
        self.assertEqual(len(listed(index)), 5000)

    def test_a_signal_gives_it_up(self):
        index = self.opened()
        filled(index, 5000)
        # A shell's job in the background begins with this signal ignored.
        self.addCleanup(signal.signal, signal.SIGINT, signal.signal(signal.SIGINT, signal.default_int_handler))

        def interrupts(count):
            signal.raise_signal(signal.SIGINT)

        with self.assertRaises(KeyboardInterrupt):
            index.copy(self.target, progress=interrupts)
        self.nothing_is_there()

    def test_beside_calls(self):
        index = self.opened()
        filled(index, 5000)

        def looks(count):
            self.assertEqual(index.get(b"%08d" % 0), (0, 1))
            index.add(b"more", (count, 9))

        run_all(lambda: index.copy(self.target, progress=looks), lambda: [index.add(b"beside", (i, 1)) for i in range(1000)])
        with nardsill.Index(self.target) as other:
            found = listed(other)
        self.assertEqual([entry for entry in found if entry[0][:1] == b"0"], [entry for entry in listed(index) if entry[0][:1] == b"0"])

    def test_close_waits(self):
        index, begun = self.opened(), threading.Event()
        filled(index, 5000)
        copied = []

        def slow(count):
            begun.set()
            threading.Event().wait(0.05)

        def closes():
            begun.wait(60)
            index.close()

        run_all(lambda: copied.append(index.copy(self.target, progress=slow)), closes)
        self.assertEqual(copied, [5000])
        self.assertEqual(nardsill.check(self.target).entries, 5000)

    def test_a_child_forked_in_it(self):
        index, children = self.opened(), []
        filled(index, 5000)

        def forks(count):
            if not children:
                children.append(os.fork())

        try:
            copied = index.copy(self.target, progress=forks)
        except nardsill.Forked:
            os._exit(0 if children == [0] else 1)
        if children == [0]:
            os._exit(2)
        self.assertEqual(copied, 5000)
        self.assertEqual(os.waitpid(children[0], 0)[1], 0)
        self.assertEqual(nardsill.check(self.target).entries, 5000)


if __name__ == "__main__":
    unittest.main()
