"""Each call: beside a set, over keys and ranges of each kind, and in files that a killed process leaves."""
import os
import pathlib
import random
import signal
import subprocess
import sys
import time
import unittest
from unittest import mock

from room import HERE, Room, listed, nardsill


class RandomCalls(Room):
    steps = 20_000

    def test_beside_a_set(self):
        dice, model = random.Random(1), set()
        nardsill.create(self.path)
        with nardsill.open(self.path) as index:
            for _ in range(self.steps):
                self.step(index, dice, model)
            self.assertEqual(listed(index), sorted(model))
        report = nardsill.check(self.path)
        self.assertEqual((report.damage, report.entries), (0, len(model)))
        with nardsill.Index(self.path) as index:
            self.refused(nardsill.Locked, nardsill.check, self.path)
            self.assertEqual(listed(index), sorted(model))

    def step(self, index, dice, model):
        die = dice.random()
        if die < 0.7:
            entry = dice.randbytes(dice.choice((0, 1, 2, 3, 16, 64))), (dice.randrange(2000), dice.randrange(1, 3))
            if entry in model:
                self.refused(nardsill.Exists, index.insert, *entry)
                self.assertFalse(index.add(*entry))
            else:
                index.insert(*entry)
                model.add(entry)
        elif die < 0.75:
            low, high = sorted((dice.randbytes(2), dice.randbytes(2)))
            self.assertEqual(listed(index.scan(low, high)), sorted(e for e in model if low <= e[0] < high))
        elif die < 0.755:
            prefix = dice.choice((b"", b"\xff", b"\xff\xff", b"\x00", dice.randbytes(1), dice.randbytes(2)))
            self.assertEqual(listed(index.scan(prefix=prefix)), sorted(e for e in model if e[0].startswith(prefix)))
        elif die < 0.76:
            key = dice.randbytes(1)
            rows = sorted(row for name, row in model if name == key)
            self.assertEqual(index.get(key), rows[0] if rows else None)
            self.assertEqual(key in index, bool(rows))
        elif die < 0.77:
            rows = {(dice.randrange(2000), 1) for _ in range(20)}
            gone = {e for e in model if e[1] in rows}
            self.assertEqual(index.delete_rows(rows).removed, len(gone))
            model -= gone
        elif die < 0.775:
            self.assertEqual(index.vacuum().entries, len(model))
        elif die < 0.78:
            index.commit()


class Calls(Room):
    def test_get(self):
        index = self.opened()
        index.insert(b"one", (7, 1))
        index.insert(b"one", (6, 2))
        self.assertEqual(index.get(b"one"), nardsill.Row(6, 2))
        self.assertIsNone(index.get(b"on"))
        self.assertEqual(index.get(b"onee", "none"), "none")
        self.assertTrue(b"one" in index and b"two" not in index)
        self.assertEqual(index.info().scans, 0)
        self.refused(TypeError, lambda: index[b"one"])

    def test_unique(self):
        index = self.opened(unique=True)
        index.insert(b"one", (7, 1))
        self.refused(nardsill.Exists, index.insert, b"one", (7, 1))
        self.assertEqual(self.refused(nardsill.KeyExists, index.insert, b"one", (8, 2)).row, nardsill.Row(7, 1))
        self.assertEqual(self.refused(nardsill.KeyExists, index.add, b"one", (8, 2)).row, (7, 1))
        error = self.refused(nardsill.KeyExists, index.insert_many, [(b"two", (8, 2)), (b"one", (8, 2))])
        self.assertEqual((error.done, error.row), (1, (7, 1)))
        self.assertIsNone(self.refused(nardsill.BadRow, index.insert, b"one", (1, 0)).row)
        self.assertEqual(index[b"two"], (8, 2))
        self.assertEqual(self.refused(KeyError, lambda: index[b"three"]).args, (b"three",))
        index.close()
        with nardsill.Index(self.path) as index:
            self.assertEqual(self.refused(nardsill.KeyExists, index.insert, b"two", (7, 1)).row, (8, 2))
            self.assertEqual(listed(index), [(b"one", (7, 1)), (b"two", (8, 2))])

    def test_ranges(self):
        index = self.opened()
        keys = [b"", b"a", b"a\0", b"a\0b", b"ab", b"b", b"b" * 64, b"\xff", b"\xff\xff", b"\xff" * 64]
        index.insert_many([(key, (at, 1)) for at, key in enumerate(keys)])

        def names(*arguments, **named):
            return [key for key, _ in index.scan(*arguments, **named)]

        self.assertEqual(names(), keys)
        for start in [None] + keys:
            for stop in [None] + keys:
                wanted = [key for key in keys if key >= (start or b"") and (stop is None or key < stop)]
                self.assertEqual(names(start, stop), wanted)
        for prefix in keys + [b"\xfe", b"a\xff", b"b" * 63, b"\xff" * 63]:
            self.assertEqual(names(prefix=prefix), [key for key in keys if key.startswith(prefix)])
        self.refused(TypeError, index.scan, b"a", prefix=b"a")
        self.refused(TypeError, index.scan, stop=b"a", prefix=b"a")
        self.refused(nardsill.KeyTooLong, index.scan, b"x" * 65)
        self.refused(nardsill.KeyTooLong, index.scan, prefix=b"x" * 65)

    def test_kinds_of_keys(self):
        index = self.opened()
        index.insert(bytearray(b"bytearray"), (1, 1))
        index.insert(memoryview(b"memoryview"), (2, 1))
        index.insert_many([(bytearray(b"many"), (3, 1)), (memoryview(b"a view")[2:], nardsill.Row(4, 1)), (b"one\0more", [5, True])])
        self.assertEqual([key for key, _ in index], [b"bytearray", b"many", b"memoryview", b"one\0more", b"view"])
        self.assertEqual(index.get(memoryview(b"one\0more")), (5, 1))
        self.assertTrue(bytearray(b"many") in index)
        self.assertEqual(len(list(index.scan(bytearray(b"c"), memoryview(b"n")))), 2)
        for wrong in ("text", 5, None, [1], object()):
            self.refused(TypeError, index.insert, wrong, (1, 1))
            self.refused(TypeError, index.add, wrong, (1, 1))
            self.refused(TypeError, index.insert_many, [(b"before", (1, 1)), (wrong, (1, 1))])
            self.refused(TypeError, index.get, wrong)
            self.refused(TypeError, lambda: wrong in index)
            if wrong is not None:
                self.refused(TypeError, index.scan, wrong)
                self.refused(TypeError, index.scan, None, wrong)
                self.refused(TypeError, index.scan, prefix=wrong)
        self.assertIn("str", str(self.refused(TypeError, index.get, "text")))
        self.assertEqual(sum(1 for _ in index), 5)
        self.refused(nardsill.KeyTooLong, index.insert, b"x" * 65, (1, 1))
        self.refused(nardsill.KeyTooLong, index.insert, b"x" * 100_000, (1, 1))
        self.refused(nardsill.KeyTooLong, index.get, b"x" * 65)

    def test_info(self):
        nardsill.create(self.path, items=20, pages=128, log_bytes=131072, unique=True)
        with nardsill.Index(self.path, 32) as index:
            info = index.info()
            self.assertEqual(info[:4], (20, 128, 131072, True))
            self.assertEqual((info.frames, info.scans, info.stopped), (32, 0, False))
            self.assertTrue(0 < info.pages_used <= 128 and info.pages_free <= info.pages_used)
            with index.scan():
                self.assertEqual(index.info().scans, 1)
            self.assertEqual(index.info().scans, 0)

    def test_actions(self):
        index = self.opened()
        first = index.insert(b"a", (1, 1))
        self.assertGreater(index.insert(b"b", (1, 1)), first)
        self.assertGreaterEqual(index.commit(), 2)
        self.assertGreaterEqual(index.checkpoint(), 2)

    def test_version(self):
        self.assertEqual(nardsill.version().split(".")[0], nardsill.__version__.split(".")[0])

    def test_a_closed_index(self):
        index = self.opened()
        self.assertFalse(index.closed)
        index.close()
        index.close()
        self.assertTrue(index.closed)
        calls = [index.commit, index.checkpoint, index.vacuum, index.info, index.scan, lambda: index.get(b"a"), lambda: list(index)]
        calls += [lambda: index.insert(b"a", (1, 1)), lambda: index.insert_many([]), lambda: index.delete_rows([])]
        calls += [lambda: index[b"a"], lambda: b"a" in index, lambda: index.add(b"a", (1, 1))]
        for call in calls:
            self.assertEqual(str(self.refused(ValueError, call)), "the index is closed")


class Files(Room):
    def test_open_makes_one(self):
        with nardsill.open(pathlib.Path(self.path)) as index:
            index.insert(b"a", (1, 1))
        with nardsill.open(os.fsencode(self.path)) as index:
            self.assertIn(b"a", index)

    def test_a_link_that_leads_nowhere(self):
        os.symlink(self.path + ".none", self.path)
        self.refused(nardsill.NoFile, nardsill.open, self.path)

    def test_it_is_made_by_another_just_now(self):
        with mock.patch.object(os.path, "lexists", lambda path: nardsill.create(path) is None):
            with nardsill.open(self.path) as index:
                self.assertEqual(list(index), [])

    def test_many_open_at_once(self):
        """Processes race to make it and to add to it. Each meets Locked at most."""
        code = f"import sys, time; sys.path.insert(0, {str(HERE.parent)!r}); import nardsill\n" + (
            "for at in range(5):\n"
            "    while True:\n"
            "        try:\n"
            "            with nardsill.open(sys.argv[1]) as index:\n"
            "                index.insert(sys.argv[2].encode(), (at, 1))\n"
            "                break\n"
            "        except nardsill.Locked:\n"
            "            time.sleep(0.001)\n"
        )
        children = [subprocess.Popen([sys.executable, "-c", code, self.path, str(name)]) for name in range(4)]
        self.assertEqual([child.wait() for child in children], [0] * 4)
        with nardsill.Index(self.path) as index:
            self.assertEqual(len(list(index)), 20)

    def test_a_killed_child(self):
        many = [(b"kept%04d" % at, (at, 5)) for at in range(1000)]
        nardsill.create(self.path)
        child = os.fork()
        if not child:
            index = nardsill.Index(self.path)
            index.insert_many(many)
            index.commit()
            pathlib.Path(self.path + ".ready").touch()
            while True:
                index.add(os.urandom(8), (1, 6))
        while not os.path.exists(self.path + ".ready"):
            time.sleep(0.01)
        os.kill(child, signal.SIGKILL)
        os.waitpid(child, 0)
        with nardsill.Index(self.path) as index:
            self.assertEqual(listed(index.scan(b"kept", b"kepu")), many)


if __name__ == "__main__":
    unittest.main()
