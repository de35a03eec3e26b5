"""Scans that are left, sought and refused, and indexes that are dropped or left by an exception."""
import gc
import os
import subprocess
import sys
import unittest
import warnings
from unittest import mock

from room import HERE, Room, listed, nardsill

MANY = [(b"k%04d" % at, (at, 1)) for at in range(1_000)]


class Left(Room):
    def setUp(self):
        super().setUp()
        self.index = self.opened()
        self.index.insert_many(MANY)

    def test_a_for_that_is_left(self):
        for _ in range(1_000):
            for entry in self.index.scan(b"k"):
                break
        self.assertEqual(entry, MANY[0])
        self.assertEqual(self.index.info().scans, 0)
        self.index.delete_rows([(1, 1)])

    def test_a_for_that_raises(self):
        for _ in range(100):
            try:
                for _entry in self.index:
                    raise KeyError
            except KeyError:
                pass
        self.assertEqual(self.index.info().scans, 0)

    def test_a_scan_in_a_cycle(self):
        for _ in range(100):
            scan = self.index.scan()
            next(scan)
            scan.me = scan
            del scan
            gc.collect()
        self.assertEqual(self.index.info().scans, 0)

    def test_an_index_and_a_scan_in_a_cycle(self):
        path = self.path + ".cycle"
        for _ in range(20):
            with warnings.catch_warnings():
                warnings.simplefilter("ignore", ResourceWarning)
                index = nardsill.open(path)
                index.add(b"a", (1, 1))
                scan = index.scan()
                next(scan)
                index.scan_of_mine, scan.me = scan, scan
                del index, scan
                gc.collect()
        nardsill.Index(path).close()

    def test_all_places(self):
        scans = [self.index.scan() for _ in range(63)]
        self.refused(nardsill.NoSession, self.index.scan)
        self.refused(nardsill.NoSession, self.index.get, b"k")
        scans.pop()
        self.assertEqual(self.index.get(b"k0007"), (7, 1))
        scans.append(self.index.scan())
        self.refused(nardsill.NoSession, self.index.scan)
        scans[5].close()
        self.index.scan()
        self.assertEqual(self.index.info().scans, 62)

    def test_a_scan_keeps_its_index(self):
        path = self.path + ".kept"
        nardsill.create(path)

        def scan():
            index = nardsill.Index(path)
            index.insert(b"a", (1, 1))
            return index.scan()

        with warnings.catch_warnings():
            warnings.simplefilter("ignore", ResourceWarning)
            self.assertEqual(listed(scan()), [(b"a", (1, 1))])
        nardsill.Index(path).close()

    def test_a_blocked_delete(self):
        scan = self.index.scan()
        next(scan)
        error = self.refused(nardsill.Blocked, self.index.delete_rows, [(1, 1)])
        self.assertTrue(error.page > 0 and f"page {error.page}" in str(error))
        scan.close()
        self.assertEqual(self.index.delete_rows([(1, 1)]).removed, 1)
        self.assertEqual(list(scan), [])
        self.assertRaises(StopIteration, next, scan)

    def test_an_ended_scan_blocks_nothing(self):
        scan = self.index.scan()
        self.assertEqual(listed(scan), MANY)
        self.index.delete_rows([(1, 1)])
        self.assertEqual(list(scan), [])


class Sought(Room):
    def test_seek(self):
        index = self.opened()
        index.insert_many(MANY)
        scan = index.scan(b"k0100", b"k0900")
        for start in (b"k0500", b"k0899", b"k0900", b"k0950", b"k0000", b"", None, b"k01"):
            scan.seek(start)
            self.assertEqual(listed(scan), [entry for entry in MANY if (start or b"") <= entry[0] < b"k0900"])
            self.assertRaises(StopIteration, next, scan)
            self.assertEqual(index.info().scans, 0)
        scan.seek(b"k0100")
        for at in range(100, 800, 7):
            scan.seek(bytearray(b"k%04d" % at))
            self.assertEqual([next(scan).row.block for _ in range(3)], [at, at + 1, at + 2])
        self.assertEqual(index.info().scans, 1)
        self.refused(nardsill.KeyTooLong, scan.seek, b"x" * 65)
        self.refused(TypeError, scan.seek, "text")
        # A refused seek changes nothing.
        self.assertEqual(next(scan).row.block, at + 3)
        scan.close()
        scan.seek(b"k0300")
        self.assertEqual(next(scan).row.block, 300)
        with scan:
            pass
        self.assertEqual(index.info().scans, 0)

    def test_seek_in_a_prefix(self):
        index = self.opened()
        index.insert_many(MANY)
        scan = index.scan(prefix=b"k01")
        for start in (b"", b"k0150", b"k0199", b"k02", None):
            scan.seek(start)
            self.assertEqual(listed(scan), [entry for entry in MANY if entry[0] >= (start or b"") and entry[0].startswith(b"k01")])

    def test_seek_where_no_place_is(self):
        index = self.opened()
        index.insert_many(MANY)
        scan = index.scan()
        list(scan)
        others = [index.scan() for _ in range(63)]
        self.refused(nardsill.NoSession, scan.seek, b"k")
        self.assertEqual(list(scan), [])
        others.pop()
        scan.seek(b"k0999")
        self.assertEqual(len(list(scan)), 1)


class Ended(Room):
    def test_a_scan_of_a_closed_index(self):
        """It raises ValueError: however few entries there are, and however many were read ahead. One that had ended stays so."""
        for size in (1, 2, 5, 300):
            with nardsill.open(f"{self.path}{size}") as index:
                index.insert_many(MANY[:size])
                begun, fresh, ended = index.scan(), index.scan(), index.scan()
                next(begun)
                list(ended)
            for scan in (begun, fresh):
                error = self.refused(ValueError, next, scan)
                self.assertEqual((str(error), error.__context__), ("the index is closed", None))
                self.refused(ValueError, scan.seek, b"")
                scan.close()
                self.assertEqual(list(scan), [])
            self.assertEqual(list(ended), [])
            self.refused(ValueError, ended.seek, b"")

    def test_a_fault(self):
        """It comes behind the entries that were read before it, and again, until another seek."""
        index = self.opened()
        index.insert_many(MANY)
        scan, real = index.scan(), nardsill._library.scan_read

        def fails(at, room, size, count):
            return real(at, room, size, count) if len(scan._few) or scan._reading.batch < 64 else 10

        with mock.patch.object(nardsill._library, "scan_read", fails):
            given = []
            with self.assertRaises(nardsill.NoFrame) as caught:
                for entry in scan:
                    given.append(entry)
            self.assertEqual(listed(given), MANY[: len(given)])
            self.assertGreater(len(given), 0)
            self.refused(nardsill.NoFrame, next, scan)
            self.assertIsNot(self.refused(nardsill.NoFrame, next, scan), caught.exception)
            self.assertIsNone(caught.exception.__context__)
        self.assertEqual(index.info().scans, 0)
        scan.seek(b"k0990")
        self.assertEqual(len(list(scan)), 10)


class Dropped(Room):
    def test_an_index_that_is_dropped(self):
        nardsill.create(self.path)
        index = nardsill.Index(self.path)
        index.insert(b"a", (1, 1))
        with self.assertWarns(ResourceWarning) as caught:
            del index
            gc.collect()
        self.assertEqual(str(caught.warning), f"unclosed index {self.path!r}")
        with nardsill.Index(self.path) as index:
            self.assertEqual(listed(index), [(b"a", (1, 1))])

    def test_no_warning_where_it_was_closed_or_never_opened(self):
        with warnings.catch_warnings():
            warnings.simplefilter("error")
            nardsill.open(self.path).close()
            self.refused(nardsill.NoFile, nardsill.Index, self.path + ".none")
            self.refused(TypeError, nardsill.Index, None)
            gc.collect()

    def test_the_end_of_a_program(self):
        """An index that a program leaves open is closed at its end, whatever still has it."""
        code = (
            f"import sys; sys.path.insert(0, {str(HERE.parent)!r}); import nardsill\n"
            "index = nardsill.open(sys.argv[1]); index.add(b'a', (1, 1)); scan = index.scan(); next(scan)\n"
            "def keep(): return index\n"
        )
        for _ in range(2):
            done = subprocess.run([sys.executable, "-W", "error", "-c", code, self.path], stderr=subprocess.PIPE, text=True)
            self.assertEqual(done.returncode, 0)
        with nardsill.Index(self.path) as index:
            self.assertEqual(listed(index), [(b"a", (1, 1))])

    def test_the_end_of_a_program_with_a_thread_that_goes_on(self):
        """A finalizer closes an index at the end, in which a thread is in a call that never ends. The program ends."""
        code = (
            f"import sys, threading, time; sys.path.insert(0, {str(HERE.parent)!r}); import nardsill\n"
            "index = nardsill.open(sys.argv[1]); index.add(b'a', (1, 1)); index.commit()\n"
            "class Holder:\n"
            "    def __del__(self, index=index): index.close(); print('closed')\n"
            "threading.Thread(target=index._held.ask, args=(time.sleep, 10**6), daemon=True).start()\n"
            "while not index._held.callers: time.sleep(0.01)\n"
            "holder = Holder()\n"
        )
        done = subprocess.run([sys.executable, "-c", code, self.path], stdout=subprocess.PIPE, text=True, timeout=60)
        self.assertEqual((done.returncode, done.stdout), (0, "closed\n"))


class Bodies(Room):
    def refusing(self):
        """A close whose checkpoint is refused."""
        real = nardsill._library.close
        return mock.patch.object(nardsill._library, "close", lambda at: real(at) or 2)

    def test_an_exception_of_the_body(self):
        with self.assertRaises(KeyError) as caught:
            with nardsill.open(self.path) as index:
                index.insert(b"a", (1, 1))
                raise KeyError("mine")
        self.assertEqual(caught.exception.args, ("mine",))
        self.assertTrue(index.closed)
        with nardsill.Index(self.path) as index:
            self.assertEqual(listed(index), [(b"a", (1, 1))])

    def test_a_refused_close_behind_it(self):
        with self.refusing(), self.assertRaises(KeyError) as caught:
            with nardsill.open(self.path) as index:
                raise KeyError("mine")
        error = caught.exception
        self.assertEqual(error.args, ("mine",))
        self.assertTrue("Io" in "".join(getattr(error, "__notes__", [])) or isinstance(error.__context__, nardsill.Io))
        self.assertTrue(index.closed)
        nardsill.Index(self.path).close()

    def test_a_refused_close_alone(self):
        with self.refusing(), self.assertRaises(nardsill.Io) as caught:
            with nardsill.open(self.path):
                pass
        self.assertEqual(caught.exception.filename, self.path)
        nardsill.Index(self.path).close()

    def test_a_body_that_closes(self):
        with nardsill.open(self.path) as index:
            index.close()
        self.assertTrue(os.path.exists(self.path))


if __name__ == "__main__":
    unittest.main()
