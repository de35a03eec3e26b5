"""Vacuums that wait for open scans, and calls of other threads meanwhile."""
import threading
import time
import unittest

from room import Room, nardsill, run_all


class Patience(Room):
    def stood_on(self, seconds):
        """An index of few entries with such a patience, and a scan that stands on their page."""
        index = self.opened()
        index.insert_many([(b"%d" % at, (at, 1)) for at in range(10)])
        index.patience = seconds
        scan = index.scan()
        self.assertEqual(next(scan), (b"0", (0, 1)))
        return index, scan

    def test_what_it_is(self):
        with nardsill.open(self.path) as index:
            self.assertEqual(index.patience, 0)
            index.patience = 3
            self.assertEqual(index.patience, 3)
            for wrong in (-1, -0.001, 4294967.3, float("nan"), float("inf")):
                self.refused(ValueError, setattr, index, "patience", wrong)
            self.refused(TypeError, setattr, index, "patience", "long")
            self.assertEqual(index.patience, 3)
        self.refused(ValueError, setattr, index, "patience", 1)
        with nardsill.open(self.path, patience=4294967.295) as index:
            self.assertEqual(index.patience, 4294967.295)
        with nardsill.Index(self.path, 16, 0.25) as index:
            self.assertEqual(index.patience, 0.25)
        self.refused(ValueError, nardsill.open, self.path, patience=-1)

    def test_it_ends(self):
        index, scan = self.stood_on(0)
        self.refused(nardsill.Blocked, index.delete_rows, [(1, 1)])
        index.patience = 0.2
        begun = time.monotonic()
        fault = self.refused(nardsill.Blocked, index.delete_rows, [(1, 1)])
        self.assertGreater(fault.page, 0)
        self.assertGreaterEqual(time.monotonic() - begun, 0.2)
        scan.close()
        self.assertEqual(index.delete_rows([(1, 1)]).removed, 1)

    def test_it_is_set_at_the_opening(self):
        self.stood_on(0)[0].close()
        with nardsill.open(self.path, patience=0.2) as index, index.scan() as scan:
            next(scan)
            begun = time.monotonic()
            self.refused(nardsill.Blocked, index.delete_rows, [(1, 1)])
            self.assertGreaterEqual(time.monotonic() - begun, 0.2)

    def waited_for(self, ends):
        index, scan = self.stood_on(60)
        removed = []

        def delete():
            removed.append(index.delete_rows([(1, 1), (2, 1)]).removed)

        def go_on():
            time.sleep(0.1)
            index.insert(b"meanwhile", (77, 1))
            self.assertEqual(index.get(b"meanwhile"), (77, 1))
            index.commit()
            self.assertEqual((removed, index.info().scans), ([], 1))
            ends(index, scan)

        run_all(delete, go_on)
        self.assertEqual(removed, [2])
        self.assertEqual(index.vacuum().entries, 9)

    def test_a_scan_that_is_closed(self):
        self.waited_for(lambda index, scan: scan.close())

    def test_a_scan_that_reads_to_its_end(self):
        self.waited_for(lambda index, scan: list(scan))

    def test_a_scan_that_begins_anew(self):
        self.waited_for(lambda index, scan: scan.seek())

    def test_a_shorter_patience_while_one_waits(self):
        index, scan = self.stood_on(60)

        def delete():
            self.refused(nardsill.Blocked, index.delete_rows, [(1, 1)])

        def shorten():
            time.sleep(0.1)
            index.patience = 0

        run_all(delete, shorten)
        scan.close()

    def test_calls_beside_a_bulk_delete(self):
        """Other threads' calls go on while it runs, and what it isn't to delete is there."""
        index, is_over, counts = self.opened(pages=16384, frames=256), threading.Event(), []
        index.insert_many([(b"%06d" % at, (at, 1)) for at in range(60000)])
        index.patience = 30

        def delete():
            try:
                self.assertEqual(index.delete_rows([(at, 1) for at in range(0, 60000, 2)]).removed, 30000)
            finally:
                is_over.set()

        def work(number):
            count = 0
            while not is_over.is_set():
                index.insert(b"%06d" % (2 * count + 1), (count, 2 + number))
                self.assertIsNotNone(index.get(b"%06d" % (2 * count + 1)))
                keys = [key for key, _ in index.scan(b"%06d" % count, b"%06d" % (count + 300))]
                self.assertEqual(keys, sorted(keys))
                count += 1
            counts.append(count)

        run_all(delete, *(lambda number=number: work(number) for number in range(2)))
        self.assertEqual(index.vacuum().entries, 30000 + sum(counts))


if __name__ == "__main__":
    unittest.main()
