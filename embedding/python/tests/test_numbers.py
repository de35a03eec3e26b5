"""Numbers that are out of their ranges, and what isn't a number, are refused: none is cut to what fits."""
import os
import unittest

from room import Room, listed, nardsill

ROWS = [(2**32 + 7, 1), (2**32 - 1, 1), (-1, 1), (-(2**32), 1), (2**64, 1), (7, 0), (7, 65536), (7, 65536 + 3), (7, -1), (7, 2**64)]


class Numbers(Room):
    def test_rows(self):
        index = self.opened()
        index.insert(b"kept", (7, 1))
        index.insert(b"kept", (7, 3))
        for row in ROWS:
            self.refused(nardsill.BadRow, index.insert, b"x", row)
            self.refused(nardsill.BadRow, index.add, b"x", row)
            self.refused(nardsill.BadRow, index.delete_rows, [(7, 1), row])
            error = self.refused(nardsill.BadRow, index.insert_many, [(b"kept", (7, 1)), (b"x", row)][1:])
            self.assertEqual(error.done, 0)
        self.assertEqual(listed(index), [(b"kept", (7, 1)), (b"kept", (7, 3))])
        index.insert(b"x", (2**32 - 2, 65535))
        index.insert(b"x", (0, 1))
        index.insert(b"x", (True, True))
        self.assertEqual(listed(index.scan(b"x")), [(b"x", (0, 1)), (b"x", (1, 1)), (b"x", (2**32 - 2, 65535))])
        self.assertEqual(index.delete_rows([(2**32 - 2, 65535)]).removed, 1)

    def test_many_up_to_the_refused_one(self):
        for at, wrong in enumerate([(b"x", row) for row in ROWS] + [(b"x" * 65, (1, 1)), (b"x" * 300, (1, 1)), (b"x" * 70_000, (1, 1))]):
            index = self.opened(self.path + str(at))
            error = self.refused(nardsill.Error, index.insert_many, [(b"a", (1, 1)), (b"b", (2, 1)), wrong, (b"c", (3, 1))])
            self.assertIsInstance(error, nardsill.BadRow if len(wrong[0]) == 1 else nardsill.KeyTooLong)
            self.assertEqual(error.done, 2)
            self.assertEqual(listed(index), [(b"a", (1, 1)), (b"b", (2, 1))])
            index.close()
            os.unlink(self.path + str(at))

    def test_what_is_no_row(self):
        index = self.opened()
        for wrong in [(1.0, 1), ("1", 1), (1, None), (1,), (1, 2, 3), 5, None, "ab", b"abc"]:
            self.refused(TypeError, index.insert, b"x", wrong)
            self.refused(TypeError, index.insert_many, [(b"before", (1, 1)), (b"x", wrong)])
            self.refused(TypeError, index.delete_rows, [wrong])
        self.assertEqual(list(index), [])

        class Number:
            def __index__(self):
                return 9

        index.insert(b"x", (Number(), Number()))
        index.insert_many([(b"y", (Number(), Number()))])
        self.assertEqual(listed(index), [(b"x", (9, 9)), (b"y", (9, 9))])

    def test_limits(self):
        for name, wrong in [("items", (3, 51)), ("pages", (7, 65537)), ("log_bytes", (65535, 65537, 1 << 25))]:
            for number in wrong + (-1, 2**32, 2**32 + 64, 2**64, -(2**64) + 64):
                self.refused(nardsill.BadLimits, nardsill.create, self.path, **{name: number})
            for number in (1.5, "5", None):
                self.refused(TypeError, nardsill.create, self.path, **{name: number})
        self.assertFalse(os.path.exists(self.path))

    def test_frames(self):
        for frames in (1, 15, 1025, -1, 2**32, 2**32 + 64, 2**64):
            self.refused(nardsill.BadLimits, nardsill.open, self.path, frames)
        self.assertFalse(os.path.exists(self.path))
        self.opened().close()
        for frames in (1, 15, 1025, -1, 2**32, 2**32 + 64, 2**64):
            self.refused(nardsill.BadLimits, nardsill.Index, self.path, frames)
            self.refused(nardsill.BadLimits, nardsill.check, self.path, frames)
        for frames in (64.0, "64", None):
            self.refused(TypeError, nardsill.open, self.path, frames)
        with nardsill.open(self.path, 16) as index:
            self.assertEqual(index.info().frames, 16)

    def test_paths(self):
        for call in (nardsill.create, nardsill.open, nardsill.Index, nardsill.check):
            self.refused(ValueError, call, self.path + "\0b")
            self.refused(ValueError, call, b"a\0b")
            self.refused(TypeError, call, 5)
            self.refused(TypeError, call, None)
        self.assertEqual(os.listdir(self.folder), [])


if __name__ == "__main__":
    unittest.main()
