"""CPython's own tests of shelves, over a dbm that has its keys in an index."""
import importlib.util
import subprocess
import sys
import unittest

from room import HERE, Room


def has_tests():
    try:
        return bool(importlib.util.find_spec("test.test_shelve") and importlib.util.find_spec("test.mapping_tests"))
    except ImportError:
        return False


class Shelves(Room):
    @unittest.skipUnless(has_tests(), "Python's own tests aren't installed: shelves are passed over")
    def test_shelves(self):
        words = [sys.executable, str(HERE / "shelve_tests.py")]
        done = subprocess.run(words, cwd=self.folder, stdout=subprocess.PIPE, stderr=subprocess.STDOUT, text=True)
        self.assertEqual(done.returncode, 0, done.stdout)
        self.assertGreater(int(done.stdout.split()[-2]), 100)


if __name__ == "__main__":
    unittest.main()
