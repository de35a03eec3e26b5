"""The package and a user's program are what a strict checker of types wants; wrong programs aren't."""
import importlib.util
import os
import shutil
import subprocess
import sys
import tempfile
import unittest

from room import HERE, Room

PACKAGE = HERE.parent

WRONG = '''
import nardsill
index = nardsill.open("mail.idx")
index.insert("text", (1, 1))
index.insert(b"key", 5)
index.scan(b"a", prefix=b"a")
row: nardsill.Row = index.get(b"key")
len(index)
index.patience = "long"
'''


def checker():
    if importlib.util.find_spec("mypy"):
        return [sys.executable, "-m", "mypy"]
    return [shutil.which("mypy")] if shutil.which("mypy") else None


@unittest.skipUnless(checker(), "mypy isn't installed: the types are passed over")
class Types(unittest.TestCase):
    def checked(self, *words, cwd=PACKAGE):
        with tempfile.TemporaryDirectory() as cache:
            environment = {**os.environ, "MYPYPATH": str(PACKAGE)}
            words = [*checker(), "--strict", "--cache-dir", cache, *words]
            done = subprocess.run(words, cwd=cwd, env=environment, stdout=subprocess.PIPE, stderr=subprocess.STDOUT, text=True)
        return done.returncode, done.stdout

    def test_the_package(self):
        self.assertEqual(self.checked("-p", "nardsill"), (0, "Success: no issues found in 6 source files\n"))

    def test_a_user(self):
        status, told = self.checked("tests/typed_user.py")
        self.assertEqual(status, 0, told)

    def test_wrong_programs(self):
        with tempfile.TemporaryDirectory() as folder:
            with open(os.path.join(folder, "wrong.py"), "w") as out:
                out.write(WRONG)
            status, told = self.checked("wrong.py", cwd=folder)
        self.assertEqual(status, 1, told)
        for line in range(4, 10):
            self.assertIn(f"wrong.py:{line}: error", told)


class User(Room):
    def test_it_runs(self):
        environment = {**os.environ, "PYTHONPATH": str(PACKAGE)}
        words = [sys.executable, "-W", "error", str(HERE / "typed_user.py"), self.path]
        done = subprocess.run(words, env=environment, stdout=subprocess.PIPE, stderr=subprocess.STDOUT, text=True)
        self.assertEqual(done.returncode, 0, done.stdout)


if __name__ == "__main__":
    unittest.main()
