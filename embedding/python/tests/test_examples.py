"""The examples that the documents show run as they stand there, and a second time."""
import os
import re
import subprocess
import sys
import unittest

from room import HERE, Room, nardsill

PACKAGE = HERE.parent
DOCUMENTS = [PACKAGE.parent.parent / name for name in ("README.md", "docs/EMBEDDING.md")]


def examples(text):
    """Each block of lines with four spaces before them that opens an index."""
    blocks = re.findall(r"(?:^    .*\n|^\n(?=    ))+", text, re.MULTILINE)
    return ["".join(line[4:] or "\n" for line in block.splitlines(True)) for block in blocks if "with nardsill.open(" in block]


class Examples(Room):
    def run_twice(self, text):
        found = examples(text)
        self.assertTrue(found)
        for example in found:
            if "import nardsill" not in example:
                example = "import nardsill\n" + example
            told = [self.told_by(example) for _ in range(2)]
            self.assertEqual(told[0], told[1])

    def told_by(self, example):
        environment = {**os.environ, "PYTHONPATH": str(PACKAGE)}
        words = [sys.executable, "-W", "error", "-c", example]
        done = subprocess.run(words, cwd=self.folder, env=environment, stdout=subprocess.PIPE, stderr=subprocess.STDOUT, text=True)
        self.assertEqual(done.returncode, 0, done.stdout)
        return done.stdout

    def test_the_package(self):
        self.run_twice(nardsill.__doc__)

    def test_the_documents(self):
        for document in DOCUMENTS:
            with self.subTest(document.name):
                text = document.read_text() if document.exists() else ""
                if not examples(text):
                    self.skipTest(f"{document.name} has no example in Python: it is passed over")
                self.run_twice(text)


if __name__ == "__main__":
    unittest.main()
