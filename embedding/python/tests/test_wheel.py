"""The wheel and the source distribution: they are built without a network, have the library, work, and aren't built without it."""
import base64
import csv
import hashlib
import importlib.util
import io
import os
import shutil
import subprocess
import sys
import tarfile
import unittest
import zipfile

from room import HERE, Room, nardsill
from test_examples import examples

PACKAGE = HERE.parent
CODE = "import nardsill, sys\nwith nardsill.open(sys.argv[1]) as index: index.add(b'a', (1, 1))\nprint(nardsill.__file__)"


def backend(folder):
    """What builds the package that lies in a folder."""
    path = os.path.join(folder, "backend", "nardsill_backend.py")
    spec = importlib.util.spec_from_file_location("nardsill_backend", path)
    module = importlib.util.module_from_spec(spec)
    spec.loader.exec_module(module)
    return module


class Wheel(Room):
    def setUp(self):
        super().setUp()
        self.source = os.path.join(self.folder, "source")
        shutil.copytree(PACKAGE, self.source, ignore=shutil.ignore_patterns("libnardsill.so", "__pycache__"))

    def with_library(self):
        shutil.copy(nardsill._library.PATH, os.path.join(self.source, "nardsill", "libnardsill.so"))

    def built_by_pip(self, source):
        """What pip tells as it builds a wheel of a source, into a folder of its own, in a room that it makes itself, without a network."""
        words = [sys.executable, "-m", "pip", "wheel", "--no-deps", "--no-index", "-w", os.path.join(self.folder, "by-pip"), source]
        environment = {**os.environ, "PIP_DISABLE_PIP_VERSION_CHECK": "1"}
        return subprocess.run(words, env=environment, stdout=subprocess.PIPE, stderr=subprocess.STDOUT, text=True)

    def works_in(self, folder):
        environment = {name: value for name, value in os.environ.items() if name != "NARDSILL_LIBRARY"}
        environment["PYTHONPATH"] = folder
        words = [sys.executable, "-c", CODE, self.path]
        done = subprocess.run(words, cwd=self.folder, env=environment, stdout=subprocess.PIPE, text=True)
        self.assertEqual((done.returncode, done.stdout.startswith(folder)), (0, True))

    def test_the_wheel(self):
        self.with_library()
        name = backend(self.source).build_wheel(self.folder)
        self.assertRegex(name, rf"^nardsill-{nardsill.__version__}-py3-none-linux_\w+\.whl$")
        installed = os.path.join(self.folder, "installed")
        with zipfile.ZipFile(os.path.join(self.folder, name)) as wheel:
            names = wheel.namelist()
            wheel.extractall(installed)
            about = f"nardsill-{nardsill.__version__}.dist-info/"
            told = {row[0]: row[1:] for row in csv.reader(io.StringIO(wheel.read(about + "RECORD").decode()))}
            self.assertEqual(told.pop(about + "RECORD"), ["", ""])
            for path, (digest, length) in told.items():
                data = wheel.read(path)
                self.assertEqual(digest, "sha256=" + base64.urlsafe_b64encode(hashlib.sha256(data).digest()).rstrip(b"=").decode())
                self.assertEqual(int(length), len(data))
        self.assertEqual({*told, about + "RECORD"}, set(names))
        self.assertEqual(len(names), len(set(names)))
        wanted = {"nardsill/libnardsill.so", "nardsill/py.typed", "nardsill/_index.py", about + "METADATA", about + "WHEEL"}
        self.assertTrue(wanted <= set(told))
        self.works_in(installed)

    def test_the_words(self):
        """What is read of pyproject.toml without a reader of such files is what one reads."""
        try:
            import tomllib
        except ImportError:
            self.skipTest("Python 3.10 reads no TOML: its words are passed over")
        with open(os.path.join(self.source, "pyproject.toml"), "rb") as text:
            project = tomllib.load(text)["project"]
        made = backend(self.source)
        self.assertEqual(made.project(), project)
        self.assertIn(f"\nRequires-Python: {project['requires-python']}\n", made.metadata())
        self.assertEqual(made.metadata().count("\nClassifier: "), len(project["classifiers"]))

    def test_the_readme(self):
        """The example of README.md runs."""
        (example,) = examples((PACKAGE / "README.md").read_text())
        words = [sys.executable, "-W", "error", "-c", example]
        environment = {**os.environ, "PYTHONPATH": str(PACKAGE)}
        done = subprocess.run(words, cwd=self.folder, env=environment, stdout=subprocess.PIPE, stderr=subprocess.STDOUT, text=True)
        self.assertEqual((done.returncode, done.stdout), (0, "alice@example.org 7 1\n"))

    def test_the_same_files_make_the_same_bytes(self):
        self.with_library()
        for build in ("build_wheel", "build_sdist"):
            made = []
            for number in ("1", "2"):
                folder = os.path.join(self.folder, build + number)
                os.mkdir(folder)
                name = getattr(backend(self.source), build)(folder)
                with open(os.path.join(folder, name), "rb") as found:
                    made.append((name, found.read()))
            self.assertEqual(made[0], made[1])

    @unittest.skipUnless(importlib.util.find_spec("pip"), "pip isn't installed: what it builds is passed over")
    def test_pip(self):
        """pip builds the backend's wheel, and from the source distribution the same one."""
        self.with_library()
        name = backend(self.source).build_wheel(self.folder)
        archive = backend(self.source).build_sdist(self.folder)
        with open(os.path.join(self.folder, name), "rb") as found:
            wanted = found.read()
        for source in (self.source, os.path.join(self.folder, archive)):
            done = self.built_by_pip(source)
            self.assertEqual(done.returncode, 0, done.stdout)
            path = os.path.join(self.folder, "by-pip", name)
            with open(path, "rb") as found:
                self.assertEqual(found.read(), wanted)
            os.remove(path)

    def test_the_source(self):
        self.with_library()
        name = backend(self.source).build_sdist(self.folder)
        self.assertEqual(name, f"nardsill-{nardsill.__version__}.tar.gz")
        with tarfile.open(os.path.join(self.folder, name)) as archive:
            top = name[: -len(".tar.gz")] + "/"
            names = {each.removeprefix(top) for each in archive.getnames()}
        wanted = {"PKG-INFO", "README.md", "pyproject.toml", "backend/nardsill_backend.py", "nardsill/libnardsill.so"}
        self.assertTrue(wanted | {"tests/test_wheel.py"} <= names)

    def test_without_the_library(self):
        made = backend(self.source)
        for build in (made.build_wheel, made.build_sdist):
            with self.assertRaisesRegex(SystemExit, "run tools/embedding build"):
                build(self.folder)
        self.assertFalse([name for name in os.listdir(self.folder) if name.startswith("nardsill-")])


if __name__ == "__main__":
    unittest.main()
