"""Faults as exceptions: their classes, fields, texts and pickles, and what is said if the library isn't there."""
import copy
import errno
import multiprocessing
import os
import pickle
import resource
import subprocess
import sys
import unittest

from room import HERE, Room, nardsill

FAULTS = [fault for fault in vars(nardsill).values() if isinstance(fault, type) and issubclass(fault, nardsill.Error)]
FIELDS = ("number", "page", "row", "done", "filename", "errno", "strerror")


def told(fault):
    return {name: getattr(fault, name) for name in FIELDS if hasattr(fault, name)}


class Classes(unittest.TestCase):
    def test_each(self):
        numbers = {fault.number for fault in FAULTS}
        self.assertEqual(numbers, {0, *range(1, 22), 101, 102, 104, 105})
        for fault in FAULTS:
            made = fault()
            self.assertEqual(getattr(nardsill, fault.__name__), fault)
            self.assertTrue(fault.__doc__ and str(made) and fault.__name__ in repr(made))
            self.assertEqual((made.page, made.row, made.done, made.filename), (0, None, 0, None))

    def test_pickles_and_copies(self):
        for fault in FAULTS:
            more = {"errno": 5} if issubclass(fault, OSError) else {}
            made = fault(page=7, row=nardsill.Row(8, 9), done=3, filename="mail.idx", **more)
            made.note = "mine"
            for protocol in range(pickle.HIGHEST_PROTOCOL + 1):
                again = pickle.loads(pickle.dumps(made, protocol))
                self.assertIs(type(again), fault)
                self.assertEqual((told(again), str(again), again.note), (told(made), str(made), "mine"))
            for again in (copy.copy(made), copy.deepcopy(made)):
                self.assertEqual((type(again), told(again)), (fault, told(made)))
        unknown = pickle.loads(pickle.dumps(nardsill.Error(number=77, page=2)))
        self.assertEqual((unknown.number, unknown.page), (77, 2))

    def test_texts(self):
        fault = nardsill.KeyExists(row=nardsill.Row(7, 1), done=4, filename="mail.idx")
        for part in ("row 7 1", "4 were added before", "'mail.idx'"):
            self.assertIn(part, str(fault))
        self.assertIn("page 12", str(nardsill.Blocked(page=12)))
        self.assertEqual(str(nardsill.Io(errno=errno.ENOSPC, filename="mail.idx")), f"[Errno 28] {os.strerror(28)}: 'mail.idx'")


class Raised(Room):
    def test_io(self):
        error = self.refused(nardsill.NoFile, nardsill.Index, self.path)
        self.assertTrue(isinstance(error, nardsill.Io) and isinstance(error, FileNotFoundError) and isinstance(error, OSError))
        self.assertEqual((error.number, error.errno, error.strerror, error.filename), (2, 2, os.strerror(2), self.path))
        self.opened().close()
        error = self.refused(FileExistsError, nardsill.create, self.path)
        self.assertEqual((type(error), error.errno, error.filename), (nardsill.FileIsThere, errno.EEXIST, self.path))
        error = self.refused(nardsill.Io, nardsill.create, self.path + "/below")
        self.assertEqual(error.errno, errno.ENOTDIR)
        error = self.refused(nardsill.Io, nardsill.Index, self.folder)
        self.assertEqual(error.errno, errno.EISDIR)
        error = self.refused(OSError, nardsill.Index, os.fsencode(self.path) + b".none")
        self.assertEqual(error.filename, os.fsencode(self.path) + b".none")

    def test_errno_is_of_the_refused_call(self):
        """No file may be written for a while."""
        index = self.opened()
        index.insert_many([(b"%04d" % at, (at, 1)) for at in range(100)])
        soft, hard = resource.getrlimit(resource.RLIMIT_FSIZE)
        resource.setrlimit(resource.RLIMIT_FSIZE, (0, hard))
        try:
            error = self.refused(nardsill.Io, index.commit)
        finally:
            resource.setrlimit(resource.RLIMIT_FSIZE, (soft, hard))
        self.assertEqual((error.errno, error.strerror, error.filename), (errno.EFBIG, os.strerror(errno.EFBIG), self.path))
        try:
            index.close()
        except nardsill.Stopped:
            pass

    def test_other_files(self):
        with open(self.path, "wb") as out:
            out.write(os.urandom(100_000))
        for call in (nardsill.Index, nardsill.open, nardsill.check):
            error = self.refused(nardsill.Error, call, self.path)
            self.assertIn(type(error), (nardsill.BadSuper, nardsill.BadVersion, nardsill.LogDamaged, nardsill.PageDamaged))
            self.assertEqual(error.filename, self.path)
        self.opened(self.path + ".2")
        self.assertEqual(self.refused(nardsill.Locked, nardsill.Index, self.path + ".2").number, 102)

    def test_an_unknown_status(self):
        error = self.refused(nardsill.Error, self.opened()._ask, lambda at: 77)
        self.assertEqual((type(error), error.number, error.filename), (nardsill.Error, 77, self.path))
        self.assertIn("77", str(error))

    def test_a_fault_of_another_process(self):
        self.opened(unique=True).insert(b"a", (7, 8))
        with multiprocessing.get_context("spawn").Pool(1) as pool:
            with self.assertRaises(nardsill.Locked) as caught:
                pool.apply(nardsill.Index, (self.path,))
        self.assertEqual(caught.exception.filename, self.path)


class NoLibrary(Room):
    def run_without(self, *words, **environment):
        kept = {name: value for name, value in os.environ.items() if name != "NARDSILL_LIBRARY"}
        return subprocess.run([sys.executable, *words], capture_output=True, text=True, env={**kept, **environment})

    def test_the_sentence(self):
        code = f"import sys; sys.path.insert(0, {str(HERE.parent)!r}); import nardsill"
        done = self.run_without("-c", code, NARDSILL_LIBRARY=self.path)
        self.assertEqual(done.returncode, 1)
        self.assertIn("ImportError: ", done.stderr)
        self.assertIn("run tools/embedding build", done.stderr)

    def test_the_mailbox(self):
        done = self.run_without(str(HERE.parent / "mailbox_index.py"), "--demo", NARDSILL_LIBRARY=self.path)
        self.assertEqual(done.returncode, 1)
        self.assertNotIn("Traceback", done.stderr)
        self.assertIn("run tools/embedding build", done.stderr)

    def test_another_library(self):
        """One that is none of this package's, or an old one."""
        code = f"import sys; sys.path.insert(0, {str(HERE.parent)!r}); import nardsill"
        done = self.run_without("-c", code, NARDSILL_LIBRARY="libc.so.6")
        self.assertIn("ImportError: ", done.stderr)
        self.assertIn("run tools/embedding build", done.stderr)


if __name__ == "__main__":
    unittest.main()
