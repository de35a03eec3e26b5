"""What the tests share: a folder of their own, small indexes, and threads whose exceptions are told."""
import os
import pathlib
import sys
import tempfile
import threading
import unittest
from typing import Any, Callable, List, Type, TypeVar

HERE = pathlib.Path(__file__).resolve().parent
sys.path.insert(0, str(HERE.parent))
import nardsill  # noqa: E402

Fault = TypeVar("Fault", bound=BaseException)


class Room(unittest.TestCase):
    def setUp(self) -> None:
        folder = tempfile.TemporaryDirectory()
        self.addCleanup(folder.cleanup)
        self.folder = folder.name
        self.path = os.path.join(folder.name, "test.idx")

    def opened(self, path: str = "", unique: bool = False, pages: int = 1024, frames: int = 64) -> nardsill.Index:
        """A new index, which is closed behind the test."""
        path = path or self.path
        nardsill.create(path, pages=pages, log_bytes=65536, unique=unique)
        index = nardsill.Index(path, frames)
        self.addCleanup(index.close)
        return index

    def refused(self, fault: Type[Fault], call: Callable[..., Any], *arguments: Any, **named: Any) -> Fault:
        with self.assertRaises(fault) as caught:
            call(*arguments, **named)
        error = caught.exception
        self.assertTrue(str(error))
        if isinstance(error, nardsill.Error):
            self.assertIs(type(error).__module__, nardsill.__name__)
        return error


def listed(entries: Any) -> List[Any]:
    return [(key, tuple(row)) for key, row in entries]


def run_all(*work: Callable[[], None], within: float = 90) -> None:
    """Runs each in a thread, and raises the first exception of one. Each ends within so many seconds."""
    failed: List[BaseException] = []

    def kept(one: Callable[[], None]) -> None:
        try:
            one()
        except BaseException as error:
            failed.append(error)

    threads = [threading.Thread(target=kept, args=(one,), daemon=True) for one in work]
    for thread in threads:
        thread.start()
    for thread in threads:
        thread.join(within)
        assert not thread.is_alive(), "a thread waits for ever"
    if failed:
        raise failed[0]
