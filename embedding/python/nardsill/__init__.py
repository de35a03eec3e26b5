"""An index of keys in a file.

    import nardsill

    with nardsill.open("mail.idx") as index:
        index.add(b"alice@example.org", (7, 1))
        index.commit()
        for key, row in index.scan(prefix=b"alice@"):
            print(key.decode(), row.block, row.offset)

An entry is a key of up to 64 bytes and a row, a block and an offset. An insert that was answered is in the index at once, and durable
once a commit was answered: there is no rollback. Each refusal raises an exception of its fault's name, below `nardsill.Error`.

Threads may share an index and its scans. Calls of other threads may run beside a call, and `Index.close` waits for them. A fault's row,
page and errno are of the very call that raised it. A forked child opens an index for itself: the parent's raise `Forked` there.
"""
import errno
import os
from ctypes import byref
from typing import Any, Callable, Optional

from . import _library
from ._faults import (
    BadLimits,
    BadRow,
    BadSuper,
    BadVersion,
    Blocked,
    DeviceTooSmall,
    Error,
    Exists,
    FileIsThere,
    Forked,
    GivenUp,
    IndexFull,
    Io,
    KeyExists,
    KeyTooLong,
    Locked,
    LogDamaged,
    LogFull,
    Misuse,
    NoFile,
    NoFrame,
    NoMemory,
    NoSession,
    NotPermitted,
    PageDamaged,
    SessionBusy,
    Stopped,
    TooTall,
    VacuumRunning,
)
from ._held import Held
from ._index import Index, Scan, frames_in_range, limits_in_range, path_bytes
from ._library import version
from ._values import AnyRow, Entry, Info, Key, Report, Row, Stats

__version__ = "1.3.0"


def create(path: Any, items: int = 50, pages: int = 4096, log_bytes: int = 1 << 20, unique: bool = False) -> None:
    """Makes an empty index in a new file, which is there only once it is whole.

    It has so many items a page (4 to 50), pages (8 to 65,536), and bytes of the log (65,536 to 16,777,216, a multiple of 4,096). In a
    unique one no two entries have the same key. Raises `BadLimits`, `FileIsThere` and other `Io`, and `Locked` if another makes it.
    """
    name, given = path_bytes(path), os.fspath(path)
    Held(given).ask(_library.create, name, byref(limits_in_range(given, items, pages, log_bytes, unique)))


def open(path: Any, frames: int = 64, patience: float = 0.0) -> Index:
    """Opens the index in a file, after any crash, with so many pages in memory (16 to 1,024); makes an empty one if there is no file.

    With a `patience` a bulk delete waits so many seconds for an open scan. Raises what `Index` and `create` raise. If two make it at
    once, one does, and both go on to the opening.
    """
    try:
        return Index(path, frames, patience)
    except NoFile:
        # Another has made it just now; or it is a link that leads nowhere, and nothing is made there.
        if os.path.lexists(path):
            return Index(path, frames, patience)
    try:
        create(path)
    except FileIsThere:
        pass
    except Io as fault:
        # Its draft was placed by another, just now.
        if fault.errno != errno.EBUSY:
            raise
    return Index(path, frames, patience)


def copy(
    source: Any,
    target: Any,
    items: Optional[int] = None,
    pages: Optional[int] = None,
    log_bytes: Optional[int] = None,
    unique: Optional[bool] = None,
    progress: Optional[Callable[[int], object]] = None,
) -> int:
    """Copies the index in a file that nobody has open into a new file, as `Index.copy` does. Raises what `Index` and that raise."""
    with Index(source) as index:
        return index.copy(target, items, pages, log_bytes, unique, progress)


def check(path: Any, frames: int = 64) -> Report:
    """Judges the index in a file that nobody has open. Raises what `Index` raises, if the file can't be judged."""
    name, given = path_bytes(path), os.fspath(path)
    report = _library.ReportStruct()
    Held(given).ask(_library.check, name, frames_in_range(frames, given), byref(report))
    return Report(*(getattr(report, name) for name in Report._fields))


__all__ = [
    "AnyRow",
    "BadLimits",
    "BadRow",
    "BadSuper",
    "BadVersion",
    "Blocked",
    "DeviceTooSmall",
    "Entry",
    "Error",
    "Exists",
    "FileIsThere",
    "Forked",
    "GivenUp",
    "Index",
    "IndexFull",
    "Info",
    "Io",
    "Key",
    "KeyExists",
    "KeyTooLong",
    "Locked",
    "LogDamaged",
    "LogFull",
    "Misuse",
    "NoFile",
    "NoFrame",
    "NoMemory",
    "NoSession",
    "NotPermitted",
    "PageDamaged",
    "Report",
    "Row",
    "Scan",
    "SessionBusy",
    "Stats",
    "Stopped",
    "TooTall",
    "VacuumRunning",
    "check",
    "copy",
    "create",
    "open",
    "version",
]
