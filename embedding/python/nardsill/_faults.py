"""Why calls are refused: a class for each fault, with the number that nardsill.h gives it."""
import errno as numbers
import os
from typing import Any, Dict, List, Optional, Tuple, Type

from . import _library
from ._values import Row


class Error(Exception):
    """A call was refused. Each fault is a class below this one.

    `number` is the fault's number in C. `filename` is the index's path, as it was given. `page` is the page that `Blocked` and
    `PageDamaged` name, else 0. `row` is the row that `KeyExists` names, else None. `done` is how many entries an `insert_many` has
    added before, else 0.
    """

    number = 0
    filename: Any
    page: int
    row: Optional[Row]
    done: int

    def __init__(
        self, *, filename: Any = None, page: int = 0, row: Optional[Row] = None, done: int = 0, number: Optional[int] = None
    ) -> None:
        super().__init__()
        if number is not None:
            self.number = number
        self.filename, self.page, self.row, self.done = filename, page, row, done

    def _sentence(self) -> str:
        text = _library.sentence(self.number)
        return text if type(self) is not Error else f"{text} ({self.number})"

    def __str__(self) -> str:
        notes = [f"page {self.page}"] if self.page else []
        notes += [f"row {self.row[0]} {self.row[1]}"] if self.row is not None else []
        notes += [f"{self.done} were added before"] if self.done else []
        text = self._sentence() + (f" ({', '.join(notes)})" if notes else "")
        return text if self.filename is None else f"{text}: {self.filename!r}"

    def __repr__(self) -> str:
        return f"{type(self).__name__}({str(self)!r})"

    def _slots(self) -> Dict[str, Any]:
        """What doesn't stand in the exception's dictionary."""
        return {}

    def __reduce__(self) -> Tuple[Any, ...]:
        return _again, (type(self), self._slots()), self.__dict__


def _again(fault: Type[Error], slots: Dict[str, Any]) -> Error:
    """A fault from its pickle, also one of a class that is made with other arguments."""
    made = fault.__new__(fault)
    if isinstance(made, Io):
        Io.__init__(made, **slots)
    else:
        Error.__init__(made)
    return made


class NoMemory(Error):
    """There is no memory. Nothing was done."""

    number = 1


class Io(Error, OSError):
    """A call of the file failed: `errno` and `strerror` say why. At a scan, open it again; else close the index and open it again."""

    number = 2

    def __init__(self, *, errno: int = numbers.EIO, **told: Any) -> None:
        super().__init__(**told)
        self.errno, self.strerror = errno, os.strerror(errno)

    def _sentence(self) -> str:
        return f"[Errno {self.errno}] {self.strerror}"

    def _slots(self) -> Dict[str, Any]:
        return {"errno": self.errno, "filename": self.filename}


class NoFile(Io, FileNotFoundError):
    """An `Io`: there is no such file."""


class FileIsThere(Io, FileExistsError):
    """An `Io`: a file is there, where a new one is made."""


class NotPermitted(Io, PermissionError):
    """An `Io`: the file may not be opened, or made."""


class Stopped(Error):
    """A call of the file failed before. Close the index and open it again: what a commit has told is there."""

    number = 3


class Blocked(Error):
    """An open scan stands on a page that a vacuum needs, `page`, for longer than the index's `patience`. Close it, and call again."""

    number = 4


class Exists(Error):
    """This very entry, its key and its row, is there."""

    number = 5


class KeyTooLong(Error):
    """A key has at most 64 bytes."""

    number = 6


class BadRow(Error):
    """A row has a block from 0 to 4294967294 and an offset from 1 to 65535."""

    number = 7


class IndexFull(Error):
    """No page is left. Delete rows and vacuum, or make a larger index and copy."""

    number = 8


class LogFull(Error):
    """No call raises it."""

    number = 9


class NoFrame(Error):
    """Open scans hold the pages in memory. Close some, or open with more frames."""

    number = 10


class VacuumRunning(Error):
    """No call raises it."""

    number = 11


class NoSession(Error):
    """63 scans are open, or 62 beside a vacuum. Close one."""

    number = 12


class SessionBusy(Error):
    """No call raises it."""

    number = 13


class BadSuper(Error):
    """The file is no index."""

    number = 14


class BadVersion(Error):
    """The file's layout is unknown to this library."""

    number = 15


class LogDamaged(Error):
    """The index's log is damaged."""

    number = 16


class PageDamaged(Error):
    """A page of the index is damaged, `page`."""

    number = 17


class BadLimits(Error):
    """A limit, or a number of frames, is out of its range."""

    number = 18


class TooTall(Error):
    """The tree has no room for another level. Delete rows and vacuum, or make a larger index and copy."""

    number = 19


class DeviceTooSmall(Error):
    """The file is shorter than its index."""

    number = 20


class KeyExists(Error):
    """In a unique index: the key is there with another row, `row`."""

    number = 21
    row: Row


class Misuse(Error):
    """A wrong argument, which this package doesn't pass."""

    number = 101


class Locked(Error):
    """Another index object has the file, in this process or another."""

    number = 102


class Forked(Error):
    """The index was opened by the parent process. A forked child opens it for itself, once the parent has closed it."""

    number = 104


class GivenUp(Error):
    """A copy was given up by whoever was told how far it is. `Index.copy` raises what that one raised instead."""

    number = 105


FAULTS: List[Type[Error]] = [
    NoMemory,
    Io,
    Stopped,
    Blocked,
    Exists,
    KeyTooLong,
    BadRow,
    IndexFull,
    LogFull,
    NoFrame,
    VacuumRunning,
    NoSession,
    SessionBusy,
    BadSuper,
    BadVersion,
    LogDamaged,
    PageDamaged,
    BadLimits,
    TooTall,
    DeviceTooSmall,
    KeyExists,
    Misuse,
    Locked,
    Forked,
    GivenUp,
]
_BY_NUMBER = {fault.number: fault for fault in FAULTS}
_BY_ERRNO: Dict[int, Type[Io]] = {
    numbers.ENOENT: NoFile,
    numbers.EEXIST: FileIsThere,
    numbers.EACCES: NotPermitted,
    numbers.EPERM: NotPermitted,
}

# Users see each as nardsill.Exists, and so on.
for _fault in [Error, NoFile, FileIsThere, NotPermitted] + FAULTS:
    _fault.__module__ = "nardsill"


def fault_of(status: int, told: Optional[_library.FaultStruct], filename: Any) -> Error:
    """The fault of a status, with what the library has told of it."""
    page = told.page if told else 0
    if status == Io.number:
        error = told.error if told and told.error else numbers.EIO
        return _BY_ERRNO.get(error, Io)(errno=error, filename=filename, page=page)
    if status == KeyExists.number and told:
        return KeyExists(row=Row(told.row.block, told.row.offset), filename=filename)
    if status in _BY_NUMBER:
        return _BY_NUMBER[status](filename=filename, page=page)
    return Error(number=status, filename=filename, page=page)
