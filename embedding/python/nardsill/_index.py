"""An open index, and its scans."""
import copy
import ctypes
import math
import operator
import os
import struct
import sys
import threading
import time
import warnings
import weakref
from collections import deque
from types import TracebackType
from typing import Any, Callable, Deque, Dict, Iterable, List, Optional, Set, Tuple, Type, TypeVar, Union, overload

from . import _library
from ._faults import BadLimits, BadRow, Error, Exists, Forked
from ._held import Caller, Held, this_caller, waiting
from ._library import DONE, ENTRY_BYTES, KEY_MAX, MISUSE, NOT_FOUND, PROGRESS, ROW_BYTES, DetailsStruct, LimitsStruct, RowStruct, StatsStruct
from ._values import AnyRow, Entry, Info, Key, Row, Stats

_Default = TypeVar("_Default")
_FIRST_BATCH, _GROWTH, _BATCH = 4, 4, 256
_Room = ctypes.c_char * (_BATCH * ENTRY_BYTES.size)
_byref, _u64, _new = ctypes.byref, ctypes.c_uint64, tuple.__new__


def _key(key: Key) -> bytes:
    if isinstance(key, bytes):
        return key
    if isinstance(key, (bytearray, memoryview)):
        return bytes(key)
    raise TypeError(f"a key is bytes, a bytearray or a memoryview, not {type(key).__name__}")


def _end(key: Optional[Key]) -> Optional[bytes]:
    return None if key is None else _key(key)


def _numbers(row: AnyRow, path: Any) -> Tuple[int, int]:
    """A row's block and offset, which are in their ranges."""
    try:
        block, offset = row
    except (TypeError, ValueError):
        raise TypeError(f"a row is a block and an offset, not {row!r}") from None
    block, offset = operator.index(block), operator.index(offset)
    if not (0 <= block < 0xFFFFFFFF and 0 < offset <= 0xFFFF):
        raise BadRow(filename=path)
    return block, offset


def _entry_bytes(entry: Tuple[Key, AnyRow], path: Any) -> bytes:
    """An entry for the library. One that is no entry is such that the library refuses it: it then tells how many came before."""
    key, row = entry
    key = _key(key)
    try:
        block, offset = _numbers(row, path)
    except BadRow:
        block, offset = 0, 0
    return ENTRY_BYTES.pack(block, offset, min(len(key), KEY_MAX + 1), key)


def _entries_bytes(entries: List[Tuple[Key, AnyRow]], path: Any) -> bytes:
    pack = ENTRY_BYTES.pack
    try:
        return b"".join([pack(block, offset, len(key), key) for key, (block, offset) in entries])
    except (struct.error, TypeError, ValueError):
        pass
    return b"".join([_entry_bytes(entry, path) for entry in entries])


def limits_in_range(path: Any, items: int, pages: int, log_bytes: int, unique: bool) -> LimitsStruct:
    """The sizes of a new index. Those that no field has room for raise `BadLimits`; the library refuses the others."""
    items, pages, log_bytes = operator.index(items), operator.index(pages), operator.index(log_bytes)
    if not all(0 <= limit < 1 << 32 for limit in (items, pages, log_bytes)):
        raise BadLimits(filename=path)
    return LimitsStruct(items=items, pages=pages, log_bytes=log_bytes, unique=bool(unique))


def frames_in_range(frames: int, path: Any) -> int:
    frames = operator.index(frames)
    if frames and not 16 <= frames <= 1024:
        raise BadLimits(filename=path)
    return frames


def _milliseconds(seconds: float) -> int:
    """A patience for the library: no shorter than it was given."""
    if not 0 <= seconds <= 0xFFFFFFFF / 1000:
        raise ValueError(f"a patience is 0 to 4294967.295 seconds, not {seconds!r}")
    return min(math.ceil(seconds * 1000), 0xFFFFFFFF)


def path_bytes(path: Any) -> bytes:
    name = os.fsencode(path)
    if b"\0" in name:
        raise ValueError("embedded null byte")
    return name


def _behind_all(prefix: bytes) -> Optional[bytes]:
    """The first key behind those that begin so; None if there is none."""
    few = prefix.rstrip(b"\xff")
    return few[:-1] + bytes([few[-1] + 1]) if few else None


class _Reading(Held):
    """An open scan of the library, and the entries that were read and not yet given."""

    def __init__(self, path: Any) -> None:
        super().__init__(path)
        self.few: Deque[Entry] = deque()
        self.count, self.room = ctypes.c_size_t(), _Room()
        self.batch, self.turn = _FIRST_BATCH, 0

    def _hand_over(self) -> None:
        """Gives what lies in the room, once: a signal handler that comes between may do it, or leave it there by an exception."""
        turn = self.turn
        many = memoryview(self.room)[: self.count.value * ENTRY_BYTES.size]
        few = [_new(Entry, (key[:size], _new(Row, (block, offset)))) for block, offset, size, key in ENTRY_BYTES.iter_unpack(many)]
        # No handler comes between these: it comes at the end of a call.
        if turn == self.turn:
            self.turn = turn + 1
            self.count.value = 0
            self.few.extend(few)

    def read(self) -> int:
        """Reads a batch, the first one a small one. What an exception has left in the room is given first."""
        if self.count.value:
            self._hand_over()
            return 0
        try:
            status = self.ask(_library.scan_read, self.at, self.room, self.batch, _byref(self.count))
        finally:
            self._hand_over()
        self.batch = min(self.batch * _GROWTH, _BATCH)
        return status

    def restart(self, start: Optional[bytes], stop: Optional[bytes]) -> bool:
        """Begins the open scan anew; or answers False if it was closed meanwhile."""
        status = self.ask(_library.scan_restart, self.at, start, len(start or b""), stop, len(stop or b""))
        self.count.value = 0
        self.few.clear()
        self.batch = _FIRST_BATCH
        return status != MISUSE


class Scan:
    """The entries of a range, in order, each once: also to threads that share the scan.

    A `for` over it gives them, or `next`. It ends with them, by `close`, behind its `with`, or once nobody has it. Until then it is one of
    63, and may keep a bulk delete out. An entry that is inserted meanwhile may be given, or not.

    Once its index is closed `next` raises ValueError. A fault is raised behind the entries that were read before it, and again by each
    `next`, until `seek` or `close`.
    """

    def __init__(self, index: "Index", start: Optional[bytes], stop: Optional[bytes], least: Optional[bytes] = None) -> None:
        self._index, self._stop, self._least = index, stop, least
        self._order = threading.RLock()
        self._begin(start)

    def _begin(self, start: Optional[bytes]) -> None:
        """Opens a scan of the library."""
        index, stop = self._index, self._stop
        self._reading = reading = _Reading(index.path)
        self._few = reading.few
        self._forget()
        index._readings.add(reading)
        try:
            index._ask(_library.scan_open, start, len(start or b""), stop, len(stop or b""), _byref(reading.at))
        except BaseException:
            self._is_over = True
            self._leave()
            raise

    def _forget(self) -> None:
        """A range that begins has nothing from the one before."""
        self._is_last, self._is_over = False, False
        self._fault: Optional[Error] = None

    def _leave(self) -> None:
        """Leaves the scan of the library: the index's next call closes it."""
        index, reading = self._index, self._reading
        if reading.is_to_free():
            index._left.append(reading)
        index._readings.discard(reading)

    def __iter__(self) -> "Scan":
        return self

    def __next__(self) -> Entry:
        try:
            return self._few.popleft()
        except IndexError:
            pass
        return self._next()

    def _next(self) -> Entry:
        self._index._refuse_child()
        with self._order:
            while True:
                self._read()
                try:
                    return self._few.popleft()
                except IndexError:
                    pass

    def _read(self) -> None:
        """Reads more entries, or raises why there are none."""
        is_over, is_last, fault = self._is_over, self._is_last, self._fault
        if self._few:
            # Another thread has read them, or a signal handler that came between.
            return
        if is_over:
            raise StopIteration
        if self._index.closed:
            raise ValueError("the index is closed")
        if fault:
            raise copy.copy(fault)
        if is_last:
            self._is_over = True
            self._leave()
            raise StopIteration
        try:
            status = self._reading.read()
        except Error as refusal:
            self._fault = refusal.with_traceback(None)
        else:
            # It is null if it was closed meanwhile.
            self._is_last = status == DONE or status == MISUSE
        if self._is_last or self._fault:
            self._index._close_reading(self._reading)
        if self._is_over:
            self._few.clear()

    def seek(self, start: Optional[Key] = None) -> None:
        """Begins anew from `start` on, up to the end that the scan was opened with; None leaves the start open. A scan of a prefix stays
        with it. A scan that has ended, or was closed, is opened again.

        Raises `KeyTooLong`, `NoSession` if 63 scans are open, and ValueError if the index is closed.
        """
        key, stop = _end(start), self._stop
        if self._least is not None:
            key = max(key or b"", self._least)
        self._index._refuse_child()
        with self._order:
            if self._reading.at and self._reading.restart(key, stop):
                self._forget()
            else:
                self._leave()
                self._begin(key)

    def close(self) -> None:
        """Ends the scan: `next` raises StopIteration. If another thread reads from it, the read's entries are dropped."""
        self._is_over = True
        self._few.clear()
        self._index._close_reading(self._reading)
        self._index._readings.discard(self._reading)

    def __enter__(self) -> "Scan":
        return self

    def __exit__(self, *_: object) -> None:
        self.close()

    def __del__(self) -> None:
        # It may be anywhere in a call, and in any thread: so it calls nothing.
        if hasattr(self, "_reading"):
            self._leave()


class Index:
    """An open index. Threads may share it and its scans.

    In a `with` it is closed at the end, also by an exception: what was inserted stays, as there is no rollback. An index that is dropped
    closes itself, with a ResourceWarning.

    Each call raises ValueError once the index is closed, `Forked` in a child of the process that has opened it, and may raise `Io`,
    `Stopped`, `NoMemory`, `NoFrame` or `PageDamaged`. Keys are bytes, bytearrays or memoryviews of up to 64 bytes, else `KeyTooLong` or
    TypeError is raised. A row is a pair of a block and an offset, else `BadRow` or TypeError.
    """

    def __init__(self, path: Any, frames: int = 64, patience: float = 0.0) -> None:
        """Opens the index in a file, after any crash, with so many pages in memory (16 to 1,024), and this patience.

        Raises `NoFile` and other `Io`, `Locked` if another has the file, `BadLimits` for the frames, and `BadSuper`, `BadVersion`,
        `LogDamaged`, `PageDamaged` or `DeviceTooSmall` if the file holds no sound index.
        """
        name, self.path = path_bytes(path), os.fspath(path)
        milliseconds = _milliseconds(patience)
        self._held = Held(self.path)
        self._readings: Set[_Reading] = set()
        self._left: List[_Reading] = []
        self._is_closed, self._is_parents = False, False
        self._closers: Dict[str, Caller] = {}
        self._is_unique: Optional[bool] = None
        self._copiers: List[int] = []
        _OPEN.add(self)
        self._patience = 0.0
        self._held.ask(_library.open, name, frames_in_range(frames, self.path), _byref(self._held.at))
        if milliseconds:
            self.patience = patience

    @property
    def patience(self) -> float:
        """How many seconds `delete_rows` and `vacuum` wait for open scans at most, at each page on which one stands. At first it is 0, and
        they raise `Blocked` at once. It may be set at any time, also for those that wait. Raises ValueError if it is below 0."""
        return self._patience

    @patience.setter
    def patience(self, seconds: float) -> None:
        self._ask(_library.set_patience, _milliseconds(seconds))
        self._patience = seconds

    @property
    def closed(self) -> bool:
        """Whether it is closed, or is being closed."""
        return not self._held.at

    def __repr__(self) -> str:
        return f"<nardsill.Index {self.path!r}{' (closed)' if self.closed else ''}>"

    def _ask(self, function: Callable[..., int], *arguments: Any) -> int:
        if self._left:
            self._close_left()
        held = self._held
        status = held.ask(function, held.at, *arguments)
        if status == MISUSE:
            raise ValueError("the index is closed")
        return status

    def _refuse_child(self) -> None:
        if self._is_parents:
            raise Forked(filename=self.path)

    def insert(self, key: Key, row: AnyRow) -> int:
        """Adds an entry, and answers its number: a commit tells up to which number all are durable.

        Raises `Exists` if the entry is there, in a unique index `KeyExists` if its key is there with another row, and `IndexFull`
        or `TooTall` if no page is left.
        """
        name, action = _key(key), _u64()
        self._ask(_library.insert, name, len(name), RowStruct(*_numbers(row, self.path)), _byref(action))
        return action.value

    def add(self, key: Key, row: AnyRow) -> bool:
        """Adds an entry: True; or False if it is there. Raises what `insert` raises, but `Exists`."""
        try:
            self.insert(key, row)
        except Exists:
            return False
        return True

    def insert_many(self, entries: Iterable[Tuple[Key, AnyRow]]) -> int:
        """Adds each, and answers how many. It raises what `insert` raises: those before the refused one are in, as many as the exception's
        `done`. At a TypeError none is."""
        many = list(entries)
        room, done = _entries_bytes(many, self.path), ctypes.c_size_t()
        try:
            self._ask(_library.insert_many, room, len(many), _byref(done))
        except Error as fault:
            fault.done = done.value
            raise
        return done.value

    @overload
    def get(self, key: Key) -> Optional[Row]:
        ...

    @overload
    def get(self, key: Key, default: _Default) -> Union[Row, _Default]:
        ...

    def get(self, key: Key, default: Any = None) -> Any:
        """The row of the first entry with this key, else the default. Raises `NoSession` if 63 scans are open (62 beside a vacuum)."""
        name, row = _key(key), RowStruct()
        if self._ask(_library.get, name, len(name), _byref(row)) == NOT_FOUND:
            return default
        return _new(Row, (row.block, row.offset))

    def __contains__(self, key: Key) -> bool:
        return self.get(key) is not None

    def __getitem__(self, key: Key) -> Row:
        """The row of a key in a unique index; raises KeyError if there is none, and TypeError in an index that isn't unique."""
        if self._is_unique is None:
            self._is_unique = self.info().unique
        if not self._is_unique:
            raise TypeError("the index isn't unique: a key may have many rows, which get and scan give")
        row = self.get(key)
        if row is None:
            raise KeyError(key)
        return row

    @overload
    def scan(self, start: Optional[Key] = None, stop: Optional[Key] = None) -> Scan:
        ...

    @overload
    def scan(self, *, prefix: Key) -> Scan:
        ...

    def scan(self, start: Optional[Key] = None, stop: Optional[Key] = None, *, prefix: Optional[Key] = None) -> Scan:
        """The entries from `start` on and below `stop`, where None leaves an end open; or those whose keys begin with `prefix`. Raises
        `NoSession` if 63 scans are open."""
        if prefix is None:
            return Scan(self, _end(start), _end(stop))
        if start is not None or stop is not None:
            raise TypeError("a scan has a prefix, or a start and a stop")
        least = _key(prefix)
        return Scan(self, least, _behind_all(least), least)

    def __iter__(self) -> Scan:
        return self.scan()

    def _counted(self, function: Callable[..., int], *arguments: Any) -> Stats:
        stats = StatsStruct()
        self._ask(function, *arguments, _byref(stats))
        return Stats(*(getattr(stats, name) for name in Stats._fields))

    def delete_rows(self, rows: Iterable[AnyRow]) -> Stats:
        """Deletes each entry with one of these rows. It reads the whole index: name many rows in one call.

        Calls of other threads go on meanwhile, but for another `delete_rows` or `vacuum`. Raises `Blocked` if an open scan stands on a
        page of entries for longer than the index's `patience`. If it is refused some may be gone, and no other entry is.
        """
        few = [ROW_BYTES.pack(*_numbers(row, self.path)) for row in rows]
        return self._counted(_library.delete_rows, b"".join(few), len(few))

    def vacuum(self) -> Stats:
        """Deletes empty pages, and counts what is there. Calls of other threads go on meanwhile. Raises `Blocked` if an open scan stands
        on a page that it needs for longer than the index's `patience`."""
        return self._counted(_library.vacuum)

    def _actions(self, function: Callable[..., int]) -> int:
        count = _u64()
        self._ask(function, _byref(count))
        return count.value

    def commit(self) -> int:
        """Makes all that was done durable, and answers how many actions were since the opening."""
        return self._actions(_library.commit)

    def checkpoint(self) -> int:
        """Commits, and writes the pages to their places. Answers what `commit` does."""
        return self._actions(_library.checkpoint)

    def info(self) -> Info:
        """What the index is, now."""
        details = DetailsStruct()
        self._ask(_library.info, _byref(details))
        told = {name: getattr(details, name) for name in Info._fields}
        return Info(**{**told, "unique": bool(details.unique), "stopped": bool(details.stopped)})

    def copy(
        self,
        path: Any,
        items: Optional[int] = None,
        pages: Optional[int] = None,
        log_bytes: Optional[int] = None,
        unique: Optional[bool] = None,
        progress: Optional[Callable[[int], object]] = None,
    ) -> int:
        """Makes an index in a new file with the entries of this one, and answers how many they are. Its leaves are nearly full.

        Sizes that aren't given are this index's. The file is there only once all is in it and durable. Calls of other threads go on
        meanwhile, and of what they insert or delete any part may be in it. `progress` is told how many entries are copied so far; if it
        raises, the copy is given up, and that is raised. The index can't be closed in it.

        Raises what `create` raises, `IndexFull` if the entries don't fit, and `KeyExists` if it is to be unique and two have one key: the
        exception names the new file, of which nothing is left.
        """
        name, given, info = path_bytes(path), os.fspath(path), self.info()
        limits = limits_in_range(
            given,
            info.items if items is None else items,
            info.pages if pages is None else pages,
            info.log_bytes if log_bytes is None else log_bytes,
            info.unique if unique is None else unique,
        )
        raised: List[BaseException] = []

        def tell(_: object, count: int) -> int:
            try:
                if progress:
                    progress(count)
            except BaseException as error:
                raised.append(error)
            return len(raised)

        copied, me = _u64(), threading.get_ident()
        self._copiers.append(me)
        try:
            self._ask(_library.copy, name, _byref(limits), PROGRESS(tell) if progress else PROGRESS(0), None, _byref(copied))
        except Error as fault:
            if raised:
                raise raised[0] from None
            fault.filename = given
            raise
        finally:
            self._copiers.remove(me)
        return copied.value

    def _close_reading(self, reading: _Reading) -> None:
        """Closes a scan of the library now; or later, if another thread reads from it."""
        reading.withdraw()
        if reading.is_to_free():
            self._left.append(reading)
            self._close_left()

    def _close_left(self) -> None:
        """Closes the scans that were left, but those that another thread reads from."""
        self._held.during(self._close_each_left)

    def _close_each_left(self) -> None:
        for reading in list(self._left):
            reading.withdraw()
            if self.closed or self._is_parents:
                return
            if not reading.is_called_elsewhere():
                reading.free(_library.scan_close)
                self._forget_left(reading)

    def _forget_left(self, reading: _Reading) -> None:
        try:
            self._left.remove(reading)
        except ValueError:
            pass  # another thread did

    def close(self) -> None:
        """Makes a checkpoint and closes the file, also if the checkpoint is refused: then it raises `Io` or `Stopped`.

        It waits for calls of other threads. It may be called from a finalizer or a signal handler, and again. In a forked child it does
        nothing to the file. Raises ValueError inside of a copy's `progress`.
        """
        if threading.get_ident() in self._copiers:
            raise ValueError("the index is copied by this thread")
        waiting(self._close)

    def _close(self) -> None:
        me = this_caller()
        try:
            while not self._is_closed and not self._is_parents:
                closer = self._closers.setdefault("first", me) if self._is_quiet() else None
                if closer is me:
                    self._free()
                elif closer and closer.fault is me.fault or sys.is_finalizing():
                    # A close of this thread goes on behind this one; or Python ends, and no other thread does.
                    return
                else:
                    # No lock is waited for: a finalizer may be anywhere, so also where its thread has one.
                    time.sleep(0.001)
        finally:
            if self._closers.get("first") is me:
                self._closers.clear()

    def _is_quiet(self) -> bool:
        """Withdraws all pointers, and tells whether no other thread may be inside the library with one of them."""
        many: List[Held] = [self._held, *self._readings, *self._left]
        for held in many:
            held.withdraw()
        return not any(held.is_called_elsewhere() for held in many)

    def _free(self) -> None:
        for reading in [*self._readings, *self._left]:
            reading.few.clear()
            reading.free(_library.scan_close)
        try:
            self._held.ask(self._held.free, _library.close)
        finally:
            self._is_closed = not self._held.is_to_free()

    def __enter__(self) -> "Index":
        return self

    def __exit__(self, kind: Optional[Type[BaseException]], error: Optional[BaseException], trace: Optional[TracebackType]) -> None:
        try:
            self.close()
        except Error as refusal:
            if error is None:
                raise
            _note(error, refusal)

    def __del__(self) -> None:
        held = getattr(self, "_held", None)
        if held is None or self._is_parents or not held.is_to_free():
            return
        try:
            warnings.warn(f"unclosed index {self.path!r}", ResourceWarning, source=self, stacklevel=2)
        finally:
            self.close()


def _note(error: BaseException, refusal: Error) -> None:
    """Notes at a body's exception that the closing was refused too."""
    if hasattr(error, "add_note"):
        error.add_note(f"the index was closed, and the closing refused: {refusal!r}")
    else:
        refusal.__context__, error.__context__ = error.__context__, refusal


_OPEN: "weakref.WeakSet[Index]" = weakref.WeakSet()


def _in_child() -> None:
    """The parent's indexes are refused here, and its scans have nothing more."""
    for index in list(_OPEN):
        index._is_parents = True
        for reading in list(index._readings):
            reading.few.clear()


os.register_at_fork(after_in_child=_in_child)
