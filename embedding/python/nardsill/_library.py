"""The library in C: where it is, and its structs and calls as nardsill.h has them."""
import ctypes
import os
import pathlib
import struct
from typing import Any, Callable

DONE, MISUSE, NOT_FOUND, FORKED = 100, 101, 103, 104
KEY_MAX = 64
MAJOR = "1"


PATH = os.environ.get("NARDSILL_LIBRARY") or str(pathlib.Path(__file__).with_name("libnardsill.so"))


def _loaded() -> ctypes.CDLL:
    try:
        return ctypes.CDLL(PATH)
    except OSError as error:
        raise ImportError(f"nardsill can't load its library ({error}): run tools/embedding build", name="nardsill", path=PATH) from None


_library = _loaded()


def _call(name: str, *arguments: Any, result: Any = ctypes.c_int) -> Callable[..., Any]:
    try:
        function: Any = getattr(_library, "nardsill_" + name)
    except AttributeError:
        raise ImportError(f"nardsill's library has no nardsill_{name}: run tools/embedding build", name="nardsill") from None
    function.argtypes, function.restype = arguments, result
    called: Callable[..., Any] = function
    return called


class RowStruct(ctypes.Structure):
    block: int
    offset: int
    _fields_ = [("block", ctypes.c_uint32), ("offset", ctypes.c_uint16)]


class FaultStruct(ctypes.Structure):
    status: int
    error: int
    page: int
    row: RowStruct
    _fields_ = [("status", ctypes.c_int), ("error", ctypes.c_int), ("page", ctypes.c_uint32), ("row", RowStruct)]


class SizedStruct(ctypes.Structure):
    """One that begins with its size."""

    size: int

    def __init__(self, **fields: int) -> None:
        super().__init__(size=ctypes.sizeof(self), **fields)


class LimitsStruct(SizedStruct):
    _fields_ = [(name, ctypes.c_uint32) for name in ("size", "items", "pages", "log_bytes", "unique")]


class StatsStruct(SizedStruct):
    _fields_ = [
        (name, ctypes.c_uint32) for name in ("size", "pages", "pages_newly_deleted", "pages_deleted", "pages_free", "zero")
    ] + [(name, ctypes.c_uint64) for name in ("entries", "removed")]


class ReportStruct(SizedStruct):
    _fields_ = [
        (name, ctypes.c_uint32) for name in ("size", "damage", "block", "levels", "pages", "half_dead", "deleted", "unfinished")
    ] + [("entries", ctypes.c_uint64)]


class DetailsStruct(SizedStruct):
    _fields_ = [
        (name, ctypes.c_uint32)
        for name in ("size", "items", "pages", "log_bytes", "unique", "pages_used", "pages_free", "frames", "scans", "stopped")
    ]


# A row as its bytes: block, offset. An entry: block, offset, the key's length, the key.
ROW_BYTES = struct.Struct("=IHxx")
ENTRY_BYTES = struct.Struct("=IHxxB64s3x")

# A pointer is passed as the address that stands in a c_void_p, or as the bytes that lie there.
_at, _u32, _len = ctypes.c_void_p, ctypes.c_uint32, ctypes.c_size_t

# Is told how many entries are copied. Without a function it is null.
PROGRESS = ctypes.CFUNCTYPE(ctypes.c_int, ctypes.c_void_p, ctypes.c_uint64)

create = _call("create", _at, _at)
copy = _call("copy", _at, _at, _at, PROGRESS, _at, _at)
open = _call("open", _at, _u32, _at)
close = _call("close", _at)
insert = _call("insert", _at, _at, _len, RowStruct, _at)
insert_many = _call("insert_many", _at, _at, _len, _at)
get = _call("get", _at, _at, _len, _at)
delete_rows = _call("delete_rows", _at, _at, _len, _at)
vacuum = _call("vacuum", _at, _at)
set_patience = _call("set_patience", _at, _u32)
commit = _call("commit", _at, _at)
checkpoint = _call("checkpoint", _at, _at)
info = _call("info", _at, _at)
scan_open = _call("scan_open", _at, _at, _len, _at, _len, _at)
scan_restart = _call("scan_restart", _at, _at, _len, _at, _len)
scan_read = _call("scan_read", _at, _at, _len, _at)
scan_close = _call("scan_close", _at, result=None)
check = _call("check", _at, _u32, _at)
last_fault = _call("last_fault", result=ctypes.c_void_p)
_sentence = _call("strerror", ctypes.c_int, result=ctypes.c_char_p)
_version = _call("version", result=ctypes.c_char_p)


def sentence(status: int) -> str:
    """What the library says of a status."""
    text: bytes = _sentence(status)
    return text.decode()


def version() -> str:
    """The library's version, as "1.2.0"."""
    text: bytes = _version()
    return text.decode()


if version().split(".")[0] != MAJOR:
    raise ImportError(f"nardsill's library has version {version()}, and not {MAJOR}: run tools/embedding build", name="nardsill")
