"""What the calls take and answer."""
from typing import NamedTuple, Tuple, Union


class Row(NamedTuple):
    """Where a row is: a block from 0 to 4294967294, and an offset from 1 to 65535."""

    block: int
    offset: int


class Entry(NamedTuple):
    """A key of up to 64 bytes, and its row."""

    key: bytes
    row: Row


class Stats(NamedTuple):
    """What a bulk delete or a vacuum counted: entries that are left, and that were removed, and pages in use.

    Of the pages: those that it deleted, those that are deleted, and those that may be used again.
    """

    entries: int
    removed: int
    pages: int
    pages_newly_deleted: int
    pages_deleted: int
    pages_free: int


class Report(NamedTuple):
    """What the verifier found: the number and the block of the first damage; or damage 0, and what it counted."""

    entries: int
    damage: int
    block: int
    levels: int
    pages: int
    half_dead: int
    deleted: int
    unfinished: int


class Info(NamedTuple):
    """What an open index is.

    `items`, `pages`, `log_bytes` and `unique` are its limits, as `create` takes them. `pages_used` are in use, and `pages_free` of these
    may be used again. `frames` pages are in memory at most, and `scans` are open. If it has `stopped`, each call raises `Stopped` until
    it is opened again.
    """

    items: int
    pages: int
    log_bytes: int
    unique: bool
    pages_used: int
    pages_free: int
    frames: int
    scans: int
    stopped: bool


Key = Union[bytes, bytearray, memoryview]
AnyRow = Union[Row, Tuple[int, int]]
