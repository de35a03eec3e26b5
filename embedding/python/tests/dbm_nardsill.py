"""A dbm over an index: keys in a unique index, values in a file beside it.

A value lies at a multiple of 64 bytes behind its length. Its key's row has that multiple as its block. A value that is replaced stays in
the file, unused. A key has up to 64 bytes. The interface is that of the modules of `dbm`.
"""
import os
from collections.abc import MutableMapping

import nardsill

STEP, HEAD = 64, 8
error = nardsill.Error, OSError


class _Database(MutableMapping):
    def __init__(self, file, mode):
        self._values = os.open(file + ".values", os.O_RDWR | os.O_CREAT | os.O_CLOEXEC, mode)
        self._index = nardsill.Index(file + ".idx")
        self._count = sum(1 for _ in self._index)

    @staticmethod
    def _key(key):
        return key.encode() if isinstance(key, str) else key

    def __getitem__(self, key):
        row = self._index.get(self._key(key))
        if row is None:
            raise KeyError(key)
        size = int.from_bytes(os.pread(self._values, HEAD, row.block * STEP), "little")
        return os.pread(self._values, size, row.block * STEP + HEAD)

    def __setitem__(self, key, value):
        value = self._key(value)
        place = -(-os.fstat(self._values).st_size // STEP)
        os.pwrite(self._values, len(value).to_bytes(HEAD, "little") + value, place * STEP)
        key = self._key(key)
        if key in self._index:
            del self[key]
        self._index.insert(key, (place, 1))
        self._count += 1

    def __delitem__(self, key):
        row = self._index.get(self._key(key))
        if row is None:
            raise KeyError(key)
        self._index.delete_rows([row])
        self._count -= 1

    def __contains__(self, key):
        return self._key(key) in self._index

    def __len__(self):
        self._index.info()
        return self._count

    def __iter__(self):
        return iter(self.keys())

    def keys(self):
        return [key for key, _ in self._index]

    def sync(self):
        os.fsync(self._values)
        self._index.commit()

    def close(self):
        if not self._index.closed:
            os.fsync(self._values)
            self._index.close()
            os.close(self._values)

    def __enter__(self):
        return self

    def __exit__(self, *_):
        self.close()

    def __del__(self):
        if hasattr(self, "_index"):
            self.close()


def open(file, flag="r", mode=0o666):
    """Opens a database: 'r' and 'w' one that is there, 'c' makes one if there is none, 'n' always makes a new one."""
    file = os.fsdecode(file)
    if flag == "n":
        for end in (".idx", ".values"):
            if os.path.exists(file + end):
                os.unlink(file + end)
    if flag in "cn" and not os.path.exists(file + ".idx"):
        nardsill.create(file + ".idx", pages=64, log_bytes=65536, unique=True)
    return _Database(file, mode)


def whichdb(file):
    """What `dbm.whichdb` answers, if this module is the only one."""
    return "dbm.nardsill" if os.path.exists(os.fsdecode(file) + ".idx") else None
