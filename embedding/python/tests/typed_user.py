"""A user's program, for a checker of types. It is run too."""
import sys
from typing import Dict, List, Optional, Tuple, Union

import nardsill
from nardsill import Entry, Index, Info, KeyExists, Report, Row, Scan, Stats


def add_all(index: Index, entries: List[Tuple[bytes, Tuple[int, int]]]) -> Dict[bytes, Row]:
    refused: Dict[bytes, Row] = {}
    for key, row in entries:
        try:
            index.add(key, row)
        except KeyExists as fault:
            refused[key] = fault.row
    return refused


def told(path: str) -> Tuple[str, int]:
    try:
        nardsill.Index(path)
    except nardsill.Io as fault:
        error: OSError = fault
        return f"{fault.errno} {fault.strerror} {fault.filename}", fault.number
    except (nardsill.Blocked, nardsill.PageDamaged) as fault:
        return str(fault), fault.page
    except nardsill.Error as fault:
        return str(fault), fault.done
    return "", 0


def main(path: str) -> None:
    assert told(path)[1] == 2
    nardsill.create(path, pages=64, log_bytes=65536, unique=True)
    with nardsill.open(path, frames=32, patience=0.5) as index:
        index.patience = 2
        patience: float = index.patience
        assert add_all(index, [(b"a", (1, 1)), (b"a", Row(2, 2))]) == {b"a": (1, 1)}
        number: int = index.insert(bytearray(b"b"), Row(3, 1))
        many: int = index.insert_many([(b"c", (4, 1)), (memoryview(b"d"), Row(5, 1))])
        row: Optional[Row] = index.get(b"c")
        other: Union[Row, int] = index.get(b"none", 7)
        found: Row = index[b"d"]
        is_there: bool = b"d" in index
        scan: Scan = index.scan(b"a", b"d")
        keys: List[bytes] = [key for key, _ in scan]
        scan.seek(b"b")
        entry: Entry = next(scan)
        scan.close()
        with index.scan(prefix=b"d") as few:
            rows: List[Row] = [one.row for one in few]
        stats: Stats = index.delete_rows([(1, 1), Row(3, 1)])
        left: Stats = index.vacuum()
        actions: Tuple[int, int] = index.commit(), index.checkpoint()
        info: Info = index.info()
        is_closed: bool = index.closed
        copied: int = index.copy(path + "-copy", pages=128, progress=lambda count: None)
    again: int = nardsill.copy(path, path + "-again", unique=False)
    report: Report = nardsill.check(path)
    version: str = nardsill.version()
    print(patience, copied, again, number, many, row, other, found, is_there, keys, entry, rows, stats, left, actions, info, is_closed, report, version)


if __name__ == "__main__":
    main(sys.argv[1])
