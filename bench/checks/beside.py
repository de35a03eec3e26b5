#!/usr/bin/env python3
"""Writes index files by their bytes, times checks of them by the program that is given, and SQLite's integrity_check of as many
entries, twice, and prints the medians in millions of entries a second."""
import os
import sqlite3
import statistics
import struct
import subprocess
import sys
import tempfile
import time

COUNT = 100_000
LOG = 65_536
PAGES = 8_192
NONE = 0xFFFFFFFF


def entry(number):
    return b"\x04" + struct.pack(">I", number) + bytes(60) + struct.pack("<IH", number, 1)


def page(block, kind, level, links, high, items):
    head = struct.pack("<4sIBBBBII", b"BLP1", block, kind, level, 0, 0 if high is None else 2, *links)
    slot = bytes(71) if high is None else entry(high)
    body = head + bytes(12) + struct.pack("<I", len(items)) + slot + b"".join(items)
    return body.ljust(4096, b"\0")


def level_of(first, level, groups, item):
    """The pages of a level, in which a group is a list of pairs: what an item is made of, and the greatest number below it."""
    made = []
    for place, group in enumerate(groups):
        block = first + place
        last = place + 1 == len(groups)
        links = (block - 1 if place else NONE, NONE if last else block + 1)
        high = None if last else group[-1][1]
        made.append((page(block, 2 if level == 0 else 3, level, links, high, item(group)), group[-1][1]))
    return made


def bounds(group):
    lows = [bytes(71)] + [entry(high) for _, high in group[:-1]]
    return [low + struct.pack("<I", child) for low, (child, _) in zip(lows, group)]


def divided(items, size):
    return [items[at : at + size] for at in range(0, len(items), size)]


def write_index(path, size):
    numbers = [(number, number) for number in range(COUNT)]
    pages = level_of(1, 0, divided(numbers, size), lambda group: [entry(number) for number, _ in group])
    first, count, level = 1, len(pages), 0
    while count > 1:
        children = [(first + place, high) for place, (_, high) in enumerate(pages[-count:])]
        first, level = first + count, level + 1
        above = level_of(first, level, divided(children, 34), bounds)
        pages += above
        count = len(above)
    meta = struct.pack("<4sIBBBBII", b"BLP1", 0, 1, level, 0, 0, NONE, first).ljust(4096, b"\0")
    with open(path, "wb") as file:
        file.write(struct.pack("<8sIIII", b"BLINKIDX", 1, 50, PAGES, LOG).ljust(4096 + LOG, b"\0"))
        file.write(meta + b"".join(bytes_of for bytes_of, _ in pages))
        file.truncate(4096 + LOG + 4096 * PAGES)


def time_ours(program, path, size):
    lines = subprocess.run([program, path], check=True, capture_output=True, text=True).stderr.split("\n")
    for frames in ("64", "1024"):
        rows = [line.split() for line in lines if line.startswith(frames + " ")]
        rate = statistics.median(int(row[2]) for row in rows) / 1e6
        print(f"{size} a leaf, {rows[0][1]} pages, {frames} frames: {rate:.1f}")


def time_sqlite(path, order, stride):
    if os.path.exists(path):
        os.remove(path)
    base = sqlite3.connect(path)
    base.execute("create table t(k blob primary key) without rowid")
    keys = ((struct.pack(">IIH", at, at, 1),) for at in (i * stride % COUNT for i in range(COUNT)))
    base.executemany("insert into t values(?)", keys)
    base.commit()
    pages = base.execute("pragma page_count").fetchone()[0]
    base.close()
    times = []
    for _ in range(30):
        base = sqlite3.connect(path)
        base.execute("select 1").fetchone()
        start = time.perf_counter()
        assert base.execute("pragma integrity_check").fetchone() == ("ok",)
        times.append(time.perf_counter() - start)
        base.close()
    print(f"SQLite {sqlite3.sqlite_version}, {order}, {pages} pages: {COUNT / statistics.median(times) / 1e6:.1f}")


with tempfile.TemporaryDirectory() as room:
    for _ in range(2):
        for size, order, stride in ((25, "ascending", 1), (34, "shuffled", 7_919)):
            index = os.path.join(room, "index")
            write_index(index, size)
            time_ours(sys.argv[1], index, size)
            time_sqlite(os.path.join(room, "sqlite"), order, stride)
