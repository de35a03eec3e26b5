#!/usr/bin/env python3
"""Acknowledged inserts a second of Python's threads on one index: each inserts an entry and commits it, again and again.

usage: writers.py FOLDER COUNT WRITERS

COUNT shuffled entries, those of writers.c, are handed out one by one to WRITERS threads. The package is found by PYTHONPATH."""
import itertools
import os
import struct
import sys
import threading
import time

import nardsill

WORD = (1 << 64) - 1


def key_of(i):
    first = i * 0x9E3779B97F4A7C15 & WORD
    first ^= first >> 29
    return struct.pack("<QQ", first, (first * 6364136223846793005 + 1442695040888963407) & WORD)


def main():
    folder, count, writers = sys.argv[1], int(sys.argv[2]), int(sys.argv[3])
    path = os.path.join(folder, "python")
    # next() of such a counter is one step of the interpreter.
    numbers, wrong = itertools.count(), []
    nardsill.create(path, pages=16384, log_bytes=1 << 24)

    def work(index):
        for i in numbers:
            if i >= count:
                return
            action = index.insert(key_of(i), (i, 1))
            if index.commit() < action:
                wrong.append(i)

    with nardsill.open(path, frames=1024) as index:
        threads = [threading.Thread(target=work, args=(index,)) for _ in range(writers)]
        begun = time.perf_counter()
        for thread in threads:
            thread.start()
        for thread in threads:
            thread.join()
        took = time.perf_counter() - begun
        there = sum(1 for _ in index)
    if wrong or there != count:
        sys.exit(f"writers.py: {there} entries of {count} are there, {len(wrong)} weren't acknowledged")
    print(f"python, {writers} writers: {count / took:.0f} acknowledged inserts a second")


main()
