#!/usr/bin/env python3
"""Threads that insert, commit, scan, look up and delete on one index, with a judge: long.py SECONDS

Each inserter numbers its entries. Below `gone` its entries are deleted, from `gone` to `going` a bulk delete names them, from `going` to
`there` each of them is there. A scan must give those that were there throughout, once, in order; and no other but what came or went.
"""
import os
import random
import sys
import tempfile
import threading
import time
from typing import Any, Callable, List, Set

from room import nardsill, run_all

INSERTERS, MOST, PART = 4, 4_000, 1_000


class Inserter:
    def __init__(self, who: int) -> None:
        self.who, self.gone, self.going, self.there, self.begun = who, 0, 0, 0, 0

    def key(self, number: int) -> bytes:
        mixed = (number * INSERTERS + self.who) * 2654435761 % (1 << 32)
        return mixed.to_bytes(4, "little") + number.to_bytes(4, "little") + bytes([self.who])


class Judge:
    def __init__(self, path: str) -> None:
        nardsill.create(path, pages=16_384)
        self.path, self.index = path, nardsill.Index(path, frames=256)
        self.inserters = [Inserter(who) for who in range(INSERTERS)]
        self.is_over = threading.Event()
        self.counts = dict.fromkeys(("commits", "scans", "gets", "deletes", "refused"), 0)

    def commit(self, action: int) -> None:
        told = self.index.commit()
        assert told >= action, (told, action)
        self.counts["commits"] += 1

    def insert(self, me: Inserter) -> None:
        while not self.is_over.is_set():
            number = me.there
            if number - me.going > MOST:
                time.sleep(0.001)
                continue
            me.begun = number + 1
            action = self.index.insert(me.key(number), (number, me.who + 1))
            me.there = number + 1
            # One never commits.
            if me.who and number % (me.who * me.who) == 0:
                self.commit(action)

    def scan_once(self) -> None:
        before = [(one.gone, one.there) for one in self.inserters]
        last = b""
        given: List[Set[int]] = [set() for _ in self.inserters]
        for key, row in self.index.scan():
            assert last < key, (last, key)
            one = self.inserters[row.offset - 1]
            assert key == one.key(row.block) and before[one.who][0] <= row.block < one.begun, (key, row)
            given[one.who].add(row.block)
            last = key
        for one, (_, there), numbers in zip(self.inserters, before, given):
            missed = set(range(one.going, there)) - numbers
            assert not missed, missed
        self.counts["scans"] += 1

    def scan(self) -> None:
        while not self.is_over.is_set():
            self.scan_once()
            # A bulk delete waits for open scans.
            time.sleep(0.02)

    def look_up(self) -> None:
        dice = random.Random(1)
        while not self.is_over.is_set():
            one = dice.choice(self.inserters)
            going, there = one.going, one.there
            if going < there:
                number = dice.randrange(going, there)
                row = self.index.get(one.key(number))
                assert number < one.going or row == (number, one.who + 1), (number, row)
                self.counts["gets"] += 1
            time.sleep(0.0005)

    def delete(self, rows: List[Any]) -> None:
        while True:
            try:
                assert self.index.delete_rows(rows).removed <= len(rows)
                self.counts["deletes"] += 1
                return
            except nardsill.Blocked as fault:
                assert fault.page
                self.counts["refused"] += 1
                time.sleep(0.002)

    def delete_old(self) -> None:
        while not self.is_over.is_set():
            old = [one for one in self.inserters if one.there - one.going >= PART]
            rows = []
            for one in old:
                rows += [(number, one.who + 1) for number in range(one.going, one.going + PART)]
                one.going += PART
            if old:
                self.delete(rows)
            for one in old:
                one.gone = one.going
            time.sleep(0.001)

    def commit_alone(self) -> None:
        while not self.is_over.is_set():
            self.commit(0)
            time.sleep(0.0005)

    def until_over(self, work: Callable[[], None]) -> Callable[[], None]:
        """The work of a thread, which ends that of all if it finds something."""

        def guarded() -> None:
            try:
                work()
            except BaseException:
                self.is_over.set()
                raise

        return guarded

    def end(self) -> None:
        self.index.close()
        report = nardsill.check(self.path)
        assert not report.damage and report.entries == sum(one.there - one.gone for one in self.inserters), report
        self.index = nardsill.Index(self.path)
        self.scan_once()
        self.index.close()

    def has_made_all(self) -> bool:
        return all(count for what, count in self.counts.items() if what != "refused")

    def run(self, seconds: float) -> None:
        works: List[Callable[[], None]] = [lambda one=one: self.insert(one) for one in self.inserters]  # type: ignore[misc]
        works += [self.scan, self.scan, self.look_up, self.delete_old, self.commit_alone]

        def end_later() -> None:
            self.is_over.wait(seconds)
            # A busy machine may not have come to each call yet.
            while not self.is_over.is_set() and not self.has_made_all():
                self.is_over.wait(0.01)
            self.is_over.set()

        run_all(*map(self.until_over, works), end_later, within=seconds + 90)
        self.end()
        assert self.has_made_all(), self.counts


def main() -> None:
    with tempfile.TemporaryDirectory() as folder:
        judge = Judge(os.path.join(folder, "long.idx"))
        judge.run(float(sys.argv[1]) if len(sys.argv) > 1 else 5)
        inserts = sum(one.there for one in judge.inserters)
        print(f"long.py: {inserts} inserts, {judge.counts}: all is as it must be")


if __name__ == "__main__":
    main()
