#!/usr/bin/env python3
"""Runs the tests of the package: test_nardsill.py [NAME..]

A name stands for a file of the folder `tests`, as "threads" for test_threads.py; without one it runs all. What is passed over is told.
With NARDSILL_ALL=1 in the environment it fails if that is for something that isn't installed. tools/embedding check runs it.
"""
import os
import pathlib
import sys
import unittest

TESTS = pathlib.Path(__file__).resolve().parent / "tests"


def main():
    sys.dont_write_bytecode = True
    sys.path.insert(0, str(TESTS))
    loader = unittest.defaultTestLoader
    names = sys.argv[1:] or sorted(path.stem[len("test_") :] for path in TESTS.glob("test_*.py"))
    suite = unittest.TestSuite([loader.loadTestsFromName(f"test_{name}") for name in names])
    result = unittest.TextTestRunner(verbosity=0, stream=sys.stderr).run(suite)
    passed_over = sorted({why for _, why in result.skipped})
    for why in passed_over:
        print(f"test_nardsill.py: {why}")
    if os.environ.get("NARDSILL_ALL") == "1" and any("isn't installed" in why for why in passed_over):
        sys.exit("test_nardsill.py: with NARDSILL_ALL=1 nothing is passed over: tools/packages --install installs it")
    if not result.wasSuccessful() or not result.testsRun:
        sys.exit("test_nardsill.py: not all is as it must be")
    print(f"test_nardsill.py: all is as it must be, {result.testsRun} tests")


if __name__ == "__main__":
    main()
