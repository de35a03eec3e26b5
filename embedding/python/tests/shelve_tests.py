"""CPython's own tests of shelves and mappings, over dbm_nardsill as the only dbm. It prints how many were run. Run in an empty folder."""
import dbm
import pathlib
import sys
import unittest

sys.path[:0] = [str(pathlib.Path(__file__).resolve().parent), str(pathlib.Path(__file__).resolve().parent.parent)]
import dbm_nardsill

dbm_nardsill.__name__ = "dbm.nardsill"
sys.modules["dbm.nardsill"] = dbm.nardsill = dbm_nardsill
dbm._names[:] = ["dbm.nardsill"]
dbm._modules["dbm.nardsill"] = dbm_nardsill
dbm._defaultmod = dbm_nardsill
dbm.whichdb = dbm_nardsill.whichdb

from test import mapping_tests, test_shelve  # noqa: E402


class Mapping(mapping_tests.BasicTestMappingProtocol):
    """The mapping itself, with bytes as its keys and values."""

    type2test = dict
    made = 0

    def _reference(self):
        return {b"1": b"2", b"key1": b"value1", b"key2": b"value2"}

    def _empty_mapping(self):
        Mapping.made += 1
        database = dbm_nardsill.open(f"mapping{Mapping.made}", "n")
        self.addCleanup(database.close)
        return database


loader = unittest.defaultTestLoader
suite = unittest.TestSuite([loader.loadTestsFromModule(test_shelve), loader.loadTestsFromTestCase(Mapping)])
result = unittest.TextTestRunner(verbosity=0).run(suite)
print(result.testsRun, "tests")
sys.exit(not result.wasSuccessful())
