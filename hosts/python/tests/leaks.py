"""Runs each test again and again, and says which leaves references or memory behind.

    python3 leaks.py [PATTERN]    tests of files test_PATTERN.py, or of all

A debug build of Python counts references (sys.gettotalrefcount). Any other counts the blocks of
memory that Python has. A test leaks if each of its last rounds leaves more than the one before.
The status is 1 if one leaks or fails.
"""

import gc
import os
import sys
import unittest
import warnings

WARM, ROUNDS = 3, 3
# (they start 20,000 threads or many processes, or try ctypes alone)
SLOW = {"test_one_after_another", "test_a_fork", "test_a_pool", "test_spawned_processes"}
SLOW |= {
    "test_structs",
    "test_executors",
    "test_no_library",
    "test_types",
    "test_many_are_interrupted",
}
SLOW |= {
    "test_the_gil_is_released",
    "test_a_fork_meanwhile",
    "test_asyncio",
    "test_many_at_once",
    "test_dask",
}


def counted():
    """Returns how many references or blocks there are, without those of garbage."""
    gc.collect()
    gc.collect()
    sys._clear_type_cache()
    return getattr(sys, "gettotalrefcount", sys.getallocatedblocks)()


def tests_of(suite):
    for it in suite:
        if isinstance(it, unittest.TestSuite):
            yield from tests_of(it)
        else:
            yield it


def run(test):
    """Runs a test, and returns whether it ended well."""
    result = unittest.TestResult()
    with warnings.catch_warnings():
        warnings.simplefilter("ignore")
        test(result)
    for _, said in result.failures + result.errors:
        print(said, file=sys.stderr)
    return result.wasSuccessful()


def grown(make):
    """Returns by how much each of the last rounds of a test grows, or None if it fails."""
    counts = [0] * (ROUNDS + 1)
    for number in range(WARM + ROUNDS):
        if number >= WARM:
            counts[number - WARM] = counted()
        if not run(make()):
            return None
    counts[ROUNDS] = counted()
    return [after - before for before, after in zip(counts, counts[1:])]


def main(pattern):
    folder = os.path.dirname(os.path.abspath(__file__))
    loader = unittest.TestLoader()
    found = list(tests_of(loader.discover(folder, f"test_{pattern}.py")))
    tests = [it for it in found if it.id().rpartition(".")[2] not in SLOW]
    wrong = 0
    for test in tests:

        def make(test=test):
            is_method = hasattr(test, "_testMethodName") and not hasattr(test, "_dt_test")
            return type(test)(test._testMethodName) if is_method else test

        grows = grown(make)
        if grows is None or min(grows) > 0:
            wrong += 1
            print(f"leaks: {test.id()}: {'fails' if grows is None else grows}", flush=True)
    what = "references" if hasattr(sys, "gettotalrefcount") else "blocks of memory"
    print(f"leaks: {len(tests)} tests, {ROUNDS} rounds each by {what}, {wrong} leak or fail")
    return 1 if wrong else 0


if __name__ == "__main__":
    sys.exit(main(sys.argv[1] if len(sys.argv) > 1 else "*"))
