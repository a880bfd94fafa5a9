#!/usr/bin/env python3
"""Runs the tests of the package stmdesk, those of the folder tests, against the program, or, with --local, against the library of
docs/EMBEDDING.md.

The program is the argument, or what the environment variable STMDESK names, or the script `stmdesk` at the top of the
repository. Expected answers are from docs/CONSOLE.md and docs/LANGUAGE.md. If a program has to misbehave, a script of a few
lines stands in for it.

With --local, or STMDESK_LOCAL=1, each desk is one of `Desk(local=True)`, of the library that `find_library` finds. A test that needs a
process for its desk, or has no desk, is then skipped, and a line says why. The last line is 'N passed, M failed', with the number of
tests that were skipped.
"""

import argparse
import collections
import os
import pathlib
import sys
import unittest

sys.dont_write_bytecode = True

from stmdesk import find_library
from tests import common

HERE = pathlib.Path(__file__).resolve().parent


def main():
    parser = argparse.ArgumentParser(description=__doc__, formatter_class=argparse.RawDescriptionHelpFormatter)
    parser.add_argument("--local", action="store_true", help="tests desks in this process, of the library that find_library() returns")
    parser.add_argument("program", metavar="PROGRAM", nargs="?", help="the built program")
    parser.add_argument("part", metavar="PART", nargs="?", default="", help="only tests that have this in their name, such as test_aio.")
    asked = parser.parse_args()
    if asked.program:
        common.program = str(pathlib.Path(asked.program).resolve())
    if asked.local or os.environ.get("STMDESK_LOCAL") == "1":
        common.library = os.path.abspath(find_library())
    os.environ["PYTHONPATH"] = str(HERE)  # of programs that a test starts, such as a server
    loader = unittest.TestLoader()
    loader.testNamePatterns = [f"*{asked.part}*"]
    result = unittest.TextTestRunner(sys.stdout).run(loader.discover(str(HERE / "tests"), top_level_dir=str(HERE)))
    failed = {getattr(test, "test_case", test).id() for test, _ in result.failures + result.errors}  # a test, not its parts
    skipped = collections.Counter(why for _, why in result.skipped)
    for why, count in sorted(skipped.items()):
        names = sorted(test.id().split(".", 2)[2] for test, it in result.skipped if it == why)
        print(f"skipped ({why}): {', '.join(names) if count < 4 else f'{count} tests'}")
    said = f", {len(result.skipped)} skipped" if skipped else ""
    print(f"{result.testsRun - len(failed) - len(result.skipped)} passed, {len(failed)} failed{said}", flush=True)
    return 1 if failed or not result.testsRun else 0


if __name__ == "__main__":
    sys.exit(main())
