"""The program for tests that want it. They are skipped where there is none, unless RICHD names one."""

import os

from richd import program


def richd_or_skip(test):
    """The path of the program."""
    try:
        return program.find()
    except FileNotFoundError as missing:
        if os.environ.get("RICHD"):
            raise
        test.skipTest(str(missing))
