"""Finds the program that is measured if no other is named."""

import pathlib
import subprocess
import sys

ROOT = pathlib.Path(__file__).resolve().parent.parent


def built():
    """The path that `./stmdesk --which` prints: of the program that was built here, or of that of release/ if it fits the sources."""
    ran = subprocess.run([ROOT / "stmdesk", "--which"], stdin=subprocess.DEVNULL, stdout=subprocess.PIPE, text=True, check=False)
    if ran.returncode:  # the launcher has said why there is none
        sys.exit(1)
    return ran.stdout.strip()
