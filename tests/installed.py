"""Python packages that some tests need, and that may be those of the system. No test installs anything: tests/needs.txt has what all need."""

import importlib.util
import os
import pathlib
import subprocess
import sys

SYSTEM = pathlib.Path("/usr/lib/python3/dist-packages")


def has(name):
    return importlib.util.find_spec(name) is not None


def python_package(name, folder):
    """A folder with a package of pure Python, for PYTHONPATH, or None: that of this Python, or that of the system's."""
    packages = folder / "packages"
    packages.mkdir(exist_ok=True)
    if not has(name):
        for it in (name, "decorator.py"):  # what Debian's prometheus_client needs
            if (SYSTEM / it).exists():
                (packages / it).symlink_to(SYSTEM / it)
    environment = {**os.environ, "PYTHONPATH": str(packages), "PYTHONDONTWRITEBYTECODE": "1"}
    done = subprocess.run([sys.executable, "-c", f"import {name}"], env=environment, stdin=subprocess.DEVNULL, capture_output=True)
    return packages if done.returncode == 0 else None
