"""Builds the package for pip, by the functions that PEP 517 and PEP 660 name, with Python's own library alone.

    python3 clients/python/build_package.py [--pure] [FOLDER]

So `pip install ./clients/python` needs no network. The wheel brings the program, as stmdesk/bin/stmdesk: the one that the repository's
`./stmdesk` runs, built or of release/. It also brings the library, as stmdesk/bin/libstmdesk.so, if `./stmdesk --which-library` names one.
A wheel with --pure (for pip: `--config-settings pure=yes`) has neither. pip gets such a wheel, too, if there is no program that runs here.
This script writes a wheel to FOLDER, the present one if it isn't given, and fails if there is no program. The version is `__version__` in
stmdesk/__init__.py; the other facts are those of pyproject.toml.
"""

from __future__ import annotations

import argparse
import base64
import hashlib
import io
import lzma
import os
import re
import stat
import subprocess
import sys
import sysconfig
import tarfile
import zipfile
from pathlib import Path
from typing import Any

HERE = Path(__file__).resolve().parent
TOP = HERE.parent.parent
SOURCES = ["pyproject.toml", "build_package.py", "README.md"]
PROGRAM, LIBRARY = "stmdesk/bin/stmdesk", "stmdesk/bin/libstmdesk.so"
PURE = "any"  # the platform of a wheel without the program


def fact(name: str) -> str:
    """The text that pyproject.toml has under this name. (Python 3.10 has no reader of TOML.)"""
    found = re.search(rf'^{name} = "(.*)"$', (HERE / "pyproject.toml").read_text(), re.MULTILINE)
    assert found, f"pyproject.toml has no {name}"
    return found[1]


def version() -> str:
    found = re.search(r'^__version__ = "(.*)"$', (HERE / "stmdesk" / "__init__.py").read_text(), re.MULTILINE)
    assert found, "stmdesk/__init__.py has no __version__"
    return found[1]


def stem() -> str:
    return f"{fact('name')}-{version()}"


def entry_points() -> str:
    """The commands that the package installs."""
    scripts = (HERE / "pyproject.toml").read_text().partition("[project.scripts]\n")[2]
    found = re.findall(r'^([\w-]+) = "([\w.:]+)"', scripts, re.MULTILINE)
    assert found, "pyproject.toml has no scripts"
    return "".join(["[console_scripts]\n", *(f"{name} = {function}\n" for name, function in found)])


def metadata() -> str:
    lines = [
        "Metadata-Version: 2.1",
        f"Name: {fact('name')}",
        f"Version: {version()}",
        f"Summary: {fact('description')}",
        f"Requires-Python: {fact('requires-python')}",
        "Description-Content-Type: text/markdown",
        "",
        (HERE / fact("readme")).read_text(),
    ]
    return "\n".join(lines)


def package() -> dict[str, str]:
    """The files of the package by their names."""
    files = sorted([*(HERE / "stmdesk").glob("*.py"), HERE / "stmdesk" / "py.typed"])
    return {f"stmdesk/{it.name}": it.read_text() for it in files}


def program() -> tuple[bytes, str]:
    """The program that `./stmdesk` of the repository runs, and the platform that it needs. Raises OSError if there is none that runs
    here."""
    if HERE != TOP / "clients" / "python" or not (TOP / "crates" / "stmdesk").is_dir():
        raise FileNotFoundError(f"{HERE} isn't in stmdesk's repository")
    ran = subprocess.run([TOP / "stmdesk", "--which"], stdin=subprocess.DEVNULL, capture_output=True, text=True, errors="surrogateescape")
    if ran.returncode:
        raise FileNotFoundError(ran.stderr.strip())
    found = Path(ran.stdout.removesuffix("\n"))
    is_unpacked = not found.samefile(TOP / "stmdesk")
    data = found.read_bytes() if is_unpacked else lzma.decompress((TOP / "release" / "stmdesk.xz").read_bytes())
    needed = glibc(data)
    there = re.fullmatch(r"glibc (\d+)\.(\d+).*", (hasattr(os, "confstr") and os.confstr("CS_GNU_LIBC_VERSION")) or "")
    if sysconfig.get_platform() != "linux-x86_64" or not there or tuple(map(int, there.groups())) < needed:
        raise OSError(f"the program needs Linux on x86-64 with glibc {needed[0]}.{needed[1]} or later, and Python of the same kind")
    return data, f"manylinux_{needed[0]}_{needed[1]}_x86_64"


def glibc(data: bytes) -> tuple[int, ...]:
    """The version of the C library that a file needs."""
    return max((tuple(map(int, it.split(b"."))) for it in re.findall(rb"GLIBC_(\d+\.\d+)", data)), default=(2, 17))


def library(program: bytes) -> dict[str, bytes]:
    """The repository's library by its path in the package, if there is one that needs nothing newer than this program does."""
    ran = subprocess.run(
        [TOP / "stmdesk", "--which-library"], stdin=subprocess.DEVNULL, capture_output=True, text=True, errors="surrogateescape"
    )
    if ran.returncode:
        return {}
    data = Path(ran.stdout.removesuffix("\n")).read_bytes()
    return {LIBRARY: data} if glibc(data) <= glibc(program) else {}


def write_wheel(folder: str, texts: dict[str, str], executables: dict[str, bytes], platform: str) -> str:
    """Writes a wheel with the files for the platform, and returns its name."""
    info, tag = f"{stem()}.dist-info", f"py3-none-{platform}"
    is_pure = str(platform == PURE).lower()
    wheel = f"Wheel-Version: 1.0\nGenerator: build_package\nRoot-Is-Purelib: {is_pure}\nTag: {tag}\n"
    texts = texts | {f"{info}/METADATA": metadata(), f"{info}/WHEEL": wheel, f"{info}/entry_points.txt": entry_points()}
    files, record = {path: text.encode() for path, text in texts.items()} | executables, ""
    for path, data in files.items():
        digest = base64.urlsafe_b64encode(hashlib.sha256(data).digest()).rstrip(b"=").decode()
        record += f"{path},sha256={digest},{len(data)}\n"
    files[f"{info}/RECORD"] = f"{record}{info}/RECORD,,\n".encode()
    name = f"{stem()}-{tag}.whl"
    with zipfile.ZipFile(Path(folder) / name, "w", zipfile.ZIP_DEFLATED) as archive:
        for path, data in files.items():
            entry = zipfile.ZipInfo(path)  # of 1980, so that the same files make the same wheel
            entry.external_attr = (stat.S_IFREG | (0o755 if path in executables else 0o644)) << 16
            archive.writestr(entry, data, zipfile.ZIP_DEFLATED)
    return name


def write_pure(folder: str) -> str:
    return write_wheel(folder, package(), {}, PURE)


def write_with_program(folder: str) -> str:
    """Raises OSError if there is no program that runs here."""
    data, platform = program()
    return write_wheel(folder, package(), {PROGRAM: data} | library(data), platform)


def build_wheel(wheel_directory: str, config_settings: Any = None, metadata_directory: str | None = None) -> str:
    if config_settings and not {"pure", "--pure"}.isdisjoint(config_settings):
        return write_pure(wheel_directory)
    try:
        return write_with_program(wheel_directory)
    except OSError as error:
        print(f"the package brings no program: {error}", file=sys.stderr)
        return write_pure(wheel_directory)


def build_editable(wheel_directory: str, config_settings: Any = None, metadata_directory: str | None = None) -> str:
    return write_wheel(wheel_directory, {"stmdesk.pth": f"{HERE}\n"}, {}, PURE)


def build_sdist(sdist_directory: str, config_settings: Any = None) -> str:
    files = {it: (HERE / it).read_text() for it in SOURCES} | package() | {"PKG-INFO": metadata()}
    name = f"{stem()}.tar.gz"
    with tarfile.open(Path(sdist_directory) / name, "w:gz", format=tarfile.PAX_FORMAT) as archive:
        for path, text in files.items():
            entry = tarfile.TarInfo(f"{stem()}/{path}")
            entry.size = len(text.encode())
            archive.addfile(entry, io.BytesIO(text.encode()))
    return name


def main() -> None:
    parser = argparse.ArgumentParser("build_package.py", description=__doc__, formatter_class=argparse.RawDescriptionHelpFormatter)
    parser.add_argument("--pure", action="store_true", help="a wheel without the program, for any platform")
    parser.add_argument("folder", metavar="FOLDER", nargs="?", default=".", help="where the wheel is written")
    asked = parser.parse_args()
    try:
        print((write_pure if asked.pure else write_with_program)(asked.folder))
    except OSError as error:
        sys.exit(f"build_package.py: {error}")


if __name__ == "__main__":
    main()
