"""The tours of the documents: what they say that the program prints (tests/README.md)."""

import os
import pathlib
import subprocess
import tempfile

import transcript

ROOT = pathlib.Path(__file__).resolve().parent.parent
MARK = "<!-- run -->"
INDENT = "    "


def blocks(text):
    """The indented blocks below a mark, without their indent."""
    lines = text.split("\n")
    for start in (n + 1 for n, line in enumerate(lines) if line == MARK):
        block = []
        for line in lines[start:]:
            if line.startswith(INDENT):
                block.append(line[len(INDENT) :])
            elif line:
                break
            elif block:
                block.append("")
        while block and not block[-1]:
            block.pop()
        yield block


def sessions(text):
    """Each command with the lines below it, and the number of its block; a block without a command goes on with the one before it."""
    found = []
    for number, block in enumerate(blocks(text)):
        for line in block:
            if line.startswith("$ "):
                found.append((line[2:], [], number))
            else:
                found[-1][1].append(line)
    return found


def judge(program, command, lines, folder=None):
    """None, or how what a command prints differs from what the document says. It runs in this folder, or else in an empty one."""
    if folder is None:
        with tempfile.TemporaryDirectory() as empty:
            return judge(program, command, lines, pathlib.Path(empty))
    case = transcript.parsed(command, [""] + lines)
    if not (folder / "stmdesk").exists():
        (folder / "stmdesk").symlink_to(program)
        (folder / "tools").symlink_to(ROOT / "tools")
    done = subprocess.run(
        ["sh", "-c", command],
        cwd=folder,
        input=case.text,
        stdout=subprocess.PIPE,
        stderr=subprocess.STDOUT,
        timeout=transcript.SECONDS,
        env=os.environ | {"STMDESK": str(program)},  # for tools that run the program
    )
    return None if done.stdout == case.printed else transcript.shown(case, done.stdout)


def judged(program, root, has_files=True):
    """Each command of the documents, and what is said of it. Without files those on a journal are left out."""
    for path in [root / "README.md"] + sorted((root / "docs").glob("*.md")):
        with tempfile.TemporaryDirectory() as folder:
            for command, lines, number in sessions(path.read_text(transcript.ENCODING)):
                if has_files or "journal" not in command:
                    own = pathlib.Path(folder) / str(number)
                    own.mkdir(exist_ok=True)
                    yield f"{path.name}: $ {command}", judge(program, command, lines, own)
