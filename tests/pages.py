"""Pages with scripts and sessions: `<!-- file: NAME -->` above a fenced block, and `<!-- session -->` above an indented one.

The sessions of a page are one run of a shell, in a folder with the scripts; what a command prints is below it.
"""

import contextlib
import os
import re
import signal
import subprocess

SECONDS = 120
MARK = "=== the next command ==="


def scripts(text):
    """The name and the text of each script."""
    return re.findall(r"^<!-- file: (\S+) -->\n\n```\w*\n(.*?)^```$", text, re.MULTILINE | re.DOTALL)


def commands(text):
    """Each command with the lines that it prints."""
    found = []
    for block in re.findall(r"^<!-- session -->\n\n((?:(?:    .*)?\n)+)", text, re.MULTILINE):
        for line in block.rstrip("\n").split("\n"):
            if line.startswith("    $ "):
                found.append((line[6:], []))
            else:
                found[-1][1].append(line[4:])
    return [(command, "".join(f"{it}\n" for it in lines)) for command, lines in found]


def judge(page, folder, environment):
    """What differs: the command, what it should print, and what it did."""
    text = page.read_text(encoding="utf-8")
    for name, script in scripts(text):
        (folder / name).write_text(script)
    wanted = commands(text)
    assert wanted, page
    # Files, since what goes on behind would keep a pipe open. Standard error has what the shell says of its jobs, too.
    with (folder / "printed").open("wb") as printed, (folder / "errors.log").open("wb") as errors:
        shell = "".join(f"{command}\necho '{MARK}'\n" for command, _ in wanted)
        process = subprocess.Popen(["bash", "-c", shell], cwd=folder, env=environment, stdout=printed, stderr=errors,
                                   stdin=subprocess.DEVNULL, start_new_session=True)  # fmt: skip
        try:
            process.wait(SECONDS)
        finally:
            with contextlib.suppress(ProcessLookupError):
                os.killpg(process.pid, signal.SIGKILL)
            process.wait()
    found = (folder / "printed").read_text().split(f"{MARK}\n")
    return [(command, lines, it) for (command, lines), it in zip(wanted, found) if lines != it]
