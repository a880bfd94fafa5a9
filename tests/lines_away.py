"""The scripts of examples/explore in which nothing is wrong, without one of their steps: then something is wrong, or REASONS says why not.

A step that is taken away is a line `finish` or `choose`, which changes the store; the lines that check it would only let more pass. So a
script that is right because it does too little, or checks too little, is noticed. A reason that isn't needed is an error, too. A section
that has no step left can't repeat, so its script is refused, which is as good as a fault.
"""

import pathlib
import re
import subprocess

import transcript

FOLDER = pathlib.Path(__file__).resolve().parent.parent / "examples" / "explore"
STEP = re.compile(r"(finish|choose) ")
FAULT = re.compile(r"(?m)^(deadlock$|(broken|missed|failed|threw|never reached) line |stuck client )")
NO_STEP = re.compile(r"(?m)^stmdesk: script line \d+: Argument$")
LESS = "with one choice less there are fewer orders"
REASONS = {  # by scripts, the numbers of lines without which nothing is wrong, and why
    "bounded_queue": {(19, 23): "the producers wait until one number is taken, and nobody waits until the other one is"},
    "leader_election": {(24,): LESS, (44, 79, 114): "a node's own number is never the first one that comes to it"},
    "lost_message_sent_again": {(11,): LESS, (13,): "the message is sent a second time unless there is a receipt"},
    "peterson": {(24, 53): "in round 2 the process says again that it wants to go in, and gives the turn away before it waits"},
    "philosophers_both_at_once": {(9, 15, 21): "who takes no forks keeps nobody from them, and nothing checks who eats"},
    "polite_locks_one_waits": {(13, 21): "who doesn't say that it wants to go in goes in all the same, and nothing checks who is inside"},
    "polled_token": {(12,): LESS},
    "readers_writers": {(28, 36): "a reader that doesn't look at the page finds nothing wrong with it"},
    "readers_writers_writer_first": {(20,): "the writer stays inside until its second round ends"},
    "ring_buffer": {
        (16, 25): "there is room for the first two numbers without waiting",
        (47,): "nothing is put after it",
        (89,): "nothing is taken after it",
        (91,): "nobody waits for the room that it makes",
    },
    "token_ring": {(20, 30): LESS, (72,): "nobody goes in after it", (74,): "nobody waits for the token after it"},
    "transfers": {(9, 13, 17): "each transfer keeps the sum, and nobody waits for it"},
    "two_phase_commit": {(21, 27): "a participant that does nothing does nothing that the other one doesn't"},
    "two_phase_commit_crash": {
        (20,): "a coordinator that has decided nothing finds nothing in its log, and aborts",
        (21, 28, 35): LESS,
        (23, 30, 37): "a crash that loses nothing is none",
        (25,): "the log is still empty when the coordinator next looks into it, and it aborts",
    },
    "wakeup": {(10,): "who doesn't fall asleep isn't waited for, and doesn't wait", (11,): "who doesn't wait needs nobody who wakes it"},
    "wakeup_beside_a_clock": {
        (13, 14): "a worker that doesn't go to sleep, or doesn't wait to be woken, takes each job",
        (22,): "a dispatcher that leaves no job waits for nothing, and wakes the worker",
    },
}


def right():
    """The scripts in which nothing is wrong."""
    return [it for it in sorted(FOLDER.glob("*.stm")) if it.with_suffix(".out").read_bytes().endswith(b"\nright\n")]


def judge(program, options, lines, number, reason):
    """None, or what is wrong with what is found with these options without the line of this number."""
    text = "".join(it + "\n" for at, it in enumerate(lines, 1) if at != number)
    done = subprocess.run([program, "explore", *options], input=text, capture_output=True, text=True, timeout=transcript.SECONDS)
    refused = done.returncode == 1 and "repeat" in lines and NO_STEP.search(done.stderr)
    if refused or (done.returncode == 3 and FAULT.search(done.stdout)):
        return reason and f"something is wrong, so there is no need of the reason {reason!r}"
    if done.returncode == 0:
        return None if reason else f"nothing is wrong without `{lines[number - 1]}`, and there is no reason"
    return f"status {done.returncode}: {done.stdout}{done.stderr}"


def listed():
    """None, or how the table of examples/explore/README.md differs from what the scripts print: each is there once, a fault with its name."""
    cells = re.findall(r"\[(\w+)\]\((\w+)\.stm\)(?:: `([^`]+)`)?", (FOLDER / "README.md").read_text())
    there = sorted((name, fault or "right") for name, path, fault in cells if name == path)
    printed = []
    for path in FOLDER.glob("*.stm"):
        fault = FAULT.search(path.with_suffix(".out").read_text())
        printed.append((path.stem, path.with_suffix(".out").read_text()[fault.start() :].split("\n")[0] if fault else "right"))
    return None if there == sorted(printed) else f"{sorted(set(there) ^ set(printed))}"


def judged(program, part):
    """For each step of these scripts a name, and what is said of the script without it; and whether each reason is of a step of one. Before
    them whether the table of the scripts has each. Only what has the part in its name is run."""
    name = "explore: the table of examples/explore"
    if part in name:
        yield name, listed()
    steps = set()
    for path in right():
        lines = path.read_text().splitlines()
        reasons = {number: said for numbers, said in REASONS.get(path.stem, {}).items() for number in numbers}
        for number in (at for at, it in enumerate(lines, 1) if STEP.match(it)):
            steps.add((path.stem, number))
            name = f"explore {path.name} without line {number}"
            if part in name:
                yield name, judge(program, transcript.options_of(path), lines, number, reasons.get(number))
    name = "explore: the reasons why lines may be taken away"
    extra = [(script, it) for script, found in REASONS.items() for numbers in found for it in numbers if (script, it) not in steps]
    if part in name:
        yield name, f"there are no such steps: {extra}" if extra else None
