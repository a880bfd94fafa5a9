"""That both branches of an `orElse` run at once, and that the right one counts only where the left one retried, by counting
the allocations of a run that can be refused in vain.

Where the left branch returns, whatever the right one is refused changes nothing. So of the runs with one allocation refused
each, more end with the whole answer where the right branch makes two hundred variables than where it only returns. Where
the left one retries, what the right one is refused is the block's own want of memory, and more runs end with status 4.
Neither left branch takes memory, so no number depends on which of the two is faster."""

import preload
import transcript
from allocations import OUT_OF_MEMORY

MAKES = "do { " + "newTVar 2; " * 200 + "return 3 }"
MORE = 4  # runs, at least


def case(left, right, result):
    lines = [
        (f"submit orElse ({left}) ({right})\n", "ticket 1\n"),
        ("eval\n", "evaluated 1\n"),
        ("finish 1\n", f"finished 1 result {result} stale none\n"),
    ]
    words = ["run", "--workers", "1", "--levels", "1"]
    return transcript.Case("a fork", words, [(line.encode(), answer.encode()) for line, answer in lines])


def ends(program, library, left, right, result):
    """How many runs with one allocation refused end with the whole answer, and how many for want of memory."""
    asked = case(left, right, result)
    count = preload.ends(program, library, asked)[0].counted
    runs = preload.ends(program, library, asked, range(1, count + 1))[1:]
    whole = sum((end.returncode, end.stdout) == (0, asked.printed) for end in runs)
    refused = sum((end.returncode, end.stderr) == (4, OUT_OF_MEMORY) for end in runs)
    return whole, refused, count


def judged(program, library):
    """Names with what was counted and what is said of them."""
    for left, result, at, name in (("return 1", 1, 0, "a fork whose left branch returns"), ("retry", 3, 1, "and retries")):
        long, short = ends(program, library, left, MAKES, result), ends(program, library, left, "return 3", result)
        counted = f"{long[at]} and {short[at]} of {long[2]} and {short[2]} runs"
        said = None if long[at] >= short[at] + MORE else "the right branch makes no difference"
        others = [end for end in (long, short) if end[0] + end[1] != end[2]]
        yield name, counted, said or (f"some end otherwise: {others}" if others else None)
