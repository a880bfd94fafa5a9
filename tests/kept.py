"""That a desk's `deliver` and `finish` evaluate nothing, by counting the allocations that they can be refused.

A call that evaluated blocks anew would ask for memory as often as the blocks do. So a finish beside three hundred current
blocks can be refused fewer than two hundred times; and a block whose discarded branch makes two hundred variables is
delivered and finished with as many allocations as one that just returns. And that `apply` takes memory for each page that it
writes and a copy holds, since it makes each its own: over three pages it can be refused three times or more."""

import preload
import transcript

LONG = "orElse (do { " + "newTVar 2; " * 200 + "retry }) (return 3)"
SHORT = "return 3"
THREE_PAGES = ["table many 130", "store open"]


def script(name, lines):
    return transcript.Case(name, steps=[(line.encode() + b"\n", b"") for line in lines])


def refusals(calls, library, lines):
    """How many allocations of the last line can be refused so that it answers want of memory."""
    whole = script("whole", ["memory once"] + lines)
    first = preload.ends(calls, library, script("before", ["memory once"] + lines[:-1]))[0].counted
    last = preload.ends(calls, library, whole)[0].counted
    told = b"no memory %d\n" % (len(lines) + 1)
    return sum(end.stdout.endswith(told) for end in preload.ends(calls, library, whole, range(first + 1, last + 1))[1:])


def readers(count):
    """Blocks that wait, each current and reading a variable of its own, and one that writes another variable."""
    opened = [f"table many {count + 1}", "desk open 10000"]
    blocks = [f"desk submit readTVar v{number}" for number in range(count)]
    return opened + blocks + [f"desk submit writeTVar v{count} 5", "desk evaluate_queued 1000"]


def alone(block):
    return ["table declare x : Int = 1", "desk open 10", f"desk submit {block}", "desk take 1", "desk evaluate"]


def judged(calls, library):
    """Names with what was counted and what is said of them."""
    count = refusals(calls, library, readers(300) + ["desk finish 301"])
    yield "a finish beside 300 current blocks", f"{count} refusals", None if 0 < count < 200 else "200 or more, or none"
    for call, lines in (("deliver", []), ("finish", ["desk deliver 1"])):
        last = "desk deliver 1" if call == "deliver" else "desk finish 1"
        counts = [refusals(calls, library, alone(block) + lines + [last]) for block in (LONG, SHORT)]
        said = None if counts[0] == counts[1] else f"not the same: {counts}"
        yield f"{call} of a block with a long discarded branch", f"{counts[0]} refusals", said
    count = refusals(calls, library, THREE_PAGES + ["store apply 0 64 129"])
    yield "an apply over three pages that a copy holds", f"{count} refusals", None if count >= 3 else "fewer than 3"
