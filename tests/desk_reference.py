"""A slow desk, whose one limit is how many events its history has room for: the answers of the console's commands, by the rules of
docs/CONSOLE.md, with an evaluator of its own. It knows no types but those of variables.

It keeps the whole past: of each waiting block the store of its last delivery, and of each stale one the finish that made it so. A checkpoint
does nothing to it, but that the number of events is as after one.
"""

import math
import re
import sys
from pathlib import Path

sys.dont_write_bytecode = True
sys.path.insert(0, str(Path(__file__).resolve().parent.parent / "tools"))

import blocks
import random_scripts
from histories import shown
from questions_reference import applied, is_same


class Full(Exception):
    """The history has no room for an event. Nothing was changed."""


def value_of(text, names):
    """The first value of a declared variable."""
    constants = {"True": True, "False": False, "()": None}
    return constants[text] if text in constants else names[text] if text in names else int(text.strip("()"))


def verdict_text(verdict):
    if verdict[0] != "commits":
        return verdict if verdict == "blocks" else f"throws {verdict[1]}"
    _, writes, made, result = verdict
    written = " ".join(f"#{it}={shown(value)}" for it, value in sorted(writes.items())) or "none"
    return f"commits writes {written} news {' '.join(map(shown, made)) or 'none'} result {shown(result)}"


def reads_text(reads):
    return " ".join(f"#{it}={shown(value)}" for it, value in reads.items()) or "none"


def words_of(text):
    """The words of an argument, between blanks of the console."""
    return re.findall(r"[^ \t\r]+", text)


def labelling(text):
    """The ticket and the label that an argument of `label` gives, or None. The label is empty if there is no second word."""
    words = words_of(text)
    ticket, label = [*words, "", ""][:2]
    is_ticket = re.fullmatch(r"[0-9]{1,10}", ticket) and int(ticket) <= 4294967295
    is_label = len(label) <= 64 and label != "-" and all("!" <= it <= "~" for it in label)
    return (int(ticket), label) if is_ticket and is_label and len(words) <= 2 else None


class Waiter:
    """A waiting block: its action, its text and its label, empty if it has none; if there was a delivery what it read and its verdict then; and
    if it is stale why, as `why` prints it."""

    def __init__(self, action, text):
        self.action, self.text, self.label, self.reads, self.verdict, self.stale = action, text, "", None, None, None

    @property
    def is_new(self):
        return self.reads is None

    @property
    def is_current(self):
        return not self.is_new and self.stale is None

    @property
    def can_finish(self):
        return self.is_current and self.verdict != "blocks"


class Desk:
    """The desk. `answer` takes a line and returns the lines of its answer."""

    def __init__(self, variables, limit=math.inf):
        self.names, self.cells, self.kinds, self.counts = {}, [], [], []
        for name, (kind, first) in variables.items():
            self.declare(name, kind, value_of(first, self.names))
        self.waiters, self.out, self.jobs, self.next, self.events, self.limit = {}, set(), [], 1, 0, limit

    # -- what it does

    def declare(self, name, kind, value):
        self.names[name] = ("old", len(self.cells))
        self.cells = [*self.cells, value]  # jobs have the list of before
        self.kinds.append(kind)
        self.counts.append(0)

    def outcome(self, action, cells):
        verdict, reads = blocks.outcome(action, cells)
        return verdict, {it: cells[it] for it in sorted(reads)}

    def queued(self):
        return [it for it, waiter in sorted(self.waiters.items()) if not waiter.is_current and it not in self.out]

    def ready(self):
        return [it for it, waiter in sorted(self.waiters.items()) if waiter.can_finish]

    def record(self):
        """One event more. Raises `Full`."""
        if self.events >= self.limit:
            raise Full
        self.events += 1

    def deliver_to(self, ticket, verdict, reads):
        self.record()
        waiter = self.waiters[ticket]
        waiter.verdict, waiter.reads, waiter.stale = verdict, reads, None
        self.out.discard(ticket)

    def evaluate(self):
        queued = self.queued()
        for ticket in queued:
            self.deliver_to(ticket, *self.outcome(self.waiters[ticket].action, self.cells))
        return len(queued)

    def end(self, ticket):
        """Finishes a block that can finish. Returns the tickets that become stale."""
        self.record()
        verdict = self.waiters.pop(ticket).verdict
        before, self.cells = self.cells, applied(self.cells, verdict)
        for value in self.cells[len(before):]:
            self.kinds.append(self.kind(value))
            self.counts.append(0)
        changed = [it for it, value in enumerate(before) if not is_same(value, self.cells[it])]
        for it in changed:
            self.counts[it] += 1
        stale = []
        for other, waiter in sorted(self.waiters.items()):
            read = [it for it in changed if waiter.is_current and it in waiter.reads]
            if read:
                changes = [f"#{it}={shown(waiter.reads[it])}->{shown(self.cells[it])}" for it in read]
                waiter.stale = " ".join(["stale", str(ticket), *changes])
                stale.append(other)
        return stale

    def run(self, word, choose):
        """Evaluates the ticket that `choose` returns, or finishes it if it is current, until that is none or the history is full."""
        self.out.clear()
        finished = evaluations = 0
        stopped = ""
        try:
            while (ticket := choose()) is not None:
                waiter = self.waiters[ticket]
                if waiter.is_current:
                    self.end(ticket)
                    finished += 1
                else:
                    self.deliver_to(ticket, *self.outcome(waiter.action, self.cells))
                    evaluations += 1
        except Full:
            stopped = "stopped HistoryFull "
        return [f"{stopped}{word} {finished} evaluations {evaluations}"]

    def kind(self, value):
        """The text of a value's type."""
        if isinstance(value, tuple):
            inner = self.kinds[value[1]] if value[1] < len(self.kinds) else self.kind(self.cells[value[1]])
            return f"TVar ({inner})" if inner.startswith("TVar") else f"TVar {inner}"
        return "()" if value is None else "Bool" if isinstance(value, bool) else "Int"

    # -- the commands

    def answer(self, line):
        word, _, argument = line.partition(" ")
        try:
            return getattr(self, f"do_{word}")(argument)
        except Full:
            return ["refused HistoryFull"]
        except blocks.Unknown as unknown:
            return [f"refused Unknown {[it.start() for it in blocks.TOKEN.finditer(argument)][unknown.args[0]]}"]

    def do_declare(self, text):
        if text in random_scripts.BROKEN:
            return [f"refused {random_scripts.BROKEN[text]}"]
        name, kind, first = re.fullmatch(r"(\w+) : (.+) = (.+)", text).groups()
        if first[0].islower() and first not in self.names:
            return [f"refused Unknown {text.index('=') + 2}"]
        if name in self.names:
            return ["refused Twice"]
        value = value_of(first, self.names)
        if self.kind(value) != kind:
            return ["refused TypeOfValue"]
        self.record()
        self.declare(name, kind, value)
        return [f"declared #{len(self.cells) - 1} {name}"]

    def do_submit(self, text):
        action = blocks.parsed(text, self.names)
        self.record()
        ticket, self.next = self.next, self.next + 1
        self.waiters[ticket] = Waiter(action, text)
        return [f"ticket {ticket}"]

    def do_atomically(self, text):
        action = blocks.parsed(text, self.names)
        verdict, reads = self.outcome(action, self.cells)
        if self.events + (2 if verdict == "blocks" else 3) > self.limit:
            raise Full
        ticket = self.do_submit(text)[0].split()[1]
        self.deliver_to(int(ticket), verdict, reads)
        return [f"waits {ticket}"] if verdict == "blocks" else self.do_finish(ticket)

    def do_take(self, count):
        taken = self.queued()[: int(count)]
        first = len(self.jobs) + 1
        self.jobs += [(ticket, self.waiters[ticket].action, self.cells) for ticket in taken]
        self.out |= set(taken)
        return ["jobs " + (" ".join(f"{first + at}={ticket}" for at, ticket in enumerate(taken)) or "none")]

    def do_deliver(self, number):
        if not 0 < int(number) <= len(self.jobs):
            return ["refused NoJob"]
        ticket, action, cells = self.jobs[int(number) - 1]
        waiter = self.waiters.get(ticket)
        if waiter is None:
            return ["refused Gone"]
        if waiter.is_current:
            return ["refused Already"]
        verdict, reads = self.outcome(action, cells)
        differing = [it for it, value in reads.items() if not is_same(value, self.cells[it])]
        if differing:
            self.out.discard(ticket)
            return [f"refused Overtaken #{differing[0]}"]
        self.deliver_to(ticket, verdict, reads)
        return [f"delivered {ticket}"]

    def do_handback(self, ticket):
        if int(ticket) not in self.out:
            return ["refused NotOut"]
        self.out.discard(int(ticket))
        return [f"queued {ticket}"]

    def do_eval(self, _):
        return [f"evaluated {self.evaluate()}"]

    def do_finish(self, ticket):
        waiter = self.waiters.get(int(ticket))
        if waiter is None:
            return ["refused NoTicket"]
        if waiter.is_new:
            return ["refused NotEvaluated"]
        if waiter.stale:
            return ["refused Stale"]
        if waiter.verdict == "blocks":
            return ["refused Blocks"]
        verdict, first_new = waiter.verdict, len(self.cells)
        stale = self.end(int(ticket))
        if verdict[0] == "throws":
            return [f"finished {ticket} throws {verdict[1]}"]
        result = verdict[3]
        if isinstance(result, tuple) and result[0] == "new":
            result = ("old", first_new + result[1])
        return [f"finished {ticket} result {shown(result)} stale {' '.join(map(str, stale)) or 'none'}"]

    def do_cancel(self, ticket):
        if int(ticket) not in self.waiters:
            return ["refused NoTicket"]
        self.record()
        del self.waiters[int(ticket)]
        self.out.discard(int(ticket))
        return [f"cancelled {ticket}"]

    def do_settle(self, _):
        return self.run("settled", lambda: next(iter(self.queued() or self.ready()), None))

    def do_drain(self, _):
        return self.run("drained", lambda: min(self.queued() + self.ready(), default=None))

    def do_show(self, _):
        lines = []
        for ticket, waiter in sorted(self.waiters.items()):
            how = "new" if waiter.is_new else f"{'stale' if waiter.stale else 'current'} {verdict_text(waiter.verdict)}"
            lines.append(f"{ticket} {how}")
        return [*lines, f"waiting {len(self.waiters)}"]

    def do_board(self, _):
        lines = self.do_show("")
        return [*(f"{line} {waiter.label or '-'}" for line, (_, waiter) in zip(lines, sorted(self.waiters.items()))), lines[-1]]

    def do_block(self, ticket):
        waiter = self.waiters.get(int(ticket))
        return ["refused NoTicket" if waiter is None else f"block {ticket} " + re.sub(r"[\r\n]", " ", waiter.text)]

    def do_label(self, text):
        found = labelling(text)
        if found is None:
            return ["refused Argument"]
        ticket, label = found
        if ticket not in self.waiters:
            return ["refused NoTicket"]
        self.record()
        self.waiters[ticket].label = label
        return [f"labelled {ticket} {label or '-'}"]

    def do_reads(self, ticket):
        waiter = self.waiters.get(int(ticket))
        if waiter is None:
            return ["refused NoTicket"]
        return ["refused NotEvaluated" if waiter.is_new else f"reads {reads_text(waiter.reads)}"]

    def do_ready(self, _):
        return ["ready " + (" ".join(map(str, self.ready())) or "none")]

    def do_why(self, ticket):
        waiter = self.waiters.get(int(ticket))
        if waiter is None:
            return ["refused NoTicket"]
        if waiter.is_new or waiter.stale:
            return [f"why {ticket} {waiter.stale or 'new'}"]
        return [f"why {ticket} ready" if waiter.can_finish else f"why {ticket} waits {reads_text(waiter.reads)}"]

    def do_store(self, _):
        lines, names = [], {number: f"{name} " for name, (_, number) in self.names.items()}
        for number, (kind, value, count) in enumerate(zip(self.kinds, self.cells, self.counts)):
            name = names.get(number, "")
            lines.append(f"#{number} {name}: {kind} = {shown(value)} count {count}")
        return [*lines, f"cells {len(self.cells)}"]

    def do_try(self, text):
        return [verdict_text(self.outcome(blocks.parsed(text, self.names), self.cells)[0])]

    def do_looks(self, text):
        return [f"reads {reads_text(self.outcome(blocks.parsed(text, self.names), self.cells)[1])}"]

    def do_checkpoint(self, _):
        """The only trace: the number of events."""
        count, self.events = self.events, 0
        return [f"checkpoint {count}"]

    def restart(self):
        """What a start on a journal changes: the jobs of the run before are gone."""
        self.jobs.clear()
        self.out.clear()
