#!/usr/bin/env python3
"""Answers `ready`, `why` and `events` from the text of a history: a slow reference for the console, with an evaluator of its own.

It goes by the definitions: each block is run from scratch on the store of its last delivery, and the store is followed event by
event. The text has to be that of a legal history. As a program it reads one and answers the questions that it is given:

    python3 tests/questions_reference.py ready "why 3" "events 1" < HISTORY
"""

import json
import pathlib
import re
import sys

sys.dont_write_bytecode = True
sys.path.insert(0, str(pathlib.Path(__file__).resolve().parent.parent / "tools"))

import blocks
import histories

MOST = 4294967295


class Waiter:
    """A waiting block: its text and its action, and if there was a delivery the store then and the variables that were changed since then."""

    def __init__(self, text, names):
        self.text, self.action, self.store_then, self.changed = text, blocks.parsed(text, names), None, set()
        self.label = ""  # the empty text if it has none
        self.was_stale, self.cause = False, None  # when the history began, and there was no delivery since; and why, if that is known

    def on(self, store):
        """Its verdict on a store, and what it reads there, ascending, with the values."""
        verdict, reads = blocks.outcome(self.action, store)
        return verdict, {variable: store[variable] for variable in sorted(reads)}

    def is_current(self):
        return self.store_then is not None and not self.changed & set(self.on(self.store_then)[1])

    def deliver(self, store):
        """A delivery from this store."""
        self.store_then, self.changed, self.was_stale = store, set(), False


class Reference:
    """What a history means: the store, with how often each variable was changed, the next ticket, and the waiting blocks by their
    tickets."""

    def __init__(self, text):
        first, *lines = text.splitlines()
        head = json.loads(first)
        variables = [json.loads(line) for line in lines[: head["vars"]]]
        begin = head["vars"] + head.get("waiting", 0)
        self.names = {it["name"]: ("old", number) for number, it in enumerate(variables) if it["name"] is not None}
        self.store = [histories.Replay.value(it["init"], 0) for it in variables]
        self.counts = [it.get("count", 0) for it in variables]
        self.next, self.waiters = head.get("next", 1), {}
        self.lines, self.events, self.stores = [], [], []  # of each event its line, what that is, and the store after it
        for line in lines[head["vars"] : begin]:
            self.wait(json.loads(line))
        for line in lines[begin:]:
            self.follow(line)

    def wait(self, line):
        """Takes in a block that waits when the history begins. The store of its last delivery is the present one with what it read."""
        waiter = self.waiters[line["ticket"]] = Waiter(line["block"], self.names)
        waiter.label = line.get("label", "")
        if "verdict" in line:
            waiter.deliver(with_values(self.store, line["reads"]))
            if line["stale"]:
                waiter.changed, waiter.was_stale = {number for number, _ in line["reads"]}, True
                if "cause" in line:
                    waiter.cause = line["cause"], dict(line["changed"])

    def follow(self, line):
        """Takes in the line of one more event."""
        event = json.loads(line)
        self.act(event)
        self.lines.append(line)
        self.events.append(event)
        self.stores.append(self.store)

    def act(self, event):
        if event["event"] == "declared":
            self.names[event["name"]] = ("old", len(self.store))
            self.store, self.counts = [*self.store, histories.Replay.value(event["init"], None)], [*self.counts, 0]
            return
        ticket = event["ticket"]
        if event["event"] == "submitted":
            self.waiters[ticket] = Waiter(event["block"], self.names)
            self.next = ticket + 1
        elif event["event"] == "installed":
            waiter = self.waiters[ticket]
            waiter.deliver(self.store)
        elif event["event"] == "labelled":
            self.waiters[ticket].label = event["label"]
        else:
            waiter = self.waiters.pop(ticket)
        if event["event"] == "finished":
            verdict, _ = waiter.on(self.store)
            before, self.store = self.store, applied(self.store, verdict)
            changed = {number for number, value in enumerate(before) if not is_same(value, self.store[number])}
            self.counts = [count + (number in changed) for number, count in enumerate(self.counts)] + [0] * (len(self.store) - len(before))
            for other in self.waiters.values():
                other.changed |= changed

    def cause(self, ticket, reads):
        """The ticket of the first event since the last delivery to this one after which variables of the reads have other values,
        and these variables with both values."""
        last = max((at for at, it in enumerate(self.events) if (it["event"], it.get("ticket")) == ("installed", ticket)), default=-1)
        for event, store in list(zip(self.events, self.stores))[last + 1:]:
            changes = {it: (value, store[it]) for it, value in reads.items() if not is_same(value, store[it])}
            if changes:
                return event["ticket"], changes
        raise AssertionError(f"nothing made {ticket} stale")

    def is_ready(self, ticket):
        waiter = self.waiters[ticket]
        return waiter.is_current() and waiter.on(self.store)[0] != "blocks"

    def ready(self):
        found = [it for it in sorted(self.waiters) if self.is_ready(it)]
        return "ready " + (" ".join(map(str, found)) or "none")

    def why(self, ticket):
        waiter = self.waiters.get(ticket)
        if waiter is None:
            return "refused NoTicket"
        if waiter.store_then is None:
            return f"why {ticket} new"
        if waiter.was_stale and waiter.cause is None:
            return f"why {ticket} stale checkpoint"
        if not waiter.is_current():
            reads = waiter.on(waiter.store_then)[1]
            if waiter.was_stale:
                finish, left = waiter.cause
                changes = {it: (value, histories.Replay.value(left[it], None)) for it, value in reads.items() if it in left}
            else:
                finish, changes = self.cause(ticket, reads)
            shown = [f"#{it}={histories.shown(old)}->{histories.shown(new)}" for it, (old, new) in changes.items()]
            return " ".join([f"why {ticket} stale {finish}", *shown])
        if self.is_ready(ticket):
            return f"why {ticket} ready"
        reads = [f"#{it}={histories.shown(value)}" for it, value in waiter.on(self.store)[1].items()]
        return f"why {ticket} waits " + (" ".join(reads) or "none")

    def later(self, number):
        """The lines that answer `events`."""
        return [*self.lines[max(number, 1) - 1:], f"events {len(self.lines)}"]

    def answer(self, line):
        """The lines of the answer to `ready`, `why T` or `events N`."""
        word, *argument = line.split(None, 1)
        if word == "ready":
            return ["refused Argument" if argument else self.ready()]
        number = re.fullmatch(r"(\d{1,10})\s*", "".join(argument))
        if not number or int(number[1]) > MOST:
            return ["refused Argument"]
        return [self.why(int(number[1]))] if word == "why" else self.later(int(number[1]))


def is_same(one, other):
    return type(one) is type(other) and one == other


def with_values(store, reads):
    """The store with the values of these reads, as a line has them."""
    values = {number: histories.Replay.value(value, None) for number, value in reads}
    return [values.get(number, value) for number, value in enumerate(store)]


def applied(store, verdict):
    """The store after a verdict."""
    if verdict[0] != "commits":
        return store
    _, writes, made, _ = verdict
    old = lambda value: ("old", len(store) + value[1]) if isinstance(value, tuple) and value[0] == "new" else value
    return [old(writes.get(number, value)) for number, value in enumerate(store)] + [old(value) for value in made]


def main():
    reference = Reference(sys.stdin.read())
    for question in sys.argv[1:]:
        print("\n".join(reference.answer(question)))


if __name__ == "__main__":
    main()
