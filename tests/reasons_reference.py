#!/usr/bin/env python3
"""Explains the first line of a history that isn't accepted: a slow reference for `stmdesk check --why`, with an evaluator of its own.

It goes by the definitions: the lines before the first event are read one by one, the events before the line are followed one by one, and the
block of the line's ticket is run from scratch. As a program it reads a history of format 3 to 5 and prints what `check --why` prints, but
that it says `not accepted N` for both `bad line N` and `not legal N`:

    python3 tests/reasons_reference.py < HISTORY
"""

import json
import pathlib
import re
import sys

sys.dont_write_bytecode = True
sys.path.insert(0, str(pathlib.Path(__file__).resolve().parent.parent / "tools"))

import blocks
import histories
from questions_reference import Reference, is_same, with_values

KEYS = ("declared", "submitted", "installed", "finished", "cancelled", "labelled")
NOT_A_BLOCK = (ValueError, LookupError, RecursionError)
RESERVED = "do let if then else return readTVar writeTVar newTVar retry orElse throw catch True False Int Bool TVar".split()
MOST_CELLS, MOST_WAITING, MOST_NEXT, MOST_COUNT = 1_000_000, 65_536, 4_293_918_719, 2**64 - 1


class Unreadable(Exception):
    """A line, or a part of one, is none that could be read."""


def text(value):
    """A JSON value as a history has it."""
    return json.dumps(value, separators=(",", ":"), sort_keys=True)


# ---- what JSON can be read as: each returns the JSON as a history has it

def need(is_so):
    if not is_so:
        raise Unreadable


def json_of(line):
    """The object of a line."""
    try:
        found = json.loads(line)
    except (ValueError, RecursionError):
        raise Unreadable from None
    need(isinstance(found, dict))
    return found


def is_number(value, most=4294967295):
    return type(value) is int and 0 <= value <= most


def label_of(value):
    """A label of a block; the empty text says that there is none."""
    need(isinstance(value, str) and len(value) <= 64 and value != "-" and all("!" <= it <= "~" for it in value))
    return value


def number_of(value, most=4294967295):
    need(is_number(value, most))
    return value


def text_of(value):
    need(isinstance(value, str))
    return value


def list_of(values, each):
    need(isinstance(values, list))
    return [each(it) for it in values]


def is_int(value):
    return type(value) is int and -(2**63) <= value < 2**63


def value_of(value):
    if isinstance(value, dict):
        key = next((it for it in ("old", "new") if is_number(value.get(it))), None)
        need(key)
        return {key: value[key]}
    need(value is None or isinstance(value, bool) or is_int(value))
    return value


def pair_of(pair, first, second):
    need(isinstance(pair, list) and len(pair) >= 2)
    return [first(pair[0]), second(pair[1])]


def write_of(pair):
    return pair_of(pair, number_of, value_of)


def type_of(words):
    """A type's text. It may have blanks and brackets that it needn't have."""
    found = re.findall(r"[A-Za-z][A-Za-z0-9_']*|[^ \t\n\r]", text_of(words))
    kind, rest = type_at(found)
    need(not rest and kind.count("TVar") <= 8)
    return kind


def type_at(words):
    """The type at the front of these words, and the words after it."""
    if words[:1] != ["TVar"]:
        return atom_at(words)
    inner, rest = atom_at(words[1:])
    return to(inner), rest


def atom_at(words):
    if words[:1] in (["Int"], ["Bool"]):
        return words[0], words[1:]
    if words[:2] == ["(", ")"]:
        return "()", words[2:]
    need(words[:1] == ["("])
    kind, rest = type_at(words[1:])
    need(rest[:1] == [")"])
    return kind, rest[1:]


def to(kind):
    """The type of references to variables of a type."""
    return f"TVar ({kind})" if " " in kind else f"TVar {kind}"


def verdict_of(verdict):
    """A verdict. A text is that a block blocks, or that it throws an overflow, whatever its letters are."""
    if isinstance(verdict, str):
        return "blocks"
    need(isinstance(verdict, dict))
    thrown, made = verdict.get("throws"), verdict.get("commits")
    if isinstance(thrown, str):
        return {"throws": "overflow"}
    if is_int(thrown):
        return {"throws": thrown}
    need(isinstance(made, dict) and "result" in made)
    news = list_of(made.get("news"), lambda it: pair_of(it, type_of, value_of))
    return {"commits": {"news": news, "result": value_of(made["result"]), "writes": list_of(made.get("writes"), write_of)}}


def block_of(block, names):
    """A block's text: it has to be one over these variables."""
    try:
        blocks.parsed(text_of(block), names)
    except NOT_A_BLOCK:
        raise Unreadable from None
    return block


def name_of(name):
    need(name is None or (isinstance(name, str) and re.fullmatch(r"[a-z][A-Za-z0-9_']{0,31}", name) and name not in RESERVED))
    return name


class Types:
    """The types of the store's variables, and those of values, which follow from them."""

    def __init__(self, kinds):
        self.kinds = kinds

    def of(self, value, made=()):
        """The type of a value; `made` are the values of the block's own new variables."""
        if isinstance(value, tuple):
            of, number = value
            return to(self.kinds[number] if of == "old" else self.of(made[number], made))
        return "()" if value is None else "Bool" if isinstance(value, bool) else "Int"

    def need(self, kind, value):
        """Whether this JSON is a value of the type."""
        try:
            need(self.of(histories.Replay.value(value, None)) == kind)
        except LookupError:
            raise Unreadable from None


class Reasons(Reference):
    """What a history means, and what has to come next in place of a line."""

    def __init__(self, history):
        super().__init__(history)
        head, *lines = history.splitlines()
        self.format = json.loads(head)["format"]
        self.types = Types([json.loads(it)["type"] for it in lines[: json.loads(head)["vars"]]])
        for event in self.events:
            self.note(event)

    def follow(self, line):
        super().follow(line)
        if hasattr(self, "types"):
            self.note(self.events[-1])

    def note(self, event):
        """The types of the variables that an event makes."""
        if event["event"] == "declared":
            self.types.kinds.append(event["type"])
        if event["event"] == "finished" and "commits" in event["verdict"]:
            self.types.kinds += [it[0] for it in event["verdict"]["commits"]["news"]]

    @staticmethod
    def value(value):
        return {value[0]: value[1]} if isinstance(value, tuple) else value

    def verdict(self, found):
        """A verdict as JSON."""
        if found == "blocks":
            return found
        if found[0] == "throws":
            return {"throws": found[1]}
        _, writes, made, result = found
        news = [[self.types.of(it, made), self.value(it)] for it in made]
        return {"commits": {"news": news, "result": self.value(result), "writes": [[it, self.value(writes[it])] for it in sorted(writes)]}}

    def checkpoint(self):
        """The lines before the first event of a history that begins from here: in format 5 if a name comes after a variable without one, or if a
        block has a label or a cause."""
        names, causes = {number: name for name, (_, number) in self.names.items()}, {it: self.kept_cause(it) for it in self.waiters}
        is_late = any(it >= len(names) for it in names) or any(it.label for it in self.waiters.values()) or any(causes.values())
        lines = [{"format": 5 if is_late else 4, "next": self.next, "vars": len(self.store), "waiting": len(self.waiters)}]
        for number, value in enumerate(self.store):
            lines.append({"count": self.counts[number], "init": self.value(value), "name": names.get(number), "type": self.types.kinds[number]})
        for ticket, waiter in sorted(self.waiters.items()):
            lines.append({"block": waiter.text, **({"label": waiter.label} if waiter.label else {}), "ticket": ticket})
            if waiter.store_then is not None:
                verdict, reads = waiter.on(waiter.store_then)
                lines[-1] |= {"reads": [[it, self.value(value)] for it, value in reads.items()], "verdict": self.verdict(verdict)}
                lines[-1]["stale"] = not waiter.is_current()
            if causes[ticket]:
                lines[-1]["cause"], lines[-1]["changed"] = causes[ticket]
        return [text(it) for it in lines]

    def kept_cause(self, ticket):
        """Of a stale block the ticket of the finish that made it so, and what that left of what it had read, if it is known; else None."""
        waiter = self.waiters[ticket]
        if waiter.store_then is None or waiter.is_current():
            return None
        if waiter.was_stale:
            return waiter.cause and (waiter.cause[0], [[it, value] for it, value in sorted(waiter.cause[1].items())])
        finish, changes = self.cause(ticket, waiter.on(waiter.store_then)[1])
        return finish, [[it, self.value(left)] for it, (_, left) in sorted(changes.items())]

    def stale_after(self, ticket):
        """The current tickets that the finish of this one makes stale."""
        others = {it: waiter for it, waiter in sorted(self.waiters.items()) if it != ticket and waiter.is_current()}
        history = Reasons.__new__(Reasons)
        history.waiters, history.store, history.counts = dict(self.waiters), self.store, self.counts
        before = {it: set(waiter.changed) for it, waiter in self.waiters.items()}
        history.act({"event": "finished", "ticket": ticket})
        stale = [it for it, waiter in others.items() if not waiter.is_current()]
        for it, changed in before.items():
            self.waiters[it].changed = changed
        return stale

    def explained(self, line):
        """The explanation of a line in this place."""
        try:
            return self.reason(json_of(line))
        except Unreadable:
            return "unreadable"

    def reason(self, event):
        kind, client = event.get("event"), number_of(event.get("client"), 127)
        need(kind in KEYS)
        if kind == "declared":
            return self.declared(event, client)
        ticket = number_of(event.get("ticket"))
        waiter = self.waiters.get(ticket)
        if kind == "submitted":
            block = block_of(event.get("block"), self.names)
            return "expected " + text({"block": block, "client": client, "event": kind, "ticket": self.next})
        if kind == "labelled":
            label = label_of(event.get("label"))
            if waiter is None:
                return "refused NoTicket"
            need(self.format == 5)
            return "expected " + text({"client": client, "event": kind, "label": label, "ticket": ticket})
        if kind != "cancelled":
            verdict_of(event.get("verdict"))
        if kind == "finished":
            number_of(event.get("first_new"))
            list_of(event.get("stale"), number_of)
        due = {"client": client, "event": kind, "ticket": ticket}
        if waiter is None:
            return "refused Gone" if kind == "installed" else "refused NoTicket"
        if kind == "cancelled":
            return "expected " + text(due)
        verdict, _ = waiter.on(self.store)
        if kind == "installed":
            return "refused Already" if waiter.is_current() else "expected " + text({**due, "verdict": self.verdict(verdict)})
        if waiter.store_then is None:
            return "refused NotEvaluated"
        if not waiter.is_current():
            return "refused Stale"
        if verdict == "blocks":
            return "refused Blocks"
        return "expected " + text({**due, "first_new": len(self.store), "stale": self.stale_after(ticket), "verdict": self.verdict(verdict)})


    def declared(self, event, client):
        """The explanation of a declaration."""
        need("init" in event)
        due = {"client": client, "event": "declared", "init": value_of(event["init"]), "name": name_of(event.get("name"))}
        due["type"] = type_of(event.get("type"))
        need(due["name"] is not None)
        if due["name"] in self.names:
            return "refused Twice"
        has_name = not isinstance(due["init"], dict) or ("old", due["init"].get("old")) in self.names.values()
        if not has_name or self.types.of(histories.Replay.value(due["init"], None)) != due["type"]:
            return "refused TypeOfValue"
        need(self.format == 5)
        return "expected " + text(due)


class Beginning:
    """The lines before the first event, of a table or of a checkpoint. `due` has the line that would be accepted in place of
    one, and `take` takes in a line that is accepted."""

    def __init__(self):
        self.lines, self.head, self.variables, self.names, self.blocks = [], None, [], {}, []

    @property
    def is_whole(self):
        return self.head is not None and len(self.lines) == 1 + self.head["vars"] + self.head.get("waiting", 0)

    def due(self, line):
        found = json_of(line)
        if self.head is None:
            return text(self.header(found))
        if len(self.variables) < self.head["vars"]:
            return text(self.variable(found))
        return text(self.block(found))

    def take(self, line):
        found = json.loads(line)
        self.lines.append(line)
        if self.head is None:
            self.head = found
        elif len(self.variables) < self.head["vars"]:
            if found["name"] is not None:
                self.names[found["name"]] = ("old", len(self.variables))
            self.variables.append(found)
        else:
            self.blocks.append(found)

    def types(self, *more):
        return Types([it["type"] for it in [*self.variables, *more]])

    def header(self, found):
        format, variables = number_of(found.get("format")), number_of(found.get("vars"), MOST_CELLS)
        if 1 <= format <= 3 or format == 5 and "next" not in found:
            return {"format": format, "vars": variables}
        need(format in (4, 5))
        next_ticket, waiting = number_of(found.get("next"), MOST_NEXT), number_of(found.get("waiting"), MOST_WAITING)
        need(next_ticket > 0)
        return {"format": format, "next": next_ticket, "vars": variables, "waiting": waiting}

    def variable(self, found):
        need("init" in found and "name" in found)
        cell = {"init": value_of(found["init"]), "name": name_of(found["name"]), "type": type_of(found.get("type"))}
        need(cell["name"] not in self.names)
        if "next" not in self.head:
            need(cell["name"] is not None)
            self.types().need(cell["type"], cell["init"])
            return cell
        cell["count"] = number_of(found.get("count"), MOST_COUNT)
        if cell["name"] is not None:
            named = [it for it in self.variables if it["name"] is not None]
            need(self.head["format"] == 5 or len(named) == len(self.variables))
            need(not cell["type"].startswith("TVar") or any(to(it["type"]) == cell["type"] for it in named))
        # The values are judged with the last variable, since a reference may name one that comes later.
        if len(self.variables) + 1 == self.head["vars"]:
            for it in [*self.variables, cell]:
                self.types(cell).need(it["type"], it["init"])
        return cell

    def block(self, found):
        line = {"block": block_of(found.get("block"), self.names), "ticket": number_of(found.get("ticket"))}
        need((self.blocks[-1]["ticket"] if self.blocks else 0) < line["ticket"] < self.head["next"])
        label = label_of(found["label"]) if "label" in found else ""
        if label:
            need(self.head["format"] == 5)
            line["label"] = label
        if "cause" in found:
            need(self.head["format"] == 5 and "verdict" in found)
            line |= {"cause": number_of(found["cause"]), "changed": list_of(found.get("changed"), write_of)}
        if "verdict" not in found:
            return line
        line |= {"verdict": verdict_of(found["verdict"]), "reads": list_of(found.get("reads"), write_of), "stale": found.get("stale")}
        need(isinstance(line["stale"], bool))
        self.judge_delivery(line)
        if "cause" in line:
            self.judge_cause(line)
        return line

    def judge_cause(self, line):
        read, numbers = dict(line["reads"]), [number for number, _ in line["changed"]]
        need(line["stale"] and 0 < line["cause"] < self.head["next"] and numbers and numbers == sorted(set(numbers)))
        for number, value in line["changed"]:
            need(number in read and value != read[number])
            self.types().need(self.variables[number]["type"], value)

    def judge_delivery(self, line):
        reads, numbers = line["reads"], [number for number, _ in line["reads"]]
        need(numbers == sorted(set(numbers)) and all(it < len(self.variables) for it in numbers))
        for number, value in reads:
            self.types().need(self.variables[number]["type"], value)
        need(reads or not line["stale"])
        history = Reasons("".join(f"{it}\n" for it in [text({**self.head, "waiting": 0}), *self.lines[1 : 1 + len(self.variables)]]))
        store = with_values(history.store, reads)
        need(line["stale"] or all(is_same(one, other) for one, other in zip(store, history.store)))
        history.wait(line)
        verdict, found = history.waiters[line["ticket"]].on(store)
        need([[it, history.value(value)] for it, value in found.items()] == reads and text(history.verdict(verdict)) == text(line["verdict"]))


def judged(history):
    """What `check --why` prints of a history: the lines of the answer, the first with `not accepted N` for `bad line N` or `not legal N`."""
    lines, beginning = history.split("\n")[:-1], Beginning()
    for number, line in enumerate([*lines, ""], 1):
        if beginning.is_whole:
            break
        try:
            due = beginning.due(line)
        except Unreadable:
            return ["bad header", f"line {number} unreadable"]
        if due != line:
            return ["bad header", f"line {number} expected {due}"]
        beginning.take(line)
    first = len(beginning.lines)
    reasons = Reasons("".join(f"{it}\n" for it in beginning.lines))
    for number, line in enumerate(lines[first:], first + 1):
        explained = reasons.explained(line)
        if explained != "expected " + line:
            return [f"not accepted {number}", explained]
        reasons.follow(line)
    return [f"legal {len(lines) - first} events"]


def main():
    print("\n".join(judged(sys.stdin.read())))


if __name__ == "__main__":
    main()
