"""Runs blocks of the language (docs/LANGUAGE.md) in Python, to find out what they read. It is not proved: what it finds counts only
if its verdict is the recorded one (tools/histories.py)."""

import re
import sys
from collections.abc import Callable, Mapping, Sequence
from typing import Any

Value = Any  # an int, a bool, None for `()`, or a reference: ("old", number) or ("new", number)
Locals = dict[str, Value]
Expression = Callable[[Locals], Value]
sys.setrecursionlimit(max(sys.getrecursionlimit(), 5000))  # 64 brackets, each within all operators
TOKEN = re.compile(r"[A-Za-z][A-Za-z0-9_']*|[0-9]+|<-|<=|==|&&|\|\||[{}();:<=+*-]")
LEAST, MOST = -(1 << 63), (1 << 63) - 1
MOST_TOKENS = 4096  # of a block
OVERFLOW = "overflow"


class Retry(Exception):
    """The block gives up."""


class Unknown(LookupError):
    """A name that is neither bound nor declared: its argument is the number of its token in the text, counted from 0."""


class Thrown(Exception):
    """The block throws: its argument is a number, or OVERFLOW."""


class Run:
    """One run of a block: its view of the store, and what it has read."""

    def __init__(self, cells: Sequence[Value]) -> None:
        self.cells = cells
        self.reads: set[int] = set()
        self.writes: dict[int, Value] = {}
        self.made: list[Value] = []

    def read(self, reference: Value) -> Value:
        kind, number = reference
        if kind == "new":
            return self.made[number]
        if number in self.writes:
            return self.writes[number]
        self.reads.add(number)
        return self.cells[number]

    def write(self, reference: Value, value: Value) -> None:
        kind, number = reference
        if kind == "new":
            self.made[number] = value
        else:
            self.writes[number] = value

    def make(self, value: Value) -> Value:
        self.made.append(value)
        return ("new", len(self.made) - 1)

    def attempt(self, action: "Action", names: Locals, caught: type[Exception]) -> tuple[bool, Value]:
        """Runs an action: True and its result; or if it raises `caught`, which isn't an overflow, False and what was thrown, with the
        view as it was before."""
        writes, made = dict(self.writes), list(self.made)
        try:
            return True, action(self, names)
        except caught as error:
            if error.args == (OVERFLOW,):
                raise
            self.writes, self.made = writes, made
            return False, error.args[0] if error.args else None


Action = Callable[[Run, Locals], Value]


def outcome(action: Action, cells: Sequence[Value]) -> tuple[Any, set[int]]:
    """The verdict of a block on these cells and the variables that it reads. A verdict is "blocks", ("throws", number) or
    ("commits", writes, values of new variables, result)."""
    run = Run(cells)
    try:
        result = action(run, {})
        return ("commits", run.writes, run.made, result), run.reads
    except Retry:
        return "blocks", run.reads
    except Thrown as thrown:
        return ("throws", thrown.args[0]), run.reads


def in_range(number: int) -> int:
    if not LEAST <= number <= MOST:
        raise Thrown(OVERFLOW)
    return number


def parsed(text: str, declared: Mapping[str, Value]) -> Action:
    """The action of a block's text, in which these names are variables. Raises ValueError or LookupError if it is none: `Unknown` for a
    name that is neither bound there nor one of these."""
    parser = Parser(text, declared)
    if len(parser.words) - 1 > MOST_TOKENS:
        raise ValueError
    action = parser.action()
    if parser.at != len(parser.words) - 1:
        raise ValueError
    return action


class Parser:
    def __init__(self, text: str, declared: Mapping[str, Value]) -> None:
        self.words, self.at, self.declared = [*TOKEN.findall(text), ""], 0, declared
        self.bound: list[str] = []  # the names that are bound where the parser is

    def next(self) -> str:
        self.at += 1
        return self.words[self.at - 1]

    def skips(self, *words: str) -> bool:
        """Whether these words are next. Skips them if so."""
        found = self.words[self.at : self.at + len(words)] == list(words)
        self.at += len(words) * found
        return found

    def need(self, word: str) -> None:
        if self.next() != word:
            raise ValueError

    def bracketed(self) -> Action:
        self.need("(")
        action = self.action()
        self.need(")")
        return action

    def action(self) -> Action:
        word = self.next()
        if word == "(":
            self.at -= 1
            return self.bracketed()
        rules = {"do": self.sequence, "if": self.choice, "orElse": self.either, "catch": self.catch}
        if word in rules:
            return rules[word]()
        if word == "retry":
            return retry
        value = self.atom()
        if word == "return":
            return lambda run, names: value(names)
        if word == "readTVar":
            return lambda run, names: run.read(value(names))
        if word == "newTVar":
            return lambda run, names: run.make(value(names))
        if word == "throw":
            return lambda run, names: throw(value(names))
        if word != "writeTVar":
            raise ValueError
        written = self.atom()
        return lambda run, names: run.write(value(names), written(names))

    def sequence(self) -> Action:
        self.need("{")
        outside = len(self.bound)
        steps: list[tuple[str | None, Action]] = [self.statement()]
        while self.skips(";"):
            steps.append(self.statement())
        self.need("}")
        del self.bound[outside:]

        def run_all(run: Run, names: Locals) -> Value:
            names, result = dict(names), None
            for name, action in steps:
                result = action(run, names)
                if name is not None:
                    names[name] = result
            return result

        return run_all

    def statement(self) -> tuple[str | None, Action]:
        """An action, and the name that its result gets."""
        if self.skips("let"):
            name = self.next()
            self.need("=")
            value = self.expression()
            self.bound.append(name)
            return name, lambda run, names: value(names)
        if self.words[self.at + 1 : self.at + 2] == ["<-"]:
            name = self.next()
            self.need("<-")
            action = self.action()
            self.bound.append(name)
            return name, action
        return None, self.action()

    def choice(self) -> Action:
        condition = self.expression()
        self.need("then")
        first = self.action()
        self.need("else")
        second = self.action()
        return lambda run, names: (first if condition(names) else second)(run, names)

    def either(self) -> Action:
        first, second = self.bracketed(), self.bracketed()

        def run_either(run: Run, names: Locals) -> Value:
            has_returned, result = run.attempt(first, names, Retry)
            return result if has_returned else second(run, names)

        return run_either

    def catch(self) -> Action:
        action, name = self.bracketed(), self.next()
        self.bound.append(name)
        handler = self.bracketed()
        self.bound.pop()

        def run_catch(run: Run, names: Locals) -> Value:
            has_returned, result = run.attempt(action, names, Thrown)
            return result if has_returned else handler(run, {**names, name: result})

        return run_catch

    def chain(self, part: Callable[[], Expression], words: Sequence[str]) -> tuple[Expression, list[tuple[str, Expression]]]:
        first, rest = part(), []
        while self.words[self.at] in words:
            rest.append((self.next(), part()))
        return first, rest

    def expression(self) -> Expression:
        first, rest = self.chain(self.conjunction, ["||"])
        return (lambda names: first(names) or any(it(names) for _, it in rest)) if rest else first

    def conjunction(self) -> Expression:
        first, rest = self.chain(self.comparison, ["&&"])
        return (lambda names: first(names) and all(it(names) for _, it in rest)) if rest else first

    def comparison(self) -> Expression:
        left, word = self.sum(), self.words[self.at]
        if word not in ("==", "<", "<="):
            return left
        self.at += 1
        right = self.sum()
        if word == "==":
            return lambda names: left(names) == right(names)
        return (lambda names: left(names) < right(names)) if word == "<" else (lambda names: left(names) <= right(names))

    def sum(self) -> Expression:
        return self.arithmetic(self.product, ["+", "-"])

    def product(self) -> Expression:
        return self.arithmetic(self.atom, ["*"])

    def arithmetic(self, part: Callable[[], Expression], words: Sequence[str]) -> Expression:
        first, rest = self.chain(part, words)
        if not rest:
            return first

        def computed(names: Locals) -> Value:
            found = first(names)
            for word, it in rest:
                right = it(names)
                found = in_range(found + right if word == "+" else found - right if word == "-" else found * right)
            return found

        return computed

    def atom(self) -> Expression:
        if self.skips("(", ")"):
            return lambda names: None
        word = self.next()
        if word == "(":
            if self.skips("-"):
                number = -int(self.next())
                found: Expression = lambda names: number
            else:
                found = self.expression()
            self.need(")")
            return found
        if word.isdigit() or word in ("True", "False"):
            constant = int(word) if word.isdigit() else word == "True"
            return lambda names: constant
        if not word[:1].islower():
            raise ValueError
        if word in self.bound:
            return lambda names: names[word]
        if word not in self.declared:
            raise Unknown(self.at - 1)
        variable = self.declared[word]
        return lambda names: variable


def retry(run: Run, names: Locals) -> Value:
    raise Retry


def throw(number: int) -> Value:
    raise Thrown(number)
