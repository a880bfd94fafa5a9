"""What the program's answers are in Python: references, verdicts, states of tickets, finishes, variables."""

from __future__ import annotations

from collections.abc import Iterable
from dataclasses import dataclass, field
from typing import Literal, SupportsIndex, TypeVar, overload


@dataclass(frozen=True, order=True)
class Ref:
    """The reference `#number` to a variable of the store.

    Two references are equal if their numbers are. `name` is the variable's declared name, or None for a variable that a
    block made.

    >>> slot = Ref(0, "slot")
    >>> print(slot, Ref(7))
    slot #7
    >>> slot, slot == Ref(0)
    (Ref(0, 'slot'), True)
    """

    number: int
    name: str | None = field(default=None, compare=False)

    def __hash__(self) -> int:
        return self.number

    def __repr__(self) -> str:
        return f"Ref({self.number})" if self.name is None else f"Ref({self.number}, {self.name!r})"

    def __str__(self) -> str:
        return f"#{self.number}" if self.name is None else self.name


@dataclass(frozen=True, order=True)
class NewRef:
    """The reference `newN` to a variable that the block itself makes: N counts from 0. A finish turns it into a `Ref`.

    >>> print(NewRef(0))
    new0
    """

    number: int

    def __repr__(self) -> str:
        return f"NewRef({self.number})"

    def __str__(self) -> str:
        return f"new{self.number}"


Value = int | bool | None | Ref | NewRef
R = TypeVar("R", bound=int | Ref)  # the type that a caller expects of a result: int, bool or Ref
Fault = int | Literal["overflow"]


@dataclass(frozen=True, init=False)
class Commits:
    """A block returns. It would write `writes`, in ascending order of variables, make variables that hold `news`, and
    return `result`.

    >>> desk.try_("writeTVar x 5")
    Commits(writes={Ref(0, 'x'): 5}, news=[], result=None)
    """

    writes: dict[Ref, Value]
    news: list[Value]
    result: Value

    def __init__(self, writes: dict[Ref, Value], news: list[Value], result: Value) -> None:
        # What a frozen dataclass makes of this takes twice as long, and many answers are one.
        fields = self.__dict__
        fields["writes"] = writes
        fields["news"] = news
        fields["result"] = result


@dataclass(frozen=True)
class Throws:
    """A block throws a number, or "overflow" after arithmetic out of range. It would change nothing.

    >>> desk.try_("throw 4")
    Throws(fault=4)
    """

    fault: Fault


@dataclass(frozen=True)
class Blocks:
    """A block retries: it can't go on before a variable that it read changes.

    >>> desk.try_("retry")
    Blocks()
    """


Verdict = Commits | Throws | Blocks


@dataclass(frozen=True)
class New:
    """A waiting block that was never evaluated.

    >>> ticket = desk.submit("readTVar x")
    >>> desk.show()
    [New(ticket=1)]
    """

    ticket: int


@dataclass(frozen=True)
class Stale:
    """A waiting block with its last verdict, after which a variable that it read has changed.

    >>> reader, writer = desk.submit("readTVar x"), desk.submit("writeTVar x 5")
    >>> desk.eval(), desk.finish(writer).stale
    (2, [1])
    >>> desk.show()
    [Stale(ticket=1, verdict=Commits(writes={}, news=[], result=1))]
    """

    ticket: int
    verdict: Verdict


@dataclass(frozen=True)
class Current:
    """A waiting block with its verdict on the present store.

    >>> ticket, evaluated = desk.submit("readTVar x"), desk.eval()
    >>> desk.show()
    [Current(ticket=1, verdict=Commits(writes={}, news=[], result=1))]
    """

    ticket: int
    verdict: Verdict


Status = New | Stale | Current


@dataclass(frozen=True)
class Ready:
    """A waiting block that can be finished now: it is current, and its verdict isn't `Blocks`.

    >>> ticket, evaluated = desk.submit("readTVar x"), desk.eval()
    >>> desk.why(ticket)
    Ready(ticket=1)
    """

    ticket: int


@dataclass(frozen=True)
class Waits:
    """A waiting block that is current and blocks, until one of the variables changes that it has `reads`, with their values.

    >>> ticket, evaluated = desk.submit("do { a <- readTVar x; if a < 5 then retry else return a }"), desk.eval()
    >>> desk.why(ticket)
    Waits(ticket=1, reads={Ref(0, 'x'): 1})
    """

    ticket: int
    reads: dict[Ref, Value]


@dataclass(frozen=True)
class Change:
    """The value of a variable that a block `read`, and the other one that it was `left` with.

    >>> Change(1, 5)
    Change(read=1, left=5)
    """

    read: Value
    left: Value


@dataclass(frozen=True)
class StaleBy:
    """A stale block, and what made it so. `finish` is the ticket of the first finish since the block's last evaluation that changed
    something which the block had read; `changes` are the variables, in ascending order.

    >>> reader, writer = desk.submit("readTVar x"), desk.submit("writeTVar x 5")
    >>> desk.eval(), desk.finish(writer).stale
    (2, [1])
    >>> desk.why(reader)
    StaleBy(ticket=1, finish=2, changes={Ref(0, 'x'): Change(read=1, left=5)})
    """

    ticket: int
    finish: int
    changes: dict[Ref, Change]


@dataclass(frozen=True)
class StaleBefore:
    """A stale block that was stale already at a checkpoint of version 0.17 or earlier, which doesn't say which finish made it so. Later
    versions know it over a checkpoint, so this is of old journals alone.

    >>> StaleBefore(1)
    StaleBefore(ticket=1)
    """

    ticket: int


Reason = New | StaleBy | StaleBefore | Waits | Ready


@dataclass(frozen=True)
class Entry:
    """A waiting block on the board of `Desk.board`: its status, its label, its text on one line, and what it waits for. `label` is None if
    it has none; `block` and `why` are None if they weren't asked for.

    >>> ticket, evaluated = desk.submit("do { a <- readTVar x; if a < 5 then retry else return a }", label="job7"), desk.eval()
    >>> (entry,) = desk.board()
    >>> entry.ticket, entry.label, entry.block
    (1, 'job7', 'do { a <- readTVar x; if a < 5 then retry else return a }')
    >>> entry.state, entry.verdict, entry.why
    ('current', Blocks(), Waits(ticket=1, reads={Ref(0, 'x'): 1}))
    """

    status: Status
    label: str | None
    block: str | None = None
    why: Reason | None = None

    @property
    def ticket(self) -> int:
        """The block's ticket."""
        return self.status.ticket

    @property
    def state(self) -> Literal["new", "stale", "current"]:
        """The word of its status."""
        return "new" if isinstance(self.status, New) else "stale" if isinstance(self.status, Stale) else "current"

    @property
    def verdict(self) -> Verdict | None:
        """Its last verdict; None if it is new."""
        return None if isinstance(self.status, New) else self.status.verdict


@dataclass(frozen=True)
class Job:
    """A ticket that `take` handed out, with the job's number for `deliver`.

    >>> ticket = desk.submit("readTVar x")
    >>> desk.take(1)
    [Job(number=1, ticket=1)]
    """

    number: int
    ticket: int


@dataclass(frozen=True, init=False)
class Finished:
    """A block finished: its result, in which each `NewRef` is a `Ref` now, and the tickets that became stale by it, in
    ascending order.

    >>> ticket, evaluated = desk.submit("do { r <- newTVar 3; return r }"), desk.eval()
    >>> desk.finish(ticket)
    Finished(ticket=1, result=Ref(1), stale=[])
    """

    ticket: int
    result: Value
    stale: list[int]

    def __init__(self, ticket: int, result: Value, stale: list[int]) -> None:
        fields = self.__dict__
        fields["ticket"] = ticket
        fields["result"] = result
        fields["stale"] = stale


@dataclass(frozen=True)
class FinishedThrows:
    """A block finished by throwing. It changed nothing.

    >>> ticket, evaluated = desk.submit("throw 4"), desk.eval()
    >>> desk.finish(ticket)
    FinishedThrows(ticket=1, fault=4)
    """

    ticket: int
    fault: Fault


@dataclass(frozen=True)
class Waiting:
    """A block of `Batch.atomically` blocks: it waits under this ticket.

    >>> with desk.batch() as batch:
    ...     answer = batch.atomically("retry")
    >>> answer.result()
    Waiting(ticket=1)
    """

    ticket: int


@dataclass(frozen=True)
class Settled:
    """How many blocks a `settle` or a `drain` finished, and how many evaluations that took.

    >>> ticket = desk.submit("readTVar x")
    >>> desk.settle()
    Settled(finished=1, evaluations=1)
    """

    finished: int
    evaluations: int


@dataclass(frozen=True)
class Submission:
    """The event that a block began to wait: the `number`-th of the history, counted from 1.

    >>> ticket = desk.submit("retry")
    >>> desk.events()
    [Submission(number=1, client=0, ticket=1, block='retry')]
    """

    number: int
    client: int
    ticket: int
    block: str


@dataclass(frozen=True)
class Delivery:
    """The event that a block was evaluated, and its verdict delivered.

    >>> ticket, evaluated = desk.submit("retry"), desk.eval()
    >>> desk.events(2)
    [Delivery(number=2, client=0, ticket=1, verdict=Blocks())]
    """

    number: int
    client: int
    ticket: int
    verdict: Verdict


@dataclass(frozen=True)
class Finish:
    """The event that a block finished: its verdict, in which `NewRef(N)` became the variable `first_new + N`, and the tickets that
    became stale by it, in ascending order.

    >>> ticket, evaluated = desk.submit("writeTVar x 5"), desk.eval()
    >>> finished = desk.finish(ticket)
    >>> desk.events(3)
    [Finish(number=3, client=0, ticket=1, verdict=Commits(writes={Ref(0, 'x'): 5}, news=[], result=None), first_new=1, stale=[])]
    """

    number: int
    client: int
    ticket: int
    verdict: Verdict
    first_new: int
    stale: list[int]


@dataclass(frozen=True)
class Cancellation:
    """The event that a block was cancelled.

    >>> ticket = desk.submit("retry")
    >>> desk.cancel(ticket)
    >>> desk.events(2)
    [Cancellation(number=2, client=0, ticket=1)]
    """

    number: int
    client: int
    ticket: int


@dataclass(frozen=True)
class Declaration:
    """The event that `declare` declared a variable, with this first value. It is of no ticket. Those of `tvar` are no events.

    >>> y = desk.declare("y : TVar Int = x")
    >>> desk.events()
    [Declaration(number=1, client=0, name='y', type='TVar Int', init=Ref(0, 'x'))]
    """

    number: int
    client: int
    name: str
    type: str
    init: Value


@dataclass(frozen=True)
class Labelling:
    """The event that a waiting block got a label in place of the one that it had, or None if its label was taken away.

    >>> ticket = desk.submit("retry", label="job7")
    >>> desk.label(ticket, None)
    >>> desk.events(2)
    [Labelling(number=2, client=0, ticket=1, label='job7'), Labelling(number=3, client=0, ticket=1, label=None)]
    """

    number: int
    client: int
    ticket: int
    label: str | None


Event = Submission | Delivery | Finish | Cancellation | Declaration | Labelling


class Events(list[Event]):
    """Events of the history, in order. `next` is the number of the event that comes after all of them, so that `desk.events(next)`
    goes on from here; `text` is their lines in the history, byte for byte.

    >>> ticket = desk.submit("retry")
    >>> events = desk.events()
    >>> len(events), events.next
    (1, 2)
    >>> print(events.text, end="")
    {"block":"retry","client":0,"event":"submitted","ticket":1}
    """

    def __init__(self, events: Iterable[Event], next: int, text: str) -> None:
        super().__init__(events)
        self.next = next
        self.text = text


@dataclass(frozen=True)
class Cell:
    """A variable: its reference, its name (None if a block made it), its type as text, its value, and how many times a
    finished block changed it.

    >>> desk.store()
    [Cell(variable=Ref(0, 'x'), name='x', type='Int', value=1, count=0)]
    """

    variable: Ref
    name: str | None
    type: str
    value: Value
    count: int


@dataclass(frozen=True)
class FinalCell:
    """A variable at the end of an exploration: a `Cell` without the count of changes, which depends on the order.

    >>> explore("tvar x : Int = 1\\nclient").stores
    [[FinalCell(variable=Ref(0, 'x'), name='x', type='Int', value=1)]]
    """

    variable: Ref
    name: str | None
    type: str
    value: Value


C = TypeVar("C", bound=Cell | FinalCell)
Default = TypeVar("Default")


class Cells(list[C]):
    """All variables in ascending order: a list of cells, and a mapping to them by name and by reference."""

    def __init__(self, cells: Iterable[C] = ()) -> None:
        super().__init__(cells)
        self._by_name = {cell.name: cell for cell in self if cell.name is not None}

    @overload
    def __getitem__(self, key: SupportsIndex | str | Ref, /) -> C: ...

    @overload
    def __getitem__(self, key: slice, /) -> list[C]: ...

    def __getitem__(self, key: SupportsIndex | str | Ref | slice, /) -> C | list[C]:
        if isinstance(key, str):
            return self._by_name[key]
        if isinstance(key, Ref):
            if not self.__contains__(key):
                raise KeyError(key)
            return super().__getitem__(key.number)
        return super().__getitem__(key)

    def __contains__(self, key: object, /) -> bool:
        if isinstance(key, Ref):
            return key.number < len(self) and super().__getitem__(key.number).variable == key
        return key in self._by_name if isinstance(key, str) else super().__contains__(key)

    @overload
    def get(self, key: str | Ref) -> C | None: ...

    @overload
    def get(self, key: str | Ref, default: Default) -> C | Default: ...

    def get(self, key: str | Ref, default: Default | None = None) -> C | Default | None:
        """The cell of a variable, or `default` if there is none."""
        return self[key] if self.__contains__(key) else default


class Store(Cells[Cell]):
    """All variables in ascending order: a list of cells, and a mapping to them by name and by reference.

    >>> store = desk.store()
    >>> store["x"].value, store[Ref(0)].name, "y" in store, len(store)
    (1, 'x', False, 1)
    >>> store.get("y", "no variable")
    'no variable'
    >>> {cell.name: cell.value for cell in store}
    {'x': 1}
    """


class FinalStore(Cells[FinalCell]):
    """All variables at the end of an exploration: a list and a mapping, as `Store` is.

    >>> (store,) = explore("tvar x : Int = 1\\nclient").stores
    >>> store["x"].value, store[Ref(0)].name, len(store)
    (1, 'x', 1)
    """
