"""Says for a refused command what to write or do instead. A hint is a guess from the text; the refusal is the program's."""

from __future__ import annotations

import re
from collections.abc import Callable, Mapping

from ._values import Ref

_TOKEN = re.compile(r"[A-Za-z][A-Za-z0-9_']*|[0-9]+|<-|<=|==|&&|\|\||[{}();:<=+*-]")
_COMPARISONS = {"==", "<", "<="}
_OPERATORS = {"+", "-", "*", "&&", "||"} | _COMPARISONS
_TAKE_VALUE = {"return", "throw", "newTVar", "readTVar"}
_ACTIONS = _TAKE_VALUE | {"writeTVar", "retry", "orElse", "catch", "do", "if"}
_RESERVED = _ACTIONS | {"let", "then", "else", "True", "False", "Int", "Bool", "TVar"}
_PARTS = {"if", "then", "else", ";", "{", "}"}  # words that no condition has
_BEGIN_ACTION = {"", "{", ";", "then", "else", "<-", "("}
_ELSE = "`if` needs its `else`: `else return ()`"
_LIST = "return, readTVar, writeTVar, newTVar, retry, throw, orElse, catch, if, do or a bracket"

# What to write for words of other languages that this one doesn't have.
_WORDS = {
    "check": "there is no `check`: write `if a then return () else retry`",
    "when": "there is no `when`: write `if a then b else return ()`",
    "unless": "there is no `unless`: write `if a then return () else b`",
    "pure": "there is no `pure`: write `return`",
    "not": "there is no `not`: write `(a == False)`",
    "modifyTVar": "there is no `modifyTVar`: write `a <- readTVar x; writeTVar x (a + 1)`",
    "stateTVar": "there is no `stateTVar`: write `a <- readTVar x; writeTVar x (a + 1); return a`",
    "swapTVar": "there is no `swapTVar`: write `a <- readTVar x; writeTVar x b; return a`",
    "newTVarIO": "there is no `newTVarIO`: write `newTVar`",
    "readTVarIO": "there is no `readTVarIO`: write `readTVar`",
    "atomically": "leave `atomically` out: every block is atomic",
    "throwSTM": "there is no `throwSTM`: write `throw`",
    "catchSTM": "there is no `catchSTM`: write `catch (a) e (b)`",
    "and": "there is no `and`: write `&&`",
    "or": "there is no `or`: write `||`",
    "div": "there is no division",
    "mod": "there is no division",
    "true": "write `True`",
    "false": "write `False`",
    "in": "there is no `in`: write `let a = 1;` before the next statement of a `do { .. }`",
    "case": "there is no `case`: write `if`",
    "where": "there is no `where`: write `let a = 1;` in a `do { .. }`",
    "elif": "there is no `elif`: write `else if`",
    "while": "there are no loops: write each step out",
    "for": "there are no loops: write each step out",
    "print": "a block prints nothing: `return` the value",
    "read": "there is no `read`: write `readTVar`",
    "write": "there is no `write`: write `writeTVar`",
}
_WORDS["modifyTVar'"] = _WORDS["modifyTVar"]
_WORDS |= {it: f"there is no `{it}`: write `()`, or a number that means it" for it in ("None", "Nothing", "null", "nil")}

# What to write for a byte that begins no token. The longest that fits is taken.
_BYTES = {
    ">>": "there is no `>>` and no `>>=`: write `do { a <- readTVar x; writeTVar x (a + 1) }`",
    ">=": "there is no `>=`: write `b <= a` for `a >= b`",
    ">": "there is no `>`: write `b < a` for `a > b`",
    "/=": "there is no `/=`: write `(a == b) == False`",
    "!=": "there is no `!=`: write `(a == b) == False`",
    "/": "there is no division",
    "//": "there is no division, and a block has no comments",
    "/*": "a block has no comments",
    "# ": "a block has no comments",
    "%": "there is no division",
    "`": "there are no infix words: write `orElse (a) (b)`",
    "$": "there is no `$`: write brackets",
    "\\": "there are no functions",
    '"': "there is no text: values are numbers, True, False, () and references",
    "'": "there is no text: values are numbers, True, False, () and references",
    "[": "there are no lists",
    "]": "there are no lists",
    ",": "there are no pairs: a blank comes before each argument, and a `;` between statements",
    ".": "numbers are whole, and a name has only letters, digits, `_` and `'`",
    "!": "there is no `!`: write `(a == False)`",
    "#": "a block names variables by their declared names",
    "_": "a name begins with a small letter",
    "|": "write `||`",
    "&": "write `&&`",
    "=": "write `==`",
}

# What each refusal means, if its text shows no mistake of the above.
_NAMES = {
    "Already": "its ticket has been delivered already",
    "Argument": "the argument is one number from 0 to 4294967295",
    "BadNumber": "a number is at most 9223372036854775807, and at least (-9223372036854775808)",
    "Blocks": "the block retries; it can finish after a variable that it read changes",
    "CellsFull": "the store has its 1,000,000 variables: this desk can make no more",
    "EndOfText": "the text ends too early",
    "Gone": "its ticket waits no more",
    "HistoryFull": "the history has all the events that it may have: `checkpoint` lets them go; with a journal that is done by itself",
    "JobsFull": "a desk hands out at most 65,536 jobs: use `eval`, which needs none",
    "Late": "`tvar` declares before the first other command: `declare` does so at any time",
    "LineTooLong": "a command has at most 65,536 bytes",
    "NameTooLong": "a name has at most 32 bytes",
    "NoCheckpoint": "no new file could take the place of the journal: standard error says why, and the desk goes on in the old file",
    "NoJob": "`take` has handed out no job of this number",
    "NoTicket": "no block waits under this ticket: it finished, or was cancelled, or never was",
    "NotAVariable": "a variable is needed here, and this is a value",
    "NotAscii": "only ASCII characters are allowed",
    "NotEvaluated": "the block was never evaluated: call `eval` first",
    "NotOut": "only a ticket that `take` handed out can be handed back",
    "Stale": "a variable that the block read has changed: call `eval` first",
    "TableFull": "a desk has at most 1,000,000 variables",
    "TicketsFull": "the numbers of tickets run out: start a new desk",
    "TooDeep": "at most 64 of `do`, `if`, `orElse`, `catch` and `(` can be open at once: nest `orElse` as a balanced tree",
    "TooLarge": "a block has at most 4,096 tokens",
    "Twice": "a variable of this name is declared already",
    "TypeOfValue": "the value hasn't the type that is declared",
    "TypeTooDeep": "a type has at most 8 `TVar`",
    "Untyped": "`retry` and `throw` return nothing that could be bound",
    "WaitingFull": "as many blocks wait as may (65,536, or what a server allows): finish or cancel some",
    # Of a server (docs/SERVER.md):
    "AnswersFull": "the answers before this one in its batch have as many bytes as a server makes for one request: ask for less in one batch",
    "ShareFull": "as many blocks of this connection wait as a server allows one: finish or cancel some, or wait for some",
    "RequestTooLong": "a batch over a connection is one request, which has at most 524,288 bytes as JSON, or what the server's --max-request "
    "says: send it as several batches",
    "RequestsFull": "this connection has as many calls under way as the server allows: wait for some, or open another one",
    "Waits": "`settle` and `drain` don't say what they finish, and a block of `atomically` waits on the server",
}

# The same of what is wrong with a line of a script (docs/STORM.md), if it means something else there.
_SCRIPT_NAMES = {
    "ClientsFull": "a script has at most 64 clients",
    "Command": "no line of a script begins with this word",
    "Late": "write variables and invariants above the first `client`",
    "LineTooLong": "a line has at most 65,536 bytes",
    "ScriptTooLong": "a script has at most 1,048,576 lines",
    "no client": "what a client does begins with a line `client`",
}


# Words with which lines of a script begin (docs/EXPLORE.md), and those of other model checkers, with what to write for them.
_LINES = "tvar always never eventually client submit finish throws cancel expect assert choose repeat".split()
_OTHER_LINES = {
    "atomic": "every block is atomic: `submit BLOCK`",
    "await": "a block waits by `retry`: `submit do { a <- readTVar x; if a == 1 then return () else retry }`",
    "byte": "write `tvar NAME : Int = 0`",
    "bool": "write `tvar NAME : Bool = False`",
    "declare": "write `tvar NAME : TYPE = INIT`",
    "goal": "write `eventually BLOCK`",
    "init": "write `tvar NAME : TYPE = INIT`",
    "int": "write `tvar NAME : Int = 0`",
    "invariant": "write `always BLOCK`",
    "label": "the lines of a script have no labels",
    "loop": "write `repeat` as the last line of the section",
    "ltl": "write `always BLOCK`, `never BLOCK` or `eventually BLOCK`",
    "proctype": "write `client`, or `client N` for N equal ones",
    "process": "write `client`, or `client N` for N equal ones",
    "thread": "write `client`, or `client N` for N equal ones",
    "var": "write `tvar NAME : TYPE = INIT`",
    "while": "write `repeat` as the last line of the section",
}
_COMMENTS = ("--", "#", "//", "/*", "(*", "\\*", "%", ";")

JOURNAL = "journal"  # stands for the first command of a desk that goes on from a journal
SERVER = "server"  # and for that of a server's desk


def hint(
    name: str,
    place: int | None,
    variable: Ref | None,
    command: str,
    text: str,
    types: Mapping[str, str],
    first: str | None,
) -> str | None:
    """The hint for the refusal of a command with this text, or None. `types` has the declared variables with their types,
    `first` is the first command that was no declaration."""
    if variable is not None:
        return f"`{variable}` has another value now than the job read"
    if name == "Late" and first == JOURNAL:
        declared = text.partition(":")[0].strip()
        if declared in types:
            return f"the journal has it already, as `{declared} : {types[declared]}`"
        return "the desk goes on from its journal, and has the variables that were declared there: `declare` declares another one"
    if name == "Late" and first == SERVER:
        return "the declarations of the server's desk have ended: `variable` finds what is declared, and `declare` declares another one"
    if name == "Late" and first:
        return f"`tvar` declares before the first other command, which was `{first}`: `declare` does so at any time"
    if name == "NotAscii":
        at = next((i for i, letter in enumerate(text) if not letter.isascii()), None)
        return _NAMES[name] if at is None else f"{text[at]!r} at {at} isn't ASCII"
    if name == "BadByte" and place is not None:
        return _bad_byte(text, place)
    if name == "Argument" and command == "label":
        return "`label` takes a ticket, and a label of 1 to 64 characters without a blank, which isn't `-`; or the ticket alone"
    if name == "Argument" and command in ("board", "eval", "show", "ready", "store", "settle", "drain", "history", "checkpoint"):
        return f"`{command}` takes no argument"
    found = None
    if command in ("tvar", "declare", "try", "looks", "submit", "atomically"):
        tokens = _Tokens(text, place, types)
        is_declaration = command in ("tvar", "declare")
        rules: dict[str, Callable[[], str | None]] = {
            "EndOfText": tokens.declaration if is_declaration else tokens.end_of_text,
            "Mismatch": tokens.mismatch,
            "NotAVariable": tokens.not_a_variable,
            "Unexpected": tokens.declaration if is_declaration else tokens.unexpected,
            "Unknown": tokens.unknown,
        }
        found = rules[name]() if name in rules else None
    return found or _NAMES.get(name)


def script_hint(reason: str, place: int | None, word: str, text: str, types: Mapping[str, str]) -> str | None:
    """The hint for the reason why a line of a script with this word and argument is invalid, or None. `types` has the variables that are
    declared before, with their types."""
    negative = re.search(r"\s-(\d+)", text) if (reason, word) in (("Argument", "choose"), ("Unexpected", "expect")) else None
    if negative:
        return f"a negative number needs brackets: write `(-{negative[1]})`"
    if reason == "Argument" and word == "choose":
        return "`choose` takes a declared variable and 1 to 16 values of its type, parted by blanks, no two the same"
    if reason == "Argument" and word == "repeat":
        return "`repeat` stands alone, at the end of a section with a step: a `finish`, an `expect`, an `assert` or a `choose`"
    if reason == "Late" and word not in ("tvar", "always", "never", "eventually"):
        return "`repeat` is the last line of its section"
    if reason == "Argument":
        if word == "client":
            return "`client` takes nothing, or how many clients do the same: a number from 1 to 64"
        return f"`{word}` takes the number of a `submit` above it in its section, counted from 1"
    if word in ("assert", "eventually") and reason == "Mismatch" and place == 0:
        return f"the block of an `{word}` returns a Bool"
    if reason == "Command":
        return _of_no_line(word)
    if reason in _SCRIPT_NAMES:
        return _SCRIPT_NAMES[reason]
    if reason == "Unexpected" and word == "expect":
        return "`expect` takes a variable and its value, as `expect x 1`"
    if reason == "Unexpected" and place == 0 and word in ("always", "never", "eventually", "assert"):
        returns = "if a == 1 then return () else retry" if word == "never" else "return (a == 1)"
        return f"`{word}` takes a block, as `{word} do {{ a <- readTVar x; {returns} }}`"
    command = "submit" if word in ("always", "never", "eventually", "assert") else word
    found = hint(reason, place, None, command, text, types, None)
    if reason == "EndOfText" and command == "submit" and not text:
        return f"the block begins in the line of its `{word}`"
    if reason == "EndOfText" and command == "submit" and re.search(r"(?:[{;(]|<-|\b(?:do|then|else))$", text):
        goes_on = "a block goes on in lines that are indented deeper, while a bracket or brace is open"
        return f"{found}; {goes_on}" if found else goes_on
    return found


def _of_no_line(word: str) -> str:
    """The hint for a word with which no line of a script begins."""
    if word.startswith(_COMMENTS):
        return "a comment is a line that begins with `--`, and no blank comes before that"
    close = next((it for it in _LINES if _differ_by_one(it, word.lower()) or sorted(it) == sorted(word.lower())), None)
    if close:
        return f"no line of a script begins with `{word}`; did you mean `{close}`?"
    return _OTHER_LINES.get(word.lower()) or f"{_SCRIPT_NAMES['Command']}: the words are {', '.join(_LINES)}"


def _bad_byte(text: str, place: int) -> str | None:
    before, after = text[:place], text[place:]
    if before.endswith("-") and after.startswith(">"):
        return "there are no functions and no `->`"
    if before.endswith("<") and after.startswith(">"):
        return _BYTES["/="]
    sign = next((it for it in (after[:2], after[:1]) if it in _BYTES), None)
    left = re.search(r"(?:^|[(;{=]|&&|\|\||\b(?:if|return))\s*([\w']+)\s*$", before)
    right = re.match(r"\s*([\w']+)\s*(?:$|[);}]|&&|\|\||(?:then|else)\b)", after[len(sign) :]) if sign else None
    if sign == "_" and before[-1:].isdigit():
        return "a number has only digits"
    if left and right and sign in ("/=", "!="):
        return f"there is no `{sign}`: write `({left[1]} == {right[1]}) == False`"
    if left and right and sign in (">", ">="):
        return f"there is no `{sign}`: write `{right[1]} {sign.replace('>', '<')} {left[1]}`"
    return _BYTES[sign] if sign else None


class _Tokens:
    """The tokens of a text, and `at`, which of them is at the place; the rules that look for a mistake there."""

    def __init__(self, text: str, place: int | None, types: Mapping[str, str]) -> None:
        found = list(_TOKEN.finditer(text))
        self.text, self.types = text, types
        self.words = [it[0] for it in found]
        self.spans = [it.span() for it in found]
        self.at = next((i for i, (begin, _) in enumerate(self.spans) if begin == place), len(found))
        self.word, self.before, self.after = self._get(self.at), self._get(self.at - 1), self._get(self.at + 1)

    # What the text has.

    def _get(self, index: int) -> str:
        return self.words[index] if 0 <= index < len(self.words) else ""

    def _source(self, begin: int, end: int) -> str:
        """The text of the tokens from `begin` to before `end`."""
        return " ".join(self.text[self.spans[begin][0] : self.spans[end - 1][1]].split())

    def _atom_before(self, index: int) -> int | None:
        """The first token of the value that ends before the token `index`; None if none ends there."""
        word = self._get(index - 1)
        if word == ")":
            depth = 0
            for i in range(index - 1, -1, -1):
                depth += {")": 1, "(": -1}.get(self.words[i], 0)
                if not depth:
                    return i
            return None
        return index - 1 if word in ("True", "False") or self._is_name(word) or word.isdigit() else None

    def _head(self, index: int) -> int:
        """The token before the brackets that open before the token `index`."""
        index -= 1
        while self._get(index) == "(":
            index -= 1
        return index

    def _is_name(self, word: str) -> bool:
        return word[:1].islower() and word not in _RESERVED

    def _expression(self, begin: int) -> str:
        """The text of the expression from the token `begin` on."""
        depth, end = 0, begin
        while end < len(self.words):
            word = self.words[end]
            depth += {"(": 1, ")": -1}.get(word, 0)
            if depth < 0 or not depth and word in (";", "}", "{", "then", "else"):
                break
            end += 1
        return self._source(begin, end)

    def _open(self) -> list[int]:
        """The brackets and braces that are open at the place."""
        found: list[int] = []
        for index, word in enumerate(self.words[: self.at]):
            if word in "({":
                found.append(index)
            elif word in ")}" and found:
                found.pop()
        return found

    def _is_in_do(self) -> bool:
        found = self._open()
        return bool(found) and self.words[found[-1]] == "{"

    def _is_in_condition(self) -> bool:
        """Whether the place is after an `if` without its `then`."""
        return next((it == "if" for it in reversed(self.words[: self.at]) if it in _PARTS), False)

    def _lacks_then(self) -> bool:
        """Whether the condition at the place ends without a `then`."""
        follows = next((it for it in self.words[self.at :] if it in _PARTS), "")
        return self._is_in_condition() and "then" not in (follows, self.after)

    def _lacks_else(self) -> bool:
        """Whether in the innermost brackets around the place an `if` has no `else` yet."""
        begin = self._open()[-1] if self._open() else 0
        depth = lacks = 0
        for word in self.words[begin + 1 if self._open() else 0 : self.at]:
            depth += (word in "({") - (word in ")}")
            if not depth:
                lacks += (word == "then") - (word == "else")
        return lacks > 0

    def _locals(self) -> set[str]:
        """The names that are bound before the place."""
        found = set()
        for index, word in enumerate(self.words[: self.at]):
            is_thrown = self._get(index - 1) == ")" and self._get(index + 1) == "("
            if self._get(index + 1) == "<-" or self._get(index - 1) == "let" or is_thrown:
                found.add(word)
        return found

    def _in_scope(self) -> set[str]:
        """Those of them that can be used at the place."""
        scopes: list[set[str]] = [set()]  # of each bracket and brace that is open
        bound = [""]  # by the statement that is under way in each of them
        for index, word in enumerate(self.words[: self.at]):
            if word in ("{", "("):
                thrown = self._get(index - 1)
                is_handler = word == "(" and self._is_name(thrown) and self._get(index - 2) == ")"
                scopes.append({thrown} if is_handler else set())
                bound.append("")
            elif word in ("}", ")") and len(scopes) > 1:
                scopes.pop()
                bound.pop()
            elif word == ";":
                scopes[-1].add(bound[-1])
                bound[-1] = ""
            elif self._get(index + 1) == "<-" or self._get(index - 1) == "let":
                bound[-1] = word
        return set().union(*scopes) - {""}

    def _unread(self, word: str) -> str | None:
        """The hint for a declared variable in place of its value."""
        if word not in self.types or word in self._locals():
            return None
        kind = self.types[word]
        kind = f"({kind})" if " " in kind else kind
        return f"`{word}` is a variable (TVar {kind}), not its value: read it first, `a <- readTVar {word}`"

    def _word_of_haskell(self, word: str) -> str | None:
        return None if word in self.types or word in self._locals() else _WORDS.get(word)

    # The rules.

    def _hyphened(self, index: int) -> str | None:
        """The hint for a `-` in what was meant as one name: no blank is beside it, and what comes before it isn't known."""
        before, after = self._get(index - 1), self._get(index + 1)
        if self._get(index) != "-" or not after[:1].isalnum() or not self._is_name(before) or before in set(self.types) | self._locals():
            return None
        is_joined = self.spans[index - 1][1] == self.spans[index][0] and self.spans[index][1] == self.spans[index + 1][0]
        return f"a name has no `-`: write `{before}_{after}`" if is_joined else None

    def declaration(self) -> str:
        hyphened = self._hyphened(self.at) if self.at == 1 else None
        if hyphened:
            return hyphened
        if self.word == "-" and self.after.isdigit():
            return f"a negative number needs brackets: write `(-{self.after})`"
        if self.at == 0 and self.word in _RESERVED:
            return f"`{self.word}` is a word of the language: choose another name"
        if self.at == 0 and self.word[:1].isalnum() and not self._is_name(self.word):
            return f"`{self.word}`: a name begins with a small letter"
        if self.before == ":" and self.word == ":":
            return "one `:` comes between the name and the type"
        if "=" in self.words[3 : self.at]:
            return "the value is a number, `(-n)`, `True`, `False`, `()` or the name of a declared variable, and nothing comes after it"
        return "a declaration is `name : type = value`, as `x : Int = 1`; types are Int, Bool, () and TVar t"

    def unexpected(self) -> str | None:
        return (
            self._word_of_haskell(self.word)
            or self._word_of_haskell(self.before)
            or self._misspelt()
            or self._operator()
            or self._brackets()
            or self._statement()
            or self._action()
            or self._too_many()
        )

    def _misspelt(self) -> str | None:
        """A word of the language with a letter more, less or other, two that are swapped, or small and capital ones mixed up."""
        begins = [self.before] if self._get(self.at - 2) in _BEGIN_ACTION else []
        for word in (self.word, *begins):
            if self._is_name(word) and len(word) > 3 and word not in set(self.types) | self._locals():
                close = [it for it in sorted(_RESERVED) if it.lower() == word.lower() or _is_close(it, word)]
                if close:
                    return f"there is no `{word}`; did you mean `{close[0]}`?"
        return None

    def _operator(self) -> str | None:
        """An operator for which a value lacks brackets."""
        if self._get(self.at - 2) == "(" and self.before == "-" and self._is_name(self.word):
            return f"only a number can follow `(-`: write `(0 - {self.word})`"
        if self.word not in _OPERATORS:
            return None
        if self.word + self.after in ("+=", "-=", "*=", "++"):
            amount = "1" if self.after == "+" else "b"
            return f"there is no `{self.word}{self.after}`: write `a <- readTVar x; writeTVar x (a {self.word} {amount})`"
        hyphened = self._hyphened(self.at)
        if hyphened:
            return hyphened
        if self.word == "-" and self.after == "-" and self.spans[self.at][1] == self.spans[self.at + 1][0]:
            return "a block has no comments"
        atom = self._atom_before(self.at)
        head = self._get(atom - 1) if atom is not None else ""
        if self.word == "-" and (atom is None or head == "writeTVar"):
            is_number = self.after.isdigit()
            return f"a negative number needs brackets: write `(-{self.after})`" if is_number else "write `(0 - a)` for `-a`"
        if atom is None:
            return None
        if head == "readTVar":
            return f"`readTVar` is an action, not a value: bind it first, `a <- {self._source(atom - 1, self.at)}`"
        if head in _TAKE_VALUE:
            return f"`{head}` takes one value: write `{head} ({self._expression(atom)})`"
        variable = self._atom_before(atom)
        if variable is not None and self._get(variable - 1) == "writeTVar":
            return f"`writeTVar` takes one value: write `{self._source(variable - 1, atom)} ({self._expression(atom)})`"
        if head == "let":
            return "`let` names a value: `let a = ..`"
        if head in ("", "{", ";", "then", "else"):
            return f"a value is no action: write `return ({self._expression(atom)})`"
        if self.word in _COMPARISONS:
            return "comparisons can't be chained: write `a < b && b < c`"
        return None

    def _brackets(self) -> str | None:
        """Missing braces of `do`, brackets of `orElse` and `catch`, a missing `else`, a `;` too many, and `()` as an action."""
        if self.before == "(" and self.word == ")":
            return "`()` is a value, and an action is needed here: write `return ()`"
        if self.before == "do" and self.word != "{":
            return "`do` needs braces and semicolons: `do { a <- readTVar x; return a }`"
        if self.word == "}" and self.before in (";", "{"):
            return "no `;` comes after the last action" if self.before == ";" else "`do` needs an action: `do { return () }`"
        ends_early = self._atom_before(self.at) is not None and self.word not in _OPERATORS | set("=<-)")
        if ends_early and self._lacks_then() and not (self.word in ("}", ";") and self._unclosed()):
            return "`if` needs `then` and `else`, and no braces: `if a then b else c`"
        if self.before in _TAKE_VALUE and self.word in (";", "}", ")", "else"):
            return f"`{self.before}` takes one value" + (": `return ()`" if self.before == "return" else "")
        begin = self._atom_before(self.at)
        around = self._get(begin - 1) if begin is not None and self.before == ")" else self.before
        is_infix = self.word == "orElse" and self.before not in _BEGIN_ACTION
        if is_infix or around == "orElse" and self.word != "(":
            return "`orElse` comes first and takes two actions in brackets: `orElse (a) (b)`"
        names_thrown = self.before == ")" and self._is_name(self.word)
        lacks_handler = self._is_name(self.before) and self._get(self.at - 2) == ")" and "catch" in self.words
        if around == "catch" and not names_thrown or lacks_handler:
            return "`catch` takes an action, a name for the number thrown, and a handler: `catch (a) e (b)`"
        if self.word not in (";", "}", ")"):
            return None
        return self._unopened() or (_ELSE if self._lacks_else() else self._unclosed())

    def _unopened(self) -> str | None:
        """No bracket or brace is open that the token closes."""
        opens = {"}": "{", ")": "("}.get(self.word)
        is_unopened = opens and opens not in (self.words[it] for it in self._open())
        return f"no bracket is open that `{self.word}` could close" if is_unopened else None

    def _unclosed(self) -> str | None:
        """The innermost bracket or brace that is open, if the token doesn't close it."""
        found = self._open()
        bracket = self.words[found[-1]] if found else ""
        if not bracket or bracket + self.word in ("()", "{}", "{;") or bracket == "(" and self._is_closed():
            return None
        return f"the `{bracket}` at {self.spans[found[-1]][0]} isn't closed"

    def _is_closed(self) -> bool:
        """Whether a bracket that is open at the place is closed after it."""
        depth = 1
        for word in self.words[self.at :]:
            depth += (word in "({") - (word in ")}")
            if not depth:
                return word == ")"
        return False

    def _statement(self) -> str | None:
        """Statements that aren't in a `do`, or that no `;` separates."""
        names_result = self._is_name(self.word) and self.after == "<-"
        begins = self.word in _ACTIONS or self.word == "let" or names_result
        ends = self._atom_before(self.at) is not None or self.before in ("}", "retry")
        if begins and ends and self._is_in_do():
            if self._is_name(self.before) and self._get(self.at - 2) in ("{", ";") and self.word in _ACTIONS:
                return f"write `{self.before} <- {self.word} ..`"
            if self._lacks_else():
                return _ELSE
            return f"a `;` is missing before `{self.word}`"
        if self.word == ";" and (self.before in (";", "{") or not self.after):
            return "a `;` comes only between two actions"
        if self.word == ";" and self._get(self.at - 2) == "let":
            return f"`let` names a value: `let {self.before} = ..`"
        if self.word == ";" or begins and (ends or names_result or self.word == "let"):
            return "several actions need a `do`: `do { a <- readTVar x; writeTVar x (a + 1); return a }`"
        if self.word == "=" and self._is_in_condition():
            return "write `<=`" if self.after == "<" else "`==` compares: write `a == b`"
        if self.word == "<-" and self._get(self.at - 2) == "let":
            return f"`let` names a value: leave it out, `{self.before} <- {self.after} ..`"
        if self.word in ("=", ":") and self._is_name(self.before):
            if self.after in _ACTIONS:
                return f"write `{self.before} <- {self.after} ..`"
            return f"write `writeTVar {self.before} ..` to write a variable, `let {self.before} = ..` to name a value"
        return None

    def _action(self) -> str | None:
        """An action in place of a value, or a value in place of an action."""
        head = self._get(self._head(self.at))
        is_written = self.before == "(" and self._get(self._head(self.at) - 1) == "writeTVar"
        if self.word in _ACTIONS and (is_written or head in _OPERATORS | _TAKE_VALUE | {"=", "if", "writeTVar"}):
            if self.word == "if":
                return "`if` chooses between actions: write `if a then return b else return c`"
            bind = "" if self.word in ("retry", "throw") else f": bind its result first, `a <- {self.word} ..`"
            return f"`{self.word}` is an action, not a value{bind}"
        if self.before == "<-":
            return f"`<-` names the result of an action; write `let {self._get(self.at - 2)} = ..` to name a value"
        is_capital = self.word[:1].isupper() and self.word not in _RESERVED
        if is_capital and self.before == "throw":
            return "what is thrown is a number"
        if is_capital:
            return f"`{self.word}`: a name begins with a small letter"
        if self._is_name(self.word) and self.before in _BEGIN_ACTION and self.after in ("=", ":"):
            return f"write `writeTVar {self.word} ..` to write a variable"
        if self.word and self.before in _BEGIN_ACTION and self.word not in _RESERVED | set("(){};"):
            return f"an action is needed here, which begins with {_LIST}"
        return None

    def _too_many(self) -> str | None:
        """A second value after an action that takes one."""
        atom = self._atom_before(self.at)
        head = self._get(atom - 1) if atom is not None else ""
        return f"`{head}` takes one value" if head in _TAKE_VALUE and self.word else None

    def end_of_text(self) -> str | None:
        if not self.words:
            return "the text is empty"
        atom = self._atom_before(len(self.words))
        if "writeTVar" in (self.words[-1], self._get(atom - 1) if atom is not None else ""):
            return "`writeTVar` takes a variable and a value"
        if self.words[-1] in _TAKE_VALUE:
            return f"`{self.words[-1]}` takes one value"
        return _ELSE if self._lacks_else() else self._unclosed()

    def mismatch(self) -> str | None:
        index = self._head(self.at)
        head = self._get(index)
        if head == "==":
            left = self._atom_before(index)
            found = self._unread(self.words[left]) if left == index - 1 else None
            return found or self._unread(self.word) or "both sides of `==` must have one type"
        found = self._unread(self.word)
        variable = self._get(index) if self._get(index - 1) == "writeTVar" else ""
        if variable and variable in self.types and variable not in self._locals():
            return f"`{variable}` holds {self.types[variable]}" + (f"; {found}" if found else "")
        if found:
            return found
        for sign in (head, self.after):
            if sign in _OPERATORS - {"=="}:
                return f"`{sign}` takes {'Bool' if sign in ('&&', '||') else 'Int'} on both sides"
        if head == "throw":
            return "`throw` takes an Int"
        if head == "if":
            return "the condition must be a Bool, as `a == 1`"
        if self.word in _ACTIONS and self._is_name(head) and "catch" in self.words:
            return "the handler of a `catch` must return the type of its action"
        if self.word in _ACTIONS and head in ("else", ")"):
            return "both branches must return one type"
        return None

    def not_a_variable(self) -> str | None:
        if not self._is_name(self.word) or self.word not in self._locals():
            return None
        if self.word in self.types:
            return f"this block binds the name `{self.word}`, which hides the variable: bind another name, `a <- readTVar {self.word}`"
        return f"`{self.word}` is a value, not a variable" + (": use it as it is" if self.before == "readTVar" else "")

    def unknown(self) -> str:
        if self.word in _WORDS and self.word not in self.types:
            return _WORDS[self.word]
        hyphened = self._hyphened(self.at + 1)
        if hyphened:
            return hyphened
        known = sorted(set(self.types) | self._in_scope()) if len(self.types) <= 1000 else []
        close = [it for it in known if it.lower() == self.word.lower() or _differ_by_one(it, self.word)]
        if close:
            return f"nothing of this name is declared; did you mean `{close[0]}`?"
        names = f"; the names here are {', '.join(known)}" if 0 < len(known) <= 12 else ""
        return f"nothing of this name is declared{names}"


def _is_close(a: str, b: str) -> bool:
    """Whether the words differ by one letter, or by two neighbours that are swapped."""
    if _differ_by_one(a, b):
        return True
    at = next((i for i, (one, other) in enumerate(zip(a, b)) if one != other), None)
    return at is not None and a[:at] + a[at + 1 : at + 2] + a[at] + a[at + 2 :] == b


def _differ_by_one(a: str, b: str) -> bool:
    """Whether one letter more, less or other makes one of the words the other."""
    if len(a) > len(b):
        a, b = b, a
    if len(b) - len(a) > 1 or len(a) < 2:
        return False
    same = next((i for i, (one, other) in enumerate(zip(a, b)) if one != other), len(a))
    return a[same + (len(a) == len(b)) :] == b[same + 1 :]
