"""Random scripts for the console, and the running program that answers them line by line.

Variables are declared at any time. Of one that isn't among VARIABLES the name says the type, by its letter: i3 is an Int, r0 a reference.
"""

import re
import subprocess

END = "refused Command"  # the answer to a line that is no command
VARIABLES = {"x": ("Int", "0"), "y": ("Int", "1"), "flag": ("Bool", "False"), "slot": ("TVar Int", "x"), "unit": ("()", "()")}
LATE = {"i": "Int", "b": "Bool", "u": "()", "r": "TVar Int", "d": "TVar (TVar Int)"}  # the types of variables by the letters of their names
# Texts that declare nothing, with their refusals, whatever is declared.
BROKEN = {
    "i9": "EndOfText", "i9 : Int": "EndOfText", "i9 : Int 2": "Unexpected 9", "i9 : Int = (1)": "Unexpected 12", "i9 : Foo = 1": "Unexpected 5",
    "i9 : TVar TVar Int = x": "Unexpected 10", "do : Int = 1": "Unexpected 0", "i9 : Int = 9223372036854775808": "BadNumber 11",
    "i9 : Int = -1": "Unexpected 11", "X : Int = 1": "Unexpected 0",
}  # fmt: skip
LABELS = ["job7", "job8", "a", "!", "--", "--x", "-1", '"\\{}', "~" * 64]
NO_LABELS = ["-", "a b", "~" * 65, "a\x1f", "\x7f", "a -"]  # which no block can have
BLOCKS = {  # texts with their weights; V is a variable of numbers, S one of references to such, N a number, A a block
    "readTVar V": 2,
    "writeTVar V N": 4,
    "do { a <- readTVar V; writeTVar V (a + 1) }": 3,
    "do { a <- readTVar V; writeTVar V a }": 1,
    "do { a <- readTVar V; b <- readTVar V; if a == b then retry else writeTVar V b }": 2,
    "do { a <- readTVar V; if a == N then retry else writeTVar V N }": 3,
    "do { a <- readTVar V; if a < N then retry else A }": 3,
    "orElse (A) (A)": 3,
    "catch (A) e (writeTVar V e)": 2,
    "do { a <- readTVar V; throw a }": 1,
    "do { A; throw N }": 1,
    "do { A; retry }": 2,
    "retry": 1,
    "writeTVar V (9223372036854775807 + N)": 1,
    "do { f <- readTVar flag; writeTVar flag (f == False) }": 2,
    "do { f <- readTVar flag; if f then A else A }": 2,
    "do { r <- newTVar N; writeTVar S r }": 3,
    "do { r <- newTVar N; s <- newTVar r; t <- readTVar s; writeTVar t N; readTVar t }": 1,
    "do { r <- readTVar S; a <- readTVar r; if r == x then retry else writeTVar r (a + N) }": 3,
    "do { r <- readTVar S; a <- readTVar r; writeTVar S V }": 2,
    "do { u <- readTVar unit; writeTVar unit (); writeTVar V N; if u == () then retry else return () }": 1,
}


def late(names, letter):
    """Those of the names that are of variables of this letter, none of VARIABLES."""
    return [it for it in names if re.fullmatch(letter + r"\d+", it)]


def declaration(chance, names):
    """A random text that declares a variable where these names are declared. Most are accepted."""
    if chance.random() < 0.05:
        return chance.choice(list(BROKEN))
    letter = chance.choices(list(LATE), [5, 1, 1, 4, 1])[0]
    some = f"{chance.choice('ir')}{chance.randrange(9)}"  # a name that may not be declared
    first = {
        "i": [str(chance.randrange(4)), "(-7)"], "b": ["True", "False"], "u": ["()"], "r": ["x", "y", *late(names, "i"), some],
        "d": ["slot", *late(names, "r"), some],
    }  # fmt: skip
    name = chance.choice(list(names)) if chance.random() < 0.05 else f"{letter}{chance.randrange(chance.choice([4, 20]))}"
    kind = chance.choice(list(LATE.values())) if chance.random() < 0.1 else LATE[letter]
    return f"{name} : {kind} = {chance.choice(first[letter])}"


def labelling(chance, ticket):
    """A random argument of `label` for this ticket. Most give a label, some take one away, and few are refused."""
    return f"{ticket}{chance.choices(['', f' {chance.choice(LABELS)}', f' {chance.choice(NO_LABELS)}'], [2, 8, 1])[0]}"


def filled(chance, text, depth=0, names=()):
    """The text with something random in place of each V, S, N and A: of variables those of VARIABLES, and of these names, or now and then
    one that isn't among them. At depth 2 no text with an A is taken."""
    known = [it for it in BLOCKS if depth < 2 or not re.search(r"\bA\b", it)]

    def one(found):
        if found[0] == "A":
            return filled(chance, chance.choices(known, [BLOCKS[it] for it in known])[0], depth + 1, names)
        if found[0] == "N":
            return str(chance.randrange(4))
        letter, first = ("i", ["x", "y"]) if found[0] == "V" else ("r", ["slot"])
        if not names or chance.random() < 0.6:
            return chance.choice(first)
        return chance.choice(late(names, letter) or first) if chance.random() < 0.95 else f"{letter}{chance.randrange(9)}"

    return re.sub(r"\b[VSA]\b|N", one, text)


class Program:
    """The running program: a line is answered up to the answer to a second one."""

    def __init__(self, program):
        pipe = subprocess.PIPE
        self.process = subprocess.Popen([program, "run", "--workers", "1"], stdin=pipe, stdout=pipe, text=True)

    def ask(self, *lines):
        """The lines of the answer to each of these."""
        self.process.stdin.write("".join(f"{it}\n.\n" for it in lines))
        self.process.stdin.flush()
        return [self.answer() for _ in lines]

    def answer(self):
        found = []
        while (line := self.process.stdout.readline()) != END + "\n":
            if not line:
                raise EOFError(f"the program ended with status {self.process.wait()}")
            found.append(line.rstrip("\n"))
        return found


def command(chance, reference, jobs):
    """A random command: most are accepted, some are refused."""
    waiting = sorted(reference.waiters) or [0]
    ready = [it for it in waiting if it and reference.is_ready(it)]
    some = chance.choice([*waiting, len(reference.events)])
    return chance.choices(
        [
            "submit " + filled(chance, "A", names=reference.names),
            "declare " + declaration(chance, reference.names),
            "eval",
            f"finish {chance.choice(ready or waiting)}",
            f"finish {some}",
            f"take {chance.randrange(4)}",
            f"deliver {chance.randrange(jobs + 2)}",
            f"handback {some}",
            f"cancel {some}",
            "label " + labelling(chance, some),
            "settle",
            "drain",
        ],
        [9, 3, 5, 9, 1, 3, 4 if jobs else 0, 1, 1, 2, 0.3, 0.3],
    )[0]
