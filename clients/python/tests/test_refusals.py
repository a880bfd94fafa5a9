"""What is refused: names, places, hints and carets."""

import pickle

import stmdesk
from stmdesk import BadAnswer, Commits, Current, Desk, Ended, JournalError, New, Ref, Refused, Settled, Stopped, _hints
from tests.common import FLAG, X, OnProgram

CHAIN = "do { a <- newTVar 0; b <- newTVar a; c <- newTVar b; d <- newTVar c; e <- newTVar d; f <- newTVar e; " \
    "g <- newTVar f; h <- newTVar g; i <- newTVar h; j <- newTVar i; return j }"  # fmt: skip

FAULTS = {
    "return @": ("BadByte", 7),
    "return 99999999999999999999": ("BadNumber", 7),
    "return " + "a" * 33: ("NameTooLong", 7),
    "return 1 2": ("Unexpected", 9),
    "": ("EndOfText",),
    "do { readTVar x": ("EndOfText",),
    "return " + "(" * 65 + "1" + ")" * 65: ("TooDeep",),
    "do { " + "retry; " * 2050 + "retry }": ("TooLarge",),
    "return z": ("Unknown", 7),
    "return (1 + True)": ("Mismatch", 12),
    "readTVar 1": ("NotAVariable", 9),
    "do { x <- retry; return x }": ("Untyped", 10),
    CHAIN: ("TypeTooDeep", 162),
    "return \u00fc": ("NotAscii",),
    "return " + "1" * 65536: ("LineTooLong",),
}


class Refusals(OnProgram):
    def test_declarations(self):
        desk = self.start()
        self.assert_refused(lambda: desk.tvar("x : Int = 2"), "Twice")
        self.assert_refused(lambda: desk.tvar("b : Bool = 1"), "TypeOfValue")
        self.assert_refused(lambda: desk.tvar("q : Int = zz"), "Unknown", 10)
        self.assert_refused(lambda: desk.tvar("q : Foo = 1"), "Unexpected", 4)
        self.assert_refused(lambda: desk.tvar("q : Int"), "EndOfText")
        desk.store()
        self.assert_refused(lambda: desk.tvar("y : Int = 2"), "Late")

    def test_blocks(self):
        desk = self.start()
        for block, refusal in FAULTS.items():
            for call in (desk.try_, desk.looks, desk.submit):
                with self.subTest(block=block[:40], call=call.__name__):
                    self.assert_refused(lambda: call(block), *refusal)
        self.assert_is(desk.show(), [])

    def test_numbers(self):
        desk = self.start()
        for call in (desk.take, desk.deliver, desk.handback, desk.finish, desk.cancel, desk.reads, desk.why, desk.events):
            for number in (-1, 2**32, 10**10):
                with self.subTest(call=call.__name__, number=number):
                    self.assert_refused(lambda: call(number), "Argument")

    def test_tickets(self):
        desk = self.start()
        for call in (desk.finish, desk.cancel, desk.reads, desk.why):
            self.assert_refused(lambda: call(1), "NoTicket")
        desk.submit("retry")
        for call in (desk.finish, desk.reads):
            self.assert_refused(lambda: call(1), "NotEvaluated")
        desk.eval()
        self.assert_refused(lambda: desk.finish(1), "Blocks")
        self.assert_refused(lambda: desk.handback(1), "NotOut")

    def test_a_stale_ticket(self):
        desk = self.start()
        desk.submit("readTVar x")
        desk.submit("writeTVar x 5")
        desk.eval()
        desk.finish(2)
        self.assert_refused(lambda: desk.finish(1), "Stale")

    def test_deliveries(self):
        desk = self.start()
        desk.submit("readTVar x")
        self.assert_refused(lambda: desk.deliver(1), "NoJob")
        desk.take(1)
        desk.submit("writeTVar x 5")
        desk.eval()
        desk.finish(2)
        self.assert_refused(lambda: desk.deliver(1), "Overtaken", variable=X)
        desk.take(1)
        desk.deliver(2)
        self.assert_refused(lambda: desk.deliver(2), "Already")
        desk.cancel(1)
        self.assert_refused(lambda: desk.deliver(2), "Gone")
        self.assert_refused(lambda: desk.take(65537), "JobsFull")

    def test_a_full_history(self):
        desk = self.start(max_events=3)
        desk.submit("readTVar x")
        desk.eval()
        desk.submit("retry")
        for call in (desk.eval, lambda: desk.finish(1), lambda: desk.cancel(2), lambda: desk.submit("retry")):
            self.assert_refused(call, "HistoryFull")
        with self.assertRaises(Stopped) as caught:
            desk.settle()
        self.assert_is(caught.exception.name, "HistoryFull")
        self.assert_is(caught.exception.settled, Settled(0, 0))
        self.assert_is(desk.show(), [Current(1, Commits({}, [], 1)), New(2)])

    def test_a_settle_that_stops_keeps_what_it_did(self):
        desk = self.start(max_events=4)
        desk.submit("writeTVar x 2")
        desk.submit("readTVar x")
        with self.assertRaises(Stopped) as caught:
            desk.settle()
        self.assert_is((caught.exception.name, caught.exception.settled), ("HistoryFull", Settled(0, 2)))
        self.assert_is(desk.checkpoint(), 4)
        self.assert_is(desk.drain(), Settled(2, 1))

    def test_a_drain_that_stops_keeps_what_it_did(self):
        desk = self.start(max_events=4)
        desk.submit("writeTVar x 2")
        desk.submit("readTVar x")
        with self.assertRaises(Stopped) as caught:
            desk.drain()
        self.assert_is((caught.exception.name, caught.exception.settled), ("HistoryFull", Settled(1, 1)))
        self.assert_is(desk.show(), [New(2)])

    def test_as_text(self):
        self.assertEqual(str(Refused("Late")), "Late")
        self.assertEqual(str(Refused("Mismatch", 0)), "Mismatch 0")
        self.assertEqual(str(Refused("Overtaken", variable=Ref(0))), "Overtaken #0")
        self.assertEqual(str(Stopped("CellsFull", Settled(1, 2))), "CellsFull, 1 finished by 2 evaluations")


# A declaration or block, the refusal with its place, and what the hint has.
MISTAKES = {
    "return a + 1": ("Unexpected", 9, "`return` takes one value: write `return (a + 1)`"),
    "do { a <- readTVar x; return a + 1 }": ("Unexpected", 31, "write `return (a + 1)`"),
    "throw (1 + 1) * 2": ("Unexpected", 14, "write `throw ((1 + 1) * 2)`"),
    "writeTVar x 1 + 2": ("Unexpected", 14, "write `writeTVar x (1 + 2)`"),
    "readTVar x + 1": ("Unexpected", 11, "`readTVar` is an action, not a value: bind it first, `a <- readTVar x`"),
    "return 1 2": ("Unexpected", 9, "`return` takes one value"),
    "do { return }": ("Unexpected", 12, "`return ()`"),
    "do { a <- readTVar x; if a > 3 then retry else return a }": ("BadByte", 27, "there is no `>`: write `3 < a`"),
    "do { a <- readTVar x; return ((a * 2) >= 3) }": ("BadByte", 38, "there is no `>=`: write `b <= a` for `a >= b`"),
    "do { a <- readTVar x; return (a >= 3) }": ("BadByte", 32, "write `3 <= a`"),
    "do { a <- readTVar x; return (a /= 3) }": ("BadByte", 32, "write `(a == 3) == False`"),
    "do { a <- readTVar x; return (a != 3) }": ("BadByte", 32, "write `(a == 3) == False`"),
    "return (1 <> 2)": ("BadByte", 11, "`(a == b) == False`"),
    "do { a <- readTVar x; return (a / 2) }": ("BadByte", 32, "no division"),
    "return (7 `div` 2)": ("BadByte", 10, "`orElse (a) (b)`"),
    "return $ 1 + 2": ("BadByte", 7, "brackets"),
    'return "a"': ("BadByte", 7, "no text"),
    "return (1, 2)": ("BadByte", 9, "no pairs"),
    "return [1]": ("BadByte", 7, "no lists"),
    "return #0": ("BadByte", 7, "declared names"),
    "readTVar x >>= f": ("BadByte", 11, "`do { a <- readTVar x;"),
    "catch (throw 1) e -> retry": ("BadByte", 19, "no functions"),
    "return -1": ("Unexpected", 7, "write `(-1)`"),
    "writeTVar x -1": ("Unexpected", 12, "write `(-1)`"),
    "do { a <- readTVar x; return (-a) }": ("Unexpected", 31, "write `(0 - a)`"),
    "do { a <- readTVar x; return a; }": ("Unexpected", 32, "no `;` comes after the last action"),
    "do a <- readTVar x; return a": ("Unexpected", 3, "`do` needs braces"),
    "a <- readTVar x; return a": ("Unexpected", 0, "need a `do`"),
    "writeTVar x 1; return 2": ("Unexpected", 13, "need a `do`"),
    "do { a <- readTVar x\n  return a }": ("Unexpected", 23, "a `;` is missing before `return`"),
    "readTVar x `orElse` return 0": ("BadByte", 11, "`orElse (a) (b)`"),
    "readTVar x orElse return 0": ("Unexpected", 11, "`orElse (a) (b)`"),
    "orElse readTVar x return 0": ("Unexpected", 7, "`orElse (a) (b)`"),
    "orElse (readTVar x) return 0": ("Unexpected", 20, "`orElse (a) (b)`"),
    "catch (throw 1) (return 2)": ("Unexpected", 16, "`catch (a) e (b)`"),
    "check (1 == 3)": ("Unexpected", 0, "write `if a then return () else retry`"),
    "do { check (1 == 3); return 1 }": ("Unexpected", 11, "write `if a then return () else retry`"),
    "do { when (1 == 3) retry; return 1 }": ("Unexpected", 10, "write `if a then b else return ()`"),
    "pure ()": ("Unexpected", 0, "write `return`"),
    "do { a <- readTVar flag; if not a then retry else return 1 }": ("Unexpected", 32, "write `(a == False)`"),
    "modifyTVar x 1": ("Unexpected", 0, "`a <- readTVar x; writeTVar x (a + 1)`"),
    "atomically (readTVar x)": ("Unexpected", 0, "leave `atomically` out"),
    "do { let a = 1 in return a }": ("Unexpected", 15, "there is no `in`"),
    "do { let a = readTVar x; return a }": ("Unexpected", 13, "bind its result first, `a <- readTVar ..`"),
    "do { a = readTVar x; return a }": ("Unexpected", 7, "write `a <- readTVar ..`"),
    "do { x := 3 }": ("Unexpected", 7, "write `writeTVar x ..`"),
    "do { b <- 1 + 1; return b }": ("Unexpected", 10, "write `let b = ..`"),
    "return (readTVar x + 1)": ("Unexpected", 8, "bind its result first"),
    "return (if True then 1 else 2)": ("Unexpected", 8, "`if a then return b else return c`"),
    "if True then 1 else 2": ("Unexpected", 13, "an action is needed here"),
    "return (1 < 2 < 3)": ("Unexpected", 14, "write `a < b && b < c`"),
    "do { if True then retry; return 1 }": ("Unexpected", 23, "`if` needs its `else`"),
    "if True then retry": ("EndOfText", None, "`if` needs its `else`"),
    "do { retry -- a comment }": ("Unexpected", 11, "no comments"),
    "do { return (1 }": ("Unexpected", 15, "the `(` at 12 isn't closed"),
    "do { }": ("Unexpected", 5, "`do { return () }`"),
    "do { readTVar x": ("EndOfText", None, "the `{` at 3 isn't closed"),
    "writeTVar x": ("EndOfText", None, "`writeTVar` takes a variable and a value"),
    "": ("EndOfText", None, "the text is empty"),
    "if x == 0 then retry else return 1": ("Mismatch", 8, "`x` is a variable (TVar Int), not its value: read it first"),
    "if flag then retry else return 1": ("Mismatch", 3, "`flag` is a variable (TVar Bool)"),
    "return (slot + 1)": ("Mismatch", 8, "`slot` is a variable (TVar (TVar Int))"),
    "return (1 + x)": ("Mismatch", 12, "`x` is a variable"),
    "return (1 + True)": ("Mismatch", 12, "`+` takes Int on both sides"),
    "return (True && 1)": ("Mismatch", 16, "`&&` takes Bool on both sides"),
    "return (1 == True)": ("Mismatch", 13, "both sides of `==` must have one type"),
    "writeTVar x True": ("Mismatch", 12, "`x` holds Int"),
    "if 1 then retry else retry": ("Mismatch", 3, "the condition must be a Bool"),
    "throw True": ("Mismatch", 6, "`throw` takes an Int"),
    "orElse (return 1) (return True)": ("Mismatch", 19, "both branches must return one type"),
    "if True then return 1 else return True": ("Mismatch", 27, "both branches must return one type"),
    "catch (return True) e (return 1)": ("Mismatch", 23, "the handler"),
    "return true": ("Unknown", 7, "write `True`"),
    "readTVar slott": ("Unknown", 9, "did you mean `slot`?"),
    "do { a <- raedTVar x; return a }": ("Unexpected", 10, "there is no `raedTVar`; did you mean `readTVar`?"),
    "do { writeTvar x 1 }": ("Unexpected", 15, "there is no `writeTvar`; did you mean `writeTVar`?"),
    "wrtieTVar x 1": ("Unexpected", 0, "there is no `wrtieTVar`; did you mean `writeTVar`?"),
    "do { a <- readTVar x; retun a }": ("Unexpected", 28, "there is no `retun`; did you mean `return`?"),
    "do { a <- readTVar x; if a == 1 thne retry else return a }": ("Unexpected", 32, "there is no `thne`; did you mean `then`?"),
    "do { a <- readTVar x; if a == 1 then retry esle return a }": ("Unexpected", 43, "there is no `esle`; did you mean `else`?"),
    "orelse (retry) (retry)": ("Unexpected", 0, "there is no `orelse`; did you mean `orElse`?"),
    "do { a <- readTVar y; return a }": ("Unknown", 19, "the names here are flag, slot, x"),  # `a` has no value yet
    "do { do { b <- readTVar x; return b }; let c = 1; return d }": ("Unknown", 57, "the names here are c, flag, slot, x"),
    "catch (throw 1) e (return f)": ("Unknown", 26, "the names here are e, flag, slot, x"),
    "do { catch (throw 1) e (return e); return f }": ("Unknown", 42, "the names here are flag, slot, x"),
    "readTVar y": ("Unknown", 9, "the names here are flag, slot, x"),
    "readTVar 1": ("NotAVariable", 9, "a variable is needed here"),
    "do { a <- readTVar x; readTVar a }": ("NotAVariable", 31, "`a` is a value, not a variable: use it as it is"),
    "do { a <- readTVar x; writeTVar a 1 }": ("NotAVariable", 32, "`a` is a value, not a variable"),
    "do { x <- readTVar x; writeTVar x (x + 1) }": ("NotAVariable", 32, "this block binds the name `x`, which hides the variable"),
    "do { let x = 1; readTVar x }": ("NotAVariable", 25, "bind another name, `a <- readTVar x`"),
    "do { a <- readTVar job-1; return a }": ("Unexpected", 22, "a name has no `-`: write `job_1`"),
    "writeTVar job-1 5": ("Unexpected", 13, "a name has no `-`: write `job_1`"),
    "return (job-one)": ("Unknown", 8, "a name has no `-`: write `job_one`"),
    "return (job - 1)": ("Unknown", 8, "the names here are flag, slot, x"),
    "readTVar x-1": ("Unexpected", 10, "bind it first, `a <- readTVar x`"),
    "do { (); return 1 }": ("Unexpected", 6, "write `return ()`"),
    "if True then () else retry": ("Unexpected", 14, "`()` is a value, and an action is needed here"),
    "do { a <- retry; return a }": ("Untyped", 10, "return nothing"),
    "return " + "(" * 65 + "1" + ")" * 65: ("TooDeep", None, "nest `orElse` as a balanced tree"),
    "return \u00fc": ("NotAscii", None, "'\u00fc' at 7 isn't ASCII"),
    # Habits from other languages than Haskell.
    "writeTVar(x, 5)": ("BadByte", 11, "a blank comes before each argument"),
    "do { a <- readTVar x, return a }": ("BadByte", 20, "a `;` between statements"),
    "writeTVar slot None": ("Unexpected", 15, "there is no `None`: write `()`"),
    "return null": ("Unknown", 7, "there is no `null`: write `()`"),
    "return !True": ("BadByte", 7, "there is no `!`: write `(a == False)`"),
    "return 1.5": ("BadByte", 8, "numbers are whole"),
    "return 1_000": ("BadByte", 8, "a number has only digits"),
    "x = 5": ("Unexpected", 0, "write `writeTVar x ..`"),
    "x := 5": ("Unexpected", 0, "write `writeTVar x ..`"),
    "read x": ("Unexpected", 0, "write `readTVar`"),
    "do { write x 5 }": ("Unexpected", 11, "write `writeTVar`"),
    "do { let a <- readTVar x; return a }": ("Unexpected", 11, "leave it out, `a <- readTVar ..`"),
    "do { a <- readTVar x; if a = 0 then retry else return a }": ("Unexpected", 27, "`==` compares"),
    "do { a <- readTVar x; if (a == 0) { retry } else { return a } }": ("Unexpected", 34, "no braces: `if a then b else c`"),
    "do { a <- readTVar x; if a == 0: retry }": ("Unexpected", 31, "`if` needs `then` and `else`"),
    "do { a <- readTVar x; if a == 0 retry else return a }": ("Unexpected", 32, "`if` needs `then` and `else`"),
    "do { a <- readTVar x; if a == 0 then retry elif a < 3 then retry else return a }": ("Unexpected", 43, "write `else if`"),
    "do { a <- readTVar x; a += 1; writeTVar x a }": ("Unexpected", 24, "there is no `+=`"),
    "do { a <- readTVar x; print a; return a }": ("Unexpected", 28, "a block prints nothing"),
    "do { a <- readTVar x; while a < 3 do retry }": ("Unexpected", 28, "there are no loops"),
    "writeTVar x (readTVar x + 1)": ("Unexpected", 13, "bind its result first, `a <- readTVar ..`"),
    "throw NotFound": ("Unexpected", 6, "what is thrown is a number"),
    "do { a <- readTVar x; a *= 2; return a }": ("Unexpected", 24, "there is no `*=`: write `a <- readTVar x; writeTVar x (a * b)`"),
    "do { a <- readTVar x; writeTVar x a++ }": ("Unexpected", 35, "there is no `++`: write `a <- readTVar x; writeTVar x (a + 1)`"),
    "do { a <- readTVar x; if a =< 1 then retry else return a }": ("Unexpected", 27, "write `<=`"),
    "return 7 // 2": ("BadByte", 9, "there is no division, and a block has no comments"),
    "do { return 1 # a comment": ("BadByte", 14, "a block has no comments"),
    # What is there isn't missed.
    "do { a <- readTVar x; if even a then retry else return a }": ("Unexpected", 30, None),
    "do { a <- readTVar x; if (a == 1) (a == 2) then retry else return a }": ("Unexpected", 34, None),
    "do { a <- readTVar x; if a == 1) then retry else return a }": ("Unexpected", 31, "no bracket is open that `)` could close"),
    "if True then (writeTVar x 1; return 1) else retry": ("Unexpected", 27, "need a `do`"),
    "do { let a = (1 + 2; return a }": ("Unexpected", 19, "the `(` at 13 isn't closed"),
    "writeTVar x (retry)": ("Unexpected", 13, "`retry` is an action, not a value"),
    "do { writeTVar x 1;; return 1 }": ("Unexpected", 19, "a `;` comes only between two actions"),
    "do { a <- readTVar x; if a == 1 } then retry else return a }": ("Unexpected", 32, None),
    "do { a <- readTVar x; if a == 1 then ) else return a }": ("Unexpected", 37, "no bracket is open that `)` could close"),
    "do { a <- readTVar x; if a == 1 then retry writeTVar x 1 }": ("Unexpected", 43, "`if` needs its `else`"),
    "do { a readTVar x; return a }": ("Unexpected", 7, "write `a <- readTVar ..`"),
    "do { a <- readTVar x; if (a == 1 } then retry else return a }": ("Unexpected", 33, "the `(` at 25 isn't closed"),
    "do { ; return 1 }": ("Unexpected", 5, "a `;` comes only between two actions"),
    "return 1;": ("Unexpected", 8, "a `;` comes only between two actions"),
    "do { r <- newTVar; return r }": ("Unexpected", 17, "`newTVar` takes one value"),
    "do { let a; return 1 }": ("Unexpected", 10, "`let` names a value: `let a = ..`"),
    "do { let a == 1; return a }": ("Unexpected", 11, "`let` names a value: `let a = ..`"),
}  # fmt: skip
WRONG_DECLARATIONS = {
    "b : Bool = true": ("Unknown", 11, "write `True`"),
    "n : Int = -1": ("Unexpected", 10, "write `(-1)`"),
    "job-1 : Int = 0": ("Unexpected", 3, "a name has no `-`: write `job_1`"),
    "do : Int = 1": ("Unexpected", 0, "choose another name"),
    "n : Integer = 1": ("Unexpected", 4, "types are Int, Bool, () and TVar t"),
    "n = 1": ("Unexpected", 2, "`x : Int = 1`"),
    "x : Int = 1": ("Twice", None, "is declared already"),
    "Jobs : Int = 1": ("Unexpected", 0, "a name begins with a small letter"),
    "1job : Int = 1": ("Unexpected", 0, "a name begins with a small letter"),
    "job.one : Int = 1": ("BadByte", 3, "a name has only letters, digits"),
    "n::Int = 1": ("Unexpected", 2, "one `:` comes between the name and the type"),
    "n : Int = x + 1": ("Unexpected", 12, "nothing comes after it"),
    "n : Int = 1;": ("Unexpected", 11, "nothing comes after it"),
    "b : Bool = 1": ("TypeOfValue", None, "type"),
}


class Hints(OnProgram):
    def start(self):
        desk = super().start()
        self.assert_is(desk.tvar("flag : Bool = False"), FLAG)
        desk.tvar("slot : TVar Int = x")
        return desk

    def refused(self, call):
        with self.assertRaises(Refused) as caught:
            call()
        return caught.exception

    def assert_hint(self, call, text, name, place, hint):
        refused = self.refused(lambda: call(text))
        self.assertEqual((refused.name, refused.place, refused.text), (name, place, text))
        if hint is None:
            self.assertIsNone(refused.hint)
        else:
            self.assertIn(hint, refused.hint)

    def test_of_blocks(self):
        desk = self.start()
        for text, expected in MISTAKES.items():
            with self.subTest(text=text):
                self.assert_hint(desk.try_, text, *expected)

    def test_of_declarations(self):
        desk = self.start()
        for text, expected in WRONG_DECLARATIONS.items():
            with self.subTest(text=text):
                self.assert_hint(desk.tvar, text, *expected)
        self.refused(lambda: desk.try_("return \u00fc"))
        desk.eval()
        desk.store()
        self.assert_hint(desk.tvar, "late : Int = 1", "Late", None, "before the first other command, which was `eval`")

    def test_of_tickets(self):
        desk = self.start()
        self.assertIn("no block waits", self.refused(lambda: desk.finish(1)).hint)
        desk.submit("readTVar x")
        self.assertIn("call `eval` first", self.refused(lambda: desk.finish(1)).hint)
        desk.take(1)
        desk.submit("writeTVar x 5")
        desk.eval()
        desk.finish(2)
        self.assertIn("`x` has another value now", self.refused(lambda: desk.deliver(1)).hint)
        self.assertIn("0 to 4294967295", self.refused(lambda: desk.finish(-1)).hint)

    def test_every_refusal_has_one(self):
        names = """Already Argument BadNumber Blocks CellsFull EndOfText Gone HistoryFull JobsFull Late LineTooLong NameTooLong
            NoJob NoTicket NotAVariable NotAscii NotEvaluated NotOut Stale TableFull TooDeep TooLarge Twice TypeOfValue
            TypeTooDeep Unknown Untyped WaitingFull""".split()
        for name in names:
            self.assertIsNotNone(_hints.hint(name, None, None, "try", "return 1", {}, None), name)

    def test_of_any_place(self):
        texts = [*MISTAKES, "", "(", ")", "} ) ;", "do {", "- -", "catch (", "let", "<-", "x <-"]
        for text in texts:
            for name in ("BadByte", "EndOfText", "Mismatch", "NotAVariable", "Unexpected", "Unknown"):
                for place in (None, *range(min(len(text), 60) + 2)):
                    for command in ("try", "tvar", "declare"):
                        hint = _hints.hint(name, place, None, command, text, {"x": "Int"}, None)
                        self.assertIsInstance(hint, (str, type(None)))

    def test_of_a_long_text(self):
        desk = self.start()
        text = "do { " + "writeTVar x 1; " * 1000 + "return a + 1 }"
        self.assertIn("write `return (a + 1)`", self.refused(lambda: desk.try_(text)).hint)


class Carets(OnProgram):
    def assert_shows(self, call, *lines):
        with self.assertRaises(Refused) as caught:
            call()
        self.assertEqual(str(caught.exception).split("\n"), list(lines))

    def test_in_one_line(self):
        desk = self.start()
        self.assert_shows(
            lambda: desk.submit("do { a <- readTVar x; return a + 1 }"),
            "Unexpected 31",
            "    submit do { a <- readTVar x; return a + 1 }",
            "                                          ^",
            "    hint: `return` takes one value: write `return (a + 1)`",
        )

    def test_after_blanks(self):
        desk = self.start()
        self.assert_shows(
            lambda: desk.try_(" \n\treturn\t(1 + True)\n"),
            "Mismatch 12",
            "    try return (1 + True)",
            "                    ^",
            "    hint: `+` takes Int on both sides",
        )

    def test_in_a_later_line(self):
        desk = self.start()
        for end in ("\n", "\r\n"):
            text = end.join(["do {", "  a <- readTVar x;", "\tif a > 3", "  then retry else return a", "}"])
            self.assert_shows(
                lambda: desk.try_(text),
                f"BadByte {text.index('>')}",
                "    line 3:  if a > 3",
                "                  ^",
                "    hint: there is no `>`: write `3 < a`",
            )

    def test_at_the_end_of_a_text(self):
        desk = self.start()
        self.assert_shows(
            lambda: desk.try_("do {\n  readTVar x\n"),
            "EndOfText",
            "    line 2:   readTVar x",
            "                        ^",
            "    hint: the `{` at 3 isn't closed",
        )

    def test_without_a_place(self):
        desk = self.start()
        self.assert_shows(
            lambda: desk.finish(7),
            "NoTicket",
            "    finish 7",
            "    hint: no block waits under this ticket: it finished, or was cancelled, or never was",
        )

    def test_in_a_long_line(self):
        desk = self.start()
        text = "do { " + "writeTVar x 1; " * 20 + "return z; " + "writeTVar x 1; " * 20 + "retry }"
        with self.assertRaises(Refused) as caught:
            desk.try_(text)
        first, shown, caret, _ = str(caught.exception).split("\n")
        self.assertEqual(first, f"Unknown {text.index('z')}")
        self.assertTrue(shown.startswith("    try ... ") and shown.endswith(" ..."))
        self.assertEqual(shown[caret.index("^")], "z")
        self.assertLess(len(shown), 120)

    def test_names_of_a_traceback(self):
        for kind in (Refused, Stopped, Ended, BadAnswer, Desk, Ref):
            self.assertEqual(f"{kind.__module__}.{kind.__qualname__}", f"stmdesk.{kind.__name__}")

    def test_errors_are_pickled(self):
        for error in (
            Refused("Mismatch", 12, None, "try", "return (1 + True)", "a hint"),
            Refused("Overtaken", variable=X),
            Stopped("HistoryFull", Settled(1, 2)),
            Ended(4, "out of memory"),
            JournalError(1, "stmdesk: a file: in use"),
            BadAnswer("eval", "x"),
            stmdesk.Thrown(4),
            stmdesk.TimedOut(0.5),
            stmdesk.Cancelled(),
        ):
            same = pickle.loads(pickle.dumps(error))
            self.assertEqual((type(same), str(same), vars(same)), (type(error), str(error), vars(error)))
