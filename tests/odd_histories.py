"""Histories that tools/timeline and tools/view must not draw, and random changes of some that they draw."""

import importlib.machinery
import importlib.util
import pathlib
import random
import re
import sys

HERE = pathlib.Path(__file__).resolve().parent
TOOLS = HERE.parent / "tools"
HEAD = b'{"format":3,"vars":1}\n{"init":1,"name":"x","type":"Int"}\n'
CHECKPOINT = b'{"format":4,"next":3,"vars":1,"waiting":1}\n{"count":0,"init":1,"name":"x","type":"Int"}\n'
WAITING = b'{"block":"readTVar x","reads":[[0,1]],"stale":false,"ticket":1,"verdict":{"commits":{"news":[],"result":1,"writes":[]}}}\n'
LATE = HEAD.replace(b'"format":3', b'"format":5')
DECLARED = b'{"client":0,"event":"declared","init":2,"name":"y","type":"Int"}\n'
LABELLED = b'{"client":0,"event":"labelled","label":"job7","ticket":1}\n'
SUBMITTED = b'{"block":"readTVar x","client":0,"event":"submitted","ticket":1}\n'
FINISHED = (
    b'{"client":0,"event":"finished","first_new":1,"stale":[],"ticket":1,'
    b'"verdict":{"commits":{"news":[["Int",7]],"result":1,"writes":[[0,5]]}}}\n'
)
NO_VALUES = [b'"1"', b'""', b"NaN", b"Infinity", b"-Infinity", b"1.5", b"1e400", b"[]", b"[1]", b"{}", b'{"mid":1}', b'{"old":"0"}']
NO_VALUES += [b'{"new":1.0}', b'{"old":-1}', b'{"old":true}', b'{"old":4294967296}', b'{"new":0,"old":0}']
NO_NUMBERS = [b"-1", b"1.0", b"true", b"null", b'"1"', b"[1]", b"{}", b"NaN", b"4294967296"]
NO_VERDICTS = [b'"retries"', b"0", b"null", b"[]", b"{}", b'{"throws":"x"}', b'{"throws":1.5}', b'{"throws":null}', b'{"commits":[]}']
NO_VERDICTS += [b'{"commits":{}}', b'{"throws":1,"commits":{}}', b'{"fails":1}']
NO_PAIRS = [b"null", b"{}", b"[0]", b"[[]]", b"[[0]]", b"[[0,1,2]]", b'["ab"]']
NO_WRITES = [*NO_PAIRS, *(b"[[%s,1]]" % it for it in NO_NUMBERS), *(b"[[0,%s]]" % it for it in NO_VALUES)]
NO_NEWS = [*NO_PAIRS, b"[[0,1]]", b"[[null,1]]", *(b'[["Int",%s]]' % it for it in NO_VALUES)]


def changed(text, part, others):
    """The texts that have another part."""
    assert text.count(part) == 1
    return [text.replace(part, part.partition(b":")[0] + b":" + it) for it in others]


def odd():
    """Pairs of a history and how the tool says why it isn't drawn, after its name."""
    variable = changed(HEAD, b'"init":1', NO_VALUES) + changed(HEAD, b'"name":"x"', [b"7", b"[]", b"true"])
    variable += changed(HEAD, b'"type":"Int"', [b"7", b"null", b"{}"]) + [HEAD.replace(it, b"") for it in (b'"init":1,', b',"type":"Int"')]
    for text in variable:
        yield text + SUBMITTED, "line 2 is no variable that can be drawn here"
    waiting = changed(WAITING, b'"ticket":1', NO_NUMBERS) + changed(WAITING, b'"block":"readTVar x"', [b"7", b"null", b"[]"])
    waiting += changed(WAITING, b'"reads":[[0,1]]', NO_WRITES) + changed(WAITING, b'"stale":false', [b"0", b'"false"', b"null"])
    waiting += changed(WAITING, b'"verdict":{"commits":{"news":[],"result":1,"writes":[]}}', NO_VERDICTS)
    waiting += [WAITING.replace(b'"reads"', b'"label":%s,"reads"' % it) for it in (b"7", b"null", b"[]", b"true")]
    for text in [*waiting, WAITING.replace(b'"reads":[[0,1]],', b""), WAITING.replace(b'"stale":false,', b"")]:
        yield CHECKPOINT + text + FINISHED, "line 3 is no waiting block that can be drawn here"
    yield CHECKPOINT.replace(b'"waiting":1', b'"waiting":2') + WAITING + WAITING + FINISHED, "ticket 1 waits twice"
    yield CHECKPOINT.replace(b'"waiting":1', b'"waiting":2') + WAITING + FINISHED, "line 4 is no waiting block"
    for header in changed(CHECKPOINT.partition(b"\n")[0], b'"waiting":1', [b"-1", b"true", b"1.0", b"null"]):
        yield header + CHECKPOINT[CHECKPOINT.index(b"\n") :] + WAITING + FINISHED, "this is no history of format 1 to 5"
    headers = changed(HEAD, b'"vars":1', [b"-1", b"true", b"1.0", b"null"]) + changed(HEAD, b'"format":3', [b"0", b"6", b"3.0", b"true"])
    for header in headers:
        yield header + SUBMITTED, "this is no history of format 1 to 5"
    for text in changed(DECLARED, b'"init":2', NO_VALUES) + changed(DECLARED, b'"name":"y"', [b"7", b"null", b"[]", b'"x"']):
        yield LATE + text, "line 3 is no event that can be drawn here"
    for text in changed(DECLARED, b'"type":"Int"', [b"7", b"null", b"{}"]) + changed(DECLARED, b'"client":0', NO_NUMBERS):
        yield LATE + text, "line 3 is no event that can be drawn here"
    yield LATE + DECLARED + DECLARED, "line 4 is no event that can be drawn here"
    labels = changed(LABELLED, b'"label":"job7"', [b"7", b"null", b"[]", b"true"]) + changed(LABELLED, b'"ticket":1', [*NO_NUMBERS, b"2"])
    for text in [*labels, LABELLED.replace(b'"label":"job7",', b""), *changed(LABELLED, b'"client":0', NO_NUMBERS)]:
        yield LATE + SUBMITTED + text, "line 4 is no event that can be drawn here"
    for header in changed(CHECKPOINT.partition(b"\n")[0].replace(b"4", b"5"), b'"waiting":1', [b"-1", b"true", b"1.0", b"null"]):
        yield header + CHECKPOINT[CHECKPOINT.index(b"\n") :] + WAITING + FINISHED, "this is no history of format 1 to 5"
    for text in changed(SUBMITTED, b'"block":"readTVar x"', [b"7", b"null", b"[]"]) + changed(SUBMITTED, b'"ticket":1', NO_NUMBERS):
        yield HEAD + text, "line 3 is no event that can be drawn here"
    for text in changed(SUBMITTED, b'"client":0', NO_NUMBERS) + changed(SUBMITTED, b'"event":"submitted"', [b'"Submitted"', b"[]", b"{}"]):
        yield HEAD + text, "line 3 is no event that can be drawn here"
    for part, others in (
        (b'"stale":[]', [b"null", b"7", b"{}", b"[1]", b"[[]]", *(b"[%s]" % it for it in NO_NUMBERS)]),
        (b'"first_new":1', NO_NUMBERS),
        (b'"verdict":{"commits":{"news":[["Int",7]],"result":1,"writes":[[0,5]]}}', NO_VERDICTS),
        (b'"result":1', NO_VALUES),
        (b'"writes":[[0,5]]', NO_WRITES),
        (b'"news":[["Int",7]]', NO_NEWS),
    ):
        for text in changed(FINISHED, part, others):
            yield HEAD + SUBMITTED + text, "line 4 is no event that can be drawn here"


NUMBERS = re.compile(rb"\d+")
PARTS = re.compile(rb'-?\d+|true|false|null|"[^"]*"|\[[^\[\]]*\]|\{[^{}]*\}')
TOKENS = [*NO_VALUES, *NO_NUMBERS, *NO_VERDICTS, *NO_PAIRS, b"9" * 5000, b"[" * 100000, b'"\\ud800"', b'"\\u0000"', b"\xff"]
TOKENS += [b'"do { readTVar x; retry }"', b'"(' + b"(" * 9000 + b'"', b'"</script><b onclick=x>"', b"0", b"1", b"2", b"9223372036854775808"]


def mutated(seed, count):
    """Some of the histories of tests/timeline, with up to four random changes each."""
    chance = random.Random(seed)
    texts = [path.read_bytes() for path in sorted((HERE / "timeline").glob("*.history"))]
    for _ in range(count):
        text = chance.choice(texts)
        for _ in range(chance.choice([1, 1, 2, 4])):
            text = mutant(chance, text)
        yield text


def mutant(chance, text):
    """A text with a byte changed, some bytes left out, a number or another part replaced, or two lines in each other's place."""
    at, kind = chance.randrange(len(text) or 1), chance.random()
    if kind < 0.2:
        return text[:at] + bytes([chance.randrange(256)]) + text[at + 1 :]
    if kind < 0.3:
        return text[:at] + text[at + chance.randint(1, 30) :]
    if kind < 0.85:
        is_number = kind < 0.6
        found = [*(NUMBERS if is_number else PARTS).finditer(text)]
        part = chance.choice(found).span() if found else (at, at)
        return text[: part[0]] + (str(chance.randrange(6)).encode() if is_number else chance.choice(TOKENS)) + text[part[1] :]
    lines = text.split(b"\n")
    one, other = chance.randrange(len(lines)), chance.randrange(len(lines))
    lines[one], lines[other] = lines[other], lines[one]
    return b"\n".join(lines)


def loaded(name):
    """A tool as a module."""
    if str(TOOLS) not in sys.path:
        sys.path.insert(0, str(TOOLS))
    loader = importlib.machinery.SourceFileLoader(name, str(TOOLS / name))
    module = sys.modules[name] = importlib.util.module_from_spec(importlib.util.spec_from_loader(name, loader))
    loader.exec_module(module)
    return module


def judged(draw, not_drawn):
    """Tests of a tool: pairs of a name and what is said of it. `draw` draws lines, and raises `not_drawn` if it can't."""

    def outcome(text):
        """None if the text is drawn, or else why it isn't, or another error."""
        try:
            draw(iter(text.splitlines(keepends=True)))
        except not_drawn as why:
            return str(why)
        except Exception as error:
            return error
        return None

    found = [(text, says, outcome(text)) for text, says in odd()]
    wrong = [it for it in found if not str(it[2]).startswith(it[1])]
    yield "lines of other shapes", f"{len(wrong)} of {len(found)}, the first is {wrong[0]}" if wrong else None
    found = [(text, outcome(text)) for text in mutated(1, 1000)]
    wrong = [it for it in found if isinstance(it[1], Exception)]
    yield "random changes", f"{len(wrong)} of {len(found)}, the first is {wrong[0]!r}" if wrong else None
    drawn = sum(it is None for _, it in found)
    yield "random changes, some of which are drawn", None if 50 < drawn < 950 else f"{drawn} of {len(found)}"
