"""The answers of `check`: to a history whole, cut and with one change each, and to the histories of the cases."""

import json
import pathlib

import transcript

HERE = pathlib.Path(__file__).resolve().parent
HEADER = b'{"format":'  # how the text of a history begins
EXAMPLE = "history/the_example_of_a_history.case"  # it stands in docs/HISTORY.md; its variable has line 2, its events lines 3 to 8

SAME = "expected SAME"  # the line that stands in the example is expected
UNREADABLE = "unreadable"
RETRY = '{"format":3,"vars":0}\n{"block":"retry","client":0,"event":"submitted","ticket":1}\n'
RETRIED = '{"client":0,"event":"installed","ticket":1,"verdict":"blocks"}\n'
RESULT = 'expected {"client":0,"event":"installed","ticket":1,"verdict":{"commits":{"news":[],"result":%d,"writes":[]}}}'

# A history from a checkpoint, whose events are the lines from the fifth on.
CHECKPOINT = """\
{"format":4,"next":3,"vars":1,"waiting":2}
{"count":0,"init":1,"name":"x","type":"Int"}
{"block":"readTVar x","reads":[[0,1]],"stale":false,"ticket":1,"verdict":{"commits":{"news":[],"result":1,"writes":[]}}}
{"block":"writeTVar x 5","ticket":2}
{"client":0,"event":"installed","ticket":2,"verdict":{"commits":{"news":[],"result":null,"writes":[[0,5]]}}}
{"client":0,"event":"finished","first_new":1,"stale":[1],"ticket":2,"verdict":{"commits":{"news":[],"result":null,"writes":[[0,5]]}}}
{"client":0,"event":"cancelled","ticket":1}
"""

# Of the example: the line, what stands there, what takes its place (all of it, where nothing is named), the answer, and if it isn't legal
# the explanation.
CHANGES = [
    (1, '"format":3', '"format":0', "bad header", "line 1 unreadable"),
    (1, '"format":3', '"format":1', "legal 6 events"),
    (1, '"format":3', '"format":2', "legal 6 events"),
    (1, '"format":3', '"format":03', "bad header", "line 1 unreadable"),
    (1, '"format":3', '"format":4', "bad header", "line 1 unreadable"),
    (1, '"format":3', '"format":5', "legal 6 events"),
    (1, '"format":3', '"format":6', "bad header", "line 1 unreadable"),
    (1, '"format":3', '"format":5,"next":1', "bad header", "line 1 unreadable"),
    (1, '"format":3', '"format":"3"', "bad header", "line 1 unreadable"),
    (1, '"format":3,', "", "bad header", "line 1 unreadable"),
    (1, '"vars":1', '"vars":2', "bad header", "line 3 unreadable"),
    (1, '"vars":1', '"vars": 1', "bad header", "line 1 " + SAME),
    (1, '"vars":1', '"vars":01', "bad header", "line 1 unreadable"),
    (1, '"vars":1', '"vars":-0', "bad header", "line 1 unreadable"),
    (1, '"vars":1', '"vars":1000001', "bad header", "line 1 unreadable"),
    (1, '"vars":1', '"vars":0', "bad line 2", UNREADABLE),
    (1, '"vars":1', '"vars":1,"vars":1', "bad header", "line 1 " + SAME),
    (1, None, '{"vars":1,"format":3}', "bad header", "line 1 " + SAME),
    (2, '"Int"', '"Bool"', "bad header", "line 2 unreadable"),
    (2, '"Int"', '"int"', "bad header", "line 2 unreadable"),
    (2, '"Int"', '"Int "', "bad header", "line 2 " + SAME),
    (2, '"x"', '"X"', "bad header", "line 2 unreadable"),
    (2, '"x"', '"do"', "bad header", "line 2 unreadable"),
    (2, '"init":1', '"init":{"old":0}', "bad header", "line 2 unreadable"),
    (2, '"init":1', '"init":9223372036854775808', "bad header", "line 2 unreadable"),
    (2, '"init":1', '"init":9223372036854775807', "not legal 5", RESULT % 9223372036854775807),
    (2, None, "", "bad header", "line 2 unreadable"),
    (3, "readTVar x", "readTVar z", "bad line 3", UNREADABLE),
    (3, "readTVar x", "readTVar", "bad line 3", UNREADABLE),
    (3, "readTVar x", "readTVar 1", "bad line 3", UNREADABLE),
    (3, "readTVar x", "readTVar\\tx\\n", "legal 6 events"),
    (3, "readTVar x", "readTVar\\u0009x", "bad line 3", 'expected {"block":"readTVar\\tx","client":0,"event":"submitted","ticket":1}'),
    (3, "readTVar x", "readTVar\\u000bx", "bad line 3", UNREADABLE),
    (3, "readTVar x", "catch (throw 4) e (return e)", "not legal 5", RESULT % 4),
    (3, "readTVar x", "catch (readTVar x) e (return e)", "legal 6 events"),
    (3, '"client":0', '"client":127', "legal 6 events"),
    (3, '"client":0', '"client":128', "bad line 3", UNREADABLE),
    (3, '"client":0', '"client":-1', "bad line 3", UNREADABLE),
    (3, '"client":0', '"client":0.0', "bad line 3", UNREADABLE),
    (3, '"ticket":1', '"ticket":0', "not legal 3", SAME),
    (3, '"ticket":1', '"ticket":2', "not legal 3", SAME),
    (3, '"ticket":1', '"ticket":4294967295', "not legal 3", SAME),
    (3, '"ticket":1', '"ticket":4294967296', "bad line 3", UNREADABLE),
    (3, '"submitted"', '"Submitted"', "bad line 3", UNREADABLE),
    (3, '"submitted"', '"cancelled"', "bad line 3", "refused NoTicket"),
    (3, None, "[" * 200, "bad line 3", UNREADABLE),
    (3, None, "", "bad line 3", UNREADABLE),
    (3, None, "null", "bad line 3", UNREADABLE),
    (3, None, "\xff", "bad line 3", UNREADABLE),
    (4, ":", ": ", "bad line 4", SAME),
    (4, "}", "}\r", "bad line 4", SAME),
    (4, '"ticket":2', '"ticket":3', "not legal 4", SAME),
    (5, '"result":1', '"result":2', "not legal 5", SAME),
    (5, '"result":1', '"result":true', "not legal 5", SAME),
    (5, '"result":1', '"result":{"new":0}', "not legal 5", SAME),
    (5, '"result":1', '"result":"1"', "bad line 5", UNREADABLE),
    (5, '"writes":[]', '"writes":[[0,1]]', "not legal 5", SAME),
    (5, '"news":[]', '"news":[["Int",1]]', "not legal 5", SAME),
    (5, '"news":[]', '"news":[["Integer",1]]', "bad line 5", UNREADABLE),
    (5, '{"commits":{"news":[],"result":1,"writes":[]}}', '"blocks"', "not legal 5", SAME),
    (5, '{"commits":{"news":[],"result":1,"writes":[]}}', '{"throws":1}', "not legal 5", SAME),
    (5, '{"commits":{"news":[],"result":1,"writes":[]}}', '"commits"', "bad line 5", SAME),
    (6, "[[0,5]]", "[[0,5],[0,5]]", "not legal 6", SAME),
    (6, "[[0,5]]", "[[1,5]]", "not legal 6", SAME),
    (6, "[[0,5]]", "[[0,5,0]]", "bad line 6", SAME),
    (6, '"ticket":2', '"ticket":1', "not legal 6", "refused Already"),
    (7, '"stale":[1]', '"stale":[]', "not legal 7", SAME),
    (7, '"stale":[1]', '"stale":[1,1]', "not legal 7", SAME),
    (7, '"stale":[1]', '"stale":[1,2]', "not legal 7", SAME),
    (7, '"first_new":1', '"first_new":2', "not legal 7", SAME),
    (7, None, '{"client":0,"event":"cancelled","ticket":2}', "legal 6 events"),
    (8, '"ticket":1', '"ticket":2', "not legal 8", "refused NoTicket"),
    (8, '"ticket":1', '"ticket":3', "not legal 8", "refused NoTicket"),
    (8, '"client":0', '"client":1', "legal 6 events"),
    (8, '"client":0', '"client":128', "bad line 8", UNREADABLE),
]


def example():
    case = transcript.read(HERE / "cases" / EXAMPLE)
    return case.steps[-1][1].decode(transcript.ENCODING).splitlines(keepends=True)


def cuts(lines, before):
    """A history cut after each line, within it and before its line feed. `before` is the number of lines before the events."""
    for number, line in enumerate(lines, 1):
        front = "".join(lines[: number - 1])
        place = f"line {number} " if number <= before else ""
        if number < before:
            yield f"cut after line {number}", front + line, "bad header", f"line {number + 1} unreadable"
        else:
            yield f"cut after line {number}", front + line, f"legal {number - before} events", ""
        inside = "bad header" if number <= before else f"bad line {number}"
        for length in (1, len(line) // 2):
            yield f"cut after {length} bytes of line {number}", front + line[:length], inside, place + UNREADABLE
        yield f"cut before the line feed of line {number}", front + line[:-1], inside, f"{place}expected {line[:-1]}"


def texts():
    """What is to be checked, with its name, its answer and its explanation, which is empty if it is legal."""
    lines = example()
    yield "nothing", "", "bad header", "line 1 unreadable"
    yield from cuts(lines, 2)
    for name, *cut in cuts(CHECKPOINT.splitlines(keepends=True), 4):
        yield f"from a checkpoint, {name}", *cut
    for number, old, new, answer, *reason in CHANGES:
        line = lines[number - 1]
        changed = new + "\n" if old is None else line.replace(old, new, 1)
        explanation = "".join(reason).replace("SAME", line[:-1])
        yield f"line {number} as {changed[:60]!r}", "".join(lines[: number - 1] + [changed] + lines[number:]), answer, explanation
    # A write of the value that is there makes nobody stale, from format 3 on.
    quiet = "".join(lines[:-1]).replace("x 5", "x 1").replace("[0,5]", "[0,1]")
    finish = quiet.splitlines()[6]
    nobody = finish.replace('"stale":[1]', '"stale":[]')
    for format in (1, 2, 3):
        text = quiet.replace('"format":3', f'"format":{format}')
        both = [(text, finish), (text.replace(finish, nobody), nobody)]
        right = both.pop(format == 3)
        yield f"a right finish that changes no value in format {format}", right[0], "legal 5 events", ""
        yield f"and a wrong one in format {format}", both[0][0], "not legal 7", f"expected {right[1]}"
    # A `catch` came with format 2.
    for nested in ("catch (readTVar x) e (return e)", "do { return 1; catch (readTVar x) e (return e) }"):
        caught = "".join(lines).replace("readTVar x", nested)
        for format, answer in ((1, "bad line 3"), (2, "legal 6 events"), (3, "legal 6 events")):
            reason = UNREADABLE if format == 1 else ""
            yield f"{nested!r} in format {format}", caught.replace('"format":3', f'"format":{format}'), answer, reason
    yield "twice", "".join(lines) * 2, "bad line 9", UNREADABLE
    # Each refusal.
    new, stale = "".join(lines[:4]), "".join(lines[:7])
    for name, text, last, reason in (
        ("a new block finishes", new, lines[6], "refused NotEvaluated"),
        ("a stale block finishes", stale, lines[6].replace('"ticket":2', '"ticket":1'), "refused Stale"),
        ("a block that blocks finishes", RETRY + RETRIED, RETRIED.replace("installed", "finished").replace('"ticket"', '"first_new":0,"stale":[],"ticket"'), "refused Blocks"),
        ("nothing is delivered to", stale, lines[5], "refused Gone"),
    ):
        number = text.count("\n") + 1
        yield name, text + last, f"not legal {number}", reason


def asked(text, *answer, words=("check",)):
    """The case in which this text is checked and these lines are printed."""
    status = 0 if answer[0].startswith("legal") else 3
    case = transcript.Case("check", words, printed="".join(f"{it}\n" for it in answer).encode(transcript.ENCODING), status=status)
    case.text = text
    return case


def judge_history(program, case):
    """Whether the history that a run prints last is legal, with as many events as it has lines."""
    asking = transcript.Case(case.name, case.words)
    asking.text = case.text + (b"" if case.text.endswith(b"\n") else b"\n") + b"history\n"
    printed = transcript.run(program, asking).stdout
    begun = printed.rfind(HEADER)
    if begun < 0:
        return f"no history is printed, but {printed[-200:]!r}"
    text = printed[begun:]
    header = json.loads(text.splitlines()[0])
    events = text.count(b"\n") - 1 - header["vars"] - header.get("waiting", 0)
    return transcript.judged(program, asked(text, f"legal {events} events"))


def judged(program, cases):
    for name, text, answer, reason in texts():
        encoded = text.encode(transcript.ENCODING)
        yield f"check: {name}", transcript.judged(program, asked(encoded, answer))
        why = asked(encoded, answer, *[reason] * bool(reason), words=("check", "--why"))
        yield f"check --why: {name}", transcript.judged(program, why)
    for case in cases:
        if case.is_small_run():
            yield f"check: the history of {case.name}", judge_history(program, case)
