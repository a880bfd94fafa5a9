"""The words of the command line: the options, those of help, and those that are refused; nothing is read for these two."""

import pathlib
import re

import tours
import transcript

ROOT = pathlib.Path(__file__).resolve().parent.parent
HELP_TEXTS = ROOT / "docs" / "help"
HELP_NAMES = ("stmdesk", "run", "storm", "explore", "check")
VERSION_FILE = ROOT / "crates" / "stm_command_line" / "src" / "version.rt"

ARGUMENTS = {  # of each command of the console
    **{"tvar": "NAME : TYPE = INIT", "declare": "NAME : TYPE = INIT", "try": "BLOCK", "looks": "BLOCK", "submit": "BLOCK"},
    **{"atomically": "BLOCK", "take": "N", "deliver": "J", "handback": "T", "eval": "", "finish": "T", "cancel": "T", "show": ""},
    **{"reads": "T", "store": "", "settle": "", "drain": "", "history": "", "ready": "", "events": "N", "why": "T", "checkpoint": ""},
    **{"label": "T", "block": "T", "board": ""},
}
COMMANDS = [rf"  {word} ?{argument}( .*)?" for word, argument in ARGUMENTS.items()]
HELP = [r"Usage: stmdesk \[COMMAND\]", r"Commands:", *(rf"  {word} +.*" for word in ("run", "storm", "explore", "check", "help"))]
HELP += [r"  -h, --help +.*", r"  -V, --version +.*"]
EXAMPLE_IN_HELP = rf" {{4,}}(({'|'.join(ARGUMENTS)})( .*)?)"
REFUSED_ALONE = ["NotOut", "NotEvaluated", "Stale", "Blocks", "NoTicket", "NoJob", "Already"]  # what an example may be
HELP_OF_RUN = [r"Usage: stmdesk run .*", r" +--workers .*", r" +--levels .*", r" +--max-events .*", r" +--journal .*", r" +--sync .*"]
HELP_OF_RUN += [r" +--checkpoint-every .*", *COMMANDS]
HELP_OF_STORM = [r"Usage: stmdesk storm .*", r" +--workers .*", r" +--levels .*", r" +--max-events .*"]
HELP_OF_STORM += [rf"  {word}( .*)?" for word in ("tvar NAME", "client", "submit BLOCK", "finish K", "cancel K", "expect NAME VALUE")]
HELP_OF_EXPLORE = [r"Usage: stmdesk explore .*", r" +--max-states .*", r" +--history .*", r" +--all .*", r" +--allow-throws .*", r" +--trace .*", r" +--progress .*"]
HELP_OF_EXPLORE += [rf"  {word}( .*)?" for word in ("tvar NAME", "client", "submit BLOCK", "finish K", "cancel K", "expect NAME VALUE")]
HELP_OF_EXPLORE += [rf"  {word} .*" for word in ("always BLOCK", "never BLOCK", "assert BLOCK", "choose NAME VALUE ..", "throws K")]
HELP_OF_CHECK = [r"Usage: stmdesk check \[OPTIONS\]", r" +--why .*", r".*histor.*"]
FORMS_OF_HELP = [["--help"], ["-h"], ["help"]]
FORMS_OF_HELP_OF_RUN = [["run", "--help"], ["run", "-h"], ["help", "run"]]
FORMS_OF_HELP_OF_STORM = [["storm", "--help"], ["storm", "-h"], ["help", "storm"]]
FORMS_OF_HELP_OF_EXPLORE = [["explore", "--help"], ["explore", "-h"], ["help", "explore"]]
FORMS_OF_HELP_OF_CHECK = [["check", "--help"], ["check", "-h"], ["help", "check"]]
ALL_FORMS_OF_HELP = [FORMS_OF_HELP, FORMS_OF_HELP_OF_RUN, FORMS_OF_HELP_OF_STORM, FORMS_OF_HELP_OF_EXPLORE, FORMS_OF_HELP_OF_CHECK]
FORMS_OF_VERSION = [["--version"], ["-V"]]
RUN = [[], ["run"], ["run", "--"], ["--"]]
RUNS = ["run", "storm"]  # the commands that take the options
OPTIONS = {"--workers": (1, 64, 2), "--levels": (0, 8, 0), "--max-events": (0, 1048576, 1048576)}  # least, most, default
NO_NUMBERS = ["", "x", "1x", "1.0", "-1", "0x1", "4294967296", "18446744073709551616", "99999999999999999999", b"\xff"]
REFUSED = [
    *([word] for word in ("frob", "", "--workers", "-x", "RUN", "run ", "Check", "Storm", "1", b"\xff")),
    *([word, *rest] for word in RUNS for rest in (["frob"], ["run"], ["check"], ["storm"], ["1"], [""], ["-w", "2"])),
    *([word, *rest] for word in RUNS for rest in (["--worker", "2"], ["--WORKERS", "2"], ["-workers", "2"])),
    *([word, *rest] for word in RUNS for rest in (["--", "--workers", "2"],)),
    *([word, "--workers", *rest] for word in RUNS for rest in ([], ["--levels", "1"], ["2", "2"], ["2", "--", "3"])),
    *(["check", *rest] for rest in (["frob"], ["check"], ["run"], ["storm"], ["a_file"], [""])),
    *([option, str(default)] for option, (_, _, default) in OPTIONS.items()),
    *([f"{option}={default}"] for option, (_, _, default) in OPTIONS.items()),
    *([option, str(default), word] for word in RUNS for option, (_, _, default) in OPTIONS.items()),
    *(["check", option, str(default)] for option, (_, _, default) in OPTIONS.items()),
    *([word, option, str(said), option, str(said)] for word in RUNS for option, (_, _, said) in OPTIONS.items()),
    *([word, f"{option}={said}", option, str(said)] for word in RUNS for option, (_, _, said) in OPTIONS.items()),
    *([word, option, str(least - 1)] for word in RUNS for option, (least, _, _) in OPTIONS.items()),
    *([word, option, str(most + 1)] for word in RUNS for option, (_, most, _) in OPTIONS.items()),
    *([word, f"{option}={most + 1}"] for word in RUNS for option, (_, most, _) in OPTIONS.items()),
    *([word, option, number] for word in RUNS for option in OPTIONS for number in NO_NUMBERS),
    *(["explore", *rest] for rest in (["frob"], ["run"], ["explore"], ["a_file"], [""], ["--workers", "2"], ["--max-events", "1"])),
    *(["explore", "--max-states", number] for number in ("0", *NO_NUMBERS)),
    *(["explore", *rest] for rest in (["--max-states"], ["--max-states=0"], ["--max-states", "2", "--max-states", "2"])),
    *(["explore", *rest] for rest in (["--history=true"], ["--history", "--history"], ["--history", "1"], ["--", "--history"])),
    *(["explore", *rest] for rest in (["--all=true"], ["--all", "--all"], ["--all", "1"], ["--", "--all"], ["--al"], ["--reduce"])),
    *(["explore", *rest] for rest in (["--allow-throws=true"], ["--allow-throws", "--allow-throws"], ["--allow-throws", "1"], ["--allow"])),
    *(["explore", *rest] for rest in (["--trace=true"], ["--trace", "--trace"], ["--trace", "1"])),
    *([option] for option in ("--max-states", "--history", "--all", "--allow-throws", "--trace", "--progress", "--why")),
    *(["check", *rest] for rest in (["--why=true"], ["--why", "--why"], ["--why", "1"], ["--", "--why"], ["--wh"])),
    *([word, "--why"] for word in ("run", "storm", "explore")),
    *([word, option] for word in ("run", "storm", "check") for option in ("--history", "--all", "--allow-throws", "--trace", "--progress")),
    *(["run", *rest] for rest in (["--journal"], ["--journal="], ["--journal", ""], ["--journal", "a", "--journal", "a"], ["--journal", b"\xff"])),
    *(["run", *rest] for rest in (["--sync"], ["--sync", "full"], ["--sync=none"], ["--journal", "a", "--sync"], ["--", "--journal", "a"])),
    *(["run", "--journal", "a", "--sync", mode] for mode in ("", "Full", "full ", "never", "0")),
    *(["run", "--journal", "a", "--sync", mode, "--sync", mode] for mode in ("full", "sector", "append", "none")),
    *([*word, *rest] for word in ([], ["storm"], ["explore"], ["check"]) for rest in (["--journal", "a"], ["--journal=a"], ["--sync", "full"], ["--checkpoint-every", "9"])),
    *(["storm", *rest] for rest in (["--journal", "a", "--sync", "full"], ["--sync"], ["--journal"], ["--checkpoint-every"])),
    *(["run", *rest] for rest in (["--checkpoint-every", "9"], ["--checkpoint-every=9"], ["--journal", "a", "--checkpoint-every"])),
    *(["run", "--journal", "a", "--checkpoint-every", number] for number in ("0", "1048577", *NO_NUMBERS)),
    ["run", "--journal", "a", "--checkpoint-every", "9", "--checkpoint-every", "9"],
]
ACCEPTED = [  # behind a command that takes the options
    *([option, str(number)] for option, ends in OPTIONS.items() for number in ends),
    *([f"{option}={number}"] for option, ends in OPTIONS.items() for number in ends),
    *(["--levels", str(number)] for number in range(1, 8)),
    ["--workers", "64", "--levels", "8", "--max-events", "0"],
    ["--max-events=1048576", "--levels", "3", "--workers=1"],
    ["--workers", "3", "--"],
]
VARIED = [["--workers", "1", "--levels", "8"], ["--workers", "64", "--levels", "0"]]
INPUT = b"tvar x : Int = 1\nstore\n"
ANSWERS = b"tvar #0 x\n#0 x : Int = 1 count 0\ncells 1\n"
NO_STEP = b"tvar x : Int = 1\nclient\n"
EXPLORED = b"states 1 steps 0\nended 1\n#0 x : Int = 1\ncells 1\nright\n"
NO_FAULT = b"stmdesk: right: there is no history of a fault\n"
EXPLORE_ACCEPTED = [  # behind `explore`
    [],
    ["--"],
    *(["--max-states", number] for number in ("1", "+1", "0001", "1000000", "4294967295")),
    ["--max-states=1"],
    ["--all"],
    ["--all", "--max-states", "1"],
    ["--allow-throws"],
    ["--allow-throws", "--all", "--max-states", "1"],
    ["--trace"],
    ["--trace", "--allow-throws", "--max-states", "1"],
    ["--progress"],
    ["--progress", "--all", "--max-states", "1"],
]
EMPTY = b'{"format":3,"vars":0}\n'
SCRIPT = b"tvar x : Int = 1\nclient\nexpect x 1\n"  # of a storm without events, so that it takes any number of them
COUNTS = b"client 0 submitted 0 finished 0 cancelled 0 refused 0 missed 0\nevents 0\nreplay ok\n"


def of(words):
    """These words, with input to read; what is printed is left open."""
    case = transcript.Case(f"words {words}", words)
    case.text = INPUT
    return case


def lacks(patterns, text):
    """The first pattern that no line of the text is."""
    lines = text.decode().splitlines()
    return next((f"no line {pattern!r}" for pattern in patterns if not any(re.fullmatch(pattern, x) for x in lines)), None)


def judge_help(program, words, patterns):
    done = transcript.run(program, of(words))
    if (done.returncode, done.stderr, done.taken) != (0, b"", 0):
        return f"status {done.returncode}, {done.stderr!r}, {done.taken} bytes read"
    return lacks(patterns, done.stdout)


def judge_examples(program, words):
    """The help has an example of each command, and the program knows what each of them asks for."""
    printed = transcript.run(program, of(words)).stdout.decode()
    examples = [found for found in (re.fullmatch(EXAMPLE_IN_HELP, line) for line in printed.splitlines()) if found]
    missing = set(ARGUMENTS) - {found[2] for found in examples}
    if missing:
        return f"no example of {missing}"
    case = transcript.Case(f"words {words}")
    case.text = "".join(found[1] + "\n" for found in examples).encode()
    answers = transcript.run(program, case).stdout.decode().splitlines()
    refused = [answer for answer in answers if answer.startswith("refused") and answer[8:] not in REFUSED_ALONE]
    return f"an example is {refused[0]}" if refused else None


def judge_sessions(program, words):
    """The commands behind `$` in the help print what stands below them."""
    sessions, is_inside = [], False
    for line in transcript.run(program, of(words)).stdout.decode().splitlines():
        if line.startswith("  $ "):
            sessions.append((re.sub(r"\bstmdesk\b", "./stmdesk", line[4:]), []))
            is_inside = True
        elif is_inside and line.startswith("  "):
            sessions[-1][1].append(line[2:])
        else:
            is_inside = False
    return next((said for said in (tours.judge(program, *session) for session in sessions) if said), None)


def judge_kept(program, words, name):
    """The text that the launcher prints while nothing is built is the program's."""
    printed = transcript.run(program, of(words)).stdout.decode()
    is_kept = printed == (HELP_TEXTS / f"{name}.txt").read_text()
    return None if is_kept else f"docs/help/{name}.txt isn't what the program prints: tools/help --write, once that is right"


def judge_version(program, words):
    version = re.search(r'pub const VERSION: &str = "(.*)";', VERSION_FILE.read_text())[1]
    done = transcript.run(program, of(words))
    if (done.returncode, done.stdout, done.stderr, done.taken) != (0, f"stmdesk {version}\n".encode(), b"", 0):
        return f"status {done.returncode}, {done.stdout!r}, {done.stderr!r}, {done.taken} bytes read"
    return None


def judge_refused(program, words):
    done = transcript.run(program, of(words))
    if (done.returncode, done.stdout, done.taken) != (2, b"", 0) or not done.stderr.startswith(b"error: "):
        return f"status {done.returncode}, {done.stdout!r}, {done.stderr!r}, {done.taken} bytes read"
    return None


def judge_run(program, words, text, printed, errors=b""):
    case = of(words)
    case.text, case.printed, case.errors = text, printed, errors
    return transcript.judged(program, case)


def judge_varied(program, case, options):
    """Neither workers nor levels change an answer."""
    varied = transcript.Case(case.name, (case.words or ["run"]) + options, printed=case.printed)
    varied.text, varied.events_are_open = case.text, case.events_are_open
    return transcript.judged(program, varied)


def judged(program, cases):
    for words in RUN + [["run", *options] for options in ACCEPTED]:
        yield f"words {words}", judge_run(program, words, INPUT, ANSWERS)
    for words in [["storm", *options] for options in [[], ["--"], *ACCEPTED]]:
        yield f"words {words}", judge_run(program, words, SCRIPT, COUNTS)
    for words in [["explore", *options] for options in EXPLORE_ACCEPTED]:
        yield f"words {words}", judge_run(program, words, NO_STEP, EXPLORED)
    for words in [["explore", "--history"], ["explore", "--max-states", "1", "--history"], ["explore", "--all", "--allow-throws", "--history"]]:
        yield f"words {words}", judge_run(program, words, NO_STEP, b"", NO_FAULT)
    for words, text, printed in ((["check", "--why"], b"", b"bad header\nline 1 unreadable\n"), (["check", "--why", "--"], EMPTY, b"legal 0 events\n")):
        case = transcript.Case(f"words {words}", words, printed=printed, status=0 if text else 3)
        case.text = text
        yield f"words {words}", transcript.judged(program, case)
    for words in REFUSED:
        yield f"words {words}", judge_refused(program, words)
    for forms, patterns in (
        (FORMS_OF_HELP, HELP),
        (FORMS_OF_HELP_OF_RUN, HELP_OF_RUN),
        (FORMS_OF_HELP_OF_STORM, HELP_OF_STORM),
        (FORMS_OF_HELP_OF_EXPLORE, HELP_OF_EXPLORE),
        (FORMS_OF_HELP_OF_CHECK, HELP_OF_CHECK),
    ):
        for words in forms:
            yield f"words {words}", judge_help(program, words, patterns)
    for words, name in zip((forms[0] for forms in ALL_FORMS_OF_HELP), HELP_NAMES):
        yield f"words {words}, the launcher's text", judge_kept(program, words, name)
    for words in FORMS_OF_VERSION:
        yield f"words {words}", judge_version(program, words)
    yield f"words {FORMS_OF_HELP_OF_RUN[0]}, the examples", judge_examples(program, FORMS_OF_HELP_OF_RUN[0])
    for forms in ALL_FORMS_OF_HELP:
        yield f"words {forms[0]}, what it says to run", judge_sessions(program, forms[0])
    for case in cases:
        has_options = any(word in case.words for options in VARIED for word in options[::2])
        if (case.is_small_run() and not has_options) or (case.words == ["storm"] and case.status == 0):
            for options in VARIED:
                yield f"{case.name} with {' '.join(options)}", judge_varied(program, case, options)
