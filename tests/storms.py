"""Scripts of `storm` and of `explore` in which a line is faulty: nothing is printed, and the first such line is reported, with why."""

import transcript

X = "tvar x : Int = 0\n"
FAULTS = [  # a script, the number of its first faulty line, and the reason, with its place in the line's argument if it has one
    ("", 1, "no client"),
    ("\n", 2, "no client"),
    (X, 2, "no client"),
    (X + "\n-- x\n", 4, "no client"),
    (X + "\n-- x", 4, "no client"),
    ("\r", 2, "no client"),
    ("frob\n", 1, "Command"),
    ("client\nfrob\n", 2, "Command"),
    ("client\nCLIENT\n", 2, "Command"),
    ("client\n --\n", 2, "Command"),
    ("client\n\x00\n", 2, "Command"),
    ("client\n-- \xff\n\xff\n", 3, "NotAscii"),
    ("client\nstore\n", 2, "Command"),
    ("client\nsettle\n", 2, "Command"),
    ("client\ndrain\n", 2, "Command"),
    ("client\ntry return 1\n", 2, "Command"),
    ("store\nclient\n", 1, "Command"),
    # declarations
    (X + X + "client\n", 2, "Twice"),
    ("tvar\nclient\n", 1, "EndOfText"),
    ("tvar x : Int = True\nclient\n", 1, "TypeOfValue"),
    ("tvar x : TVar Int = y\nclient\n", 1, "Unknown 15"),
    ("client\n" + X, 2, "Late"),
    # sections
    ("client client\n", 1, "Argument"),
    ("client\n" * 65, 65, "ClientsFull"),
    ("submit retry\nclient\n", 1, "no client"),
    ("finish 1\nclient\n", 1, "no client"),
    ("cancel 1\nclient\n", 1, "no client"),
    (X + "expect x 0\nclient\n", 2, "no client"),
    # submissions
    ("client\nsubmit\n", 2, "EndOfText"),
    ("client\nsubmit return\n", 2, "EndOfText"),
    ("client\nsubmit return z\n", 2, "Unknown 7"),
    ("client\nsubmit return (1 + True)\n", 2, "Mismatch 12"),
    ("client\nsubmit retry\nsubmit readTVar x\n", 3, "Unknown 9"),
    ("client\nsubmit return 1 2\n", 2, "Unexpected 9"),
    ("client\nsubmit return #0\n", 2, "BadByte 7"),
    ("client\n\tsubmit  \t return z \n", 2, "Unknown 7"),
    ("client\nsubmit return 1 + 2\n", 2, "Unexpected 9"),
    ("client\nsubmit do { a <- return 1; readTVar a }\n", 2, "NotAVariable 29"),
    ("client\nsubmit writeTVar " + 33 * "a" + " 1\n", 2, "NameTooLong 10"),
    ("client\nsubmit return " + 65 * "(" + "1" + 65 * ")" + "\n", 2, "TooDeep"),
    ("client\nsubmit return (1" + 4_096 * "+1" + ")\n", 2, "TooLarge"),
    # numbers of submissions
    ("client\nfinish 1\nsubmit retry\n", 2, "Argument"),
    ("client\nsubmit retry\nfinish 0\n", 3, "Argument"),
    ("client\nsubmit retry\nfinish 2\n", 3, "Argument"),
    ("client\nsubmit retry\nfinish 1\nfinish\n", 4, "Argument"),
    ("client\nsubmit retry\nfinish 1 1\n", 3, "Argument"),
    ("client\nsubmit retry\nfinish one\n", 3, "Argument"),
    ("client\nsubmit retry\nfinish -1\n", 3, "Argument"),
    ("client\nsubmit retry\nfinish 4294967297\n", 3, "Argument"),
    ("client\nsubmit retry\nfinish 00000000001\n", 3, "Argument"),
    ("client\nsubmit retry\ncancel 0\n", 3, "Argument"),
    ("client\nsubmit retry\ncancel 2\n", 3, "Argument"),
    ("client\nsubmit retry\nclient\ncancel 1\n", 4, "Argument"),
    ("client\nsubmit retry\nsubmit retry\nclient\nsubmit retry\nfinish 2\n", 6, "Argument"),
    # what is expected
    ("client\nexpect x 1\n", 2, "Unknown 0"),
    (X + "client\nexpect\n", 3, "EndOfText"),
    (X + "client\nexpect x\n", 3, "EndOfText"),
    (X + "client\nexpect x True\n", 3, "TypeOfValue"),
    (X + "client\nexpect x ()\n", 3, "TypeOfValue"),
    (X + "client\nexpect x x\n", 3, "TypeOfValue"),
    (X + "client\nexpect x (1)\n", 3, "Unexpected 3"),
    (X + "client\nexpect x -1\n", 3, "Unexpected 2"),
    (X + "client\nexpect x 1 2\n", 3, "Unexpected 4"),
    (X + "client\nexpect x 9223372036854775808\n", 3, "BadNumber 2"),
    (X + "client\nexpect x : Int = 1\n", 3, "Unexpected 2"),
    (X + "client\nexpect 1 x\n", 3, "Unexpected 0"),
    (X + "tvar r : TVar Int = x\nclient\nexpect r r\n", 4, "TypeOfValue"),
    (X + "tvar r : TVar Int = x\nclient\nexpect r y\n", 4, "Unknown 2"),
    # lengths
    ("client\n" + " " * 65_537 + "\n", 2, "LineTooLong"),
    ("client\n" + "-" * 65_537 + "\nfrob\n", 2, "LineTooLong"),
    ("client\n" + " " * 65_537, 2, "LineTooLong"),
    ("client\n" + "\n" * 1_048_576, 1_048_577, "ScriptTooLong"),
    # the first of two
    (X + "client\nfinish 1\nfrob\n", 3, "Argument"),
]
RIGHT = [  # scripts of one client that does nothing
    "client",
    "client\r\n",
    "\n\r\n-- \xff\n\t client \t\r\n",
    "client\n" + " " * 65_536 + "\n" + "-" * 65_536 + "\r\n",
    "client\n" + "\n" * 1_048_575,
]
STORM_ONLY = [  # what only a storm's script may not have
    ("always return True\nclient\n", 1, "Command"),
    ("never retry\nclient\n", 1, "Command"),
    ("eventually return True\nclient\n", 1, "Command"),
    ("client\nassert return True\n", 2, "Command"),
    ("client\nsubmit retry\nthrows 1\n", 3, "Command"),
    (X + "client\nchoose x 1\n", 3, "Command"),
    ("client\nsubmit retry\nfinish 1\nrepeat\n", 4, "Command"),
    ("client 1\n", 1, "Argument"),
    ("client\nclient 2\n", 2, "Argument"),
]
EXPLORE_ONLY = [  # wrong invariants and checks of an exploration
    (X + "always\nclient\n", 2, "EndOfText"),
    (X + "never\nclient\n", 2, "EndOfText"),
    (X + "eventually\nclient\n", 2, "EndOfText"),
    (X + "eventually readTVar y\nclient\n", 2, "Unknown 9"),
    (X + "eventually writeTVar x True\nclient\n", 2, "Mismatch 12"),
    (X + "eventually readTVar x\nclient\n", 2, "Mismatch 0"),
    (X + "eventually return ()\nclient\n", 2, "Mismatch 0"),
    (X + "eventually do { writeTVar x 1; return 2 }\nclient\n", 2, "Mismatch 0"),
    (X + "always readTVar y\nclient\n", 2, "Unknown 9"),
    (X + "never writeTVar x True\nclient\n", 2, "Mismatch 12"),
    (X + "always return True True\nclient\n", 2, "Unexpected 12"),
    ("always readTVar x\n" + X + "client\n", 1, "Unknown 9"),
    (X + "Always return True\nclient\n", 2, "Command"),
    (X + "client\nalways return True\n", 3, "Late"),
    (X + "client\nnever retry\n", 3, "Late"),
    (X + "client\neventually return True\n", 3, "Late"),
    (X + "client\neventually return 1\n", 3, "Late"),
    (X + "eventually return True\n", 3, "no client"),
    (X + "always return True\nnever retry\n", 4, "no client"),
    (X + "always return True\ntvar x : Int = 1\nclient\n", 3, "Twice"),
    ("assert return True\nclient\n", 1, "no client"),
    ("client\nassert\n", 2, "EndOfText"),
    ("client\nassert return 1\n", 2, "Mismatch 0"),
    ("client\nassert return ()\n", 2, "Mismatch 0"),
    ("client\nassert newTVar True\n", 2, "Mismatch 0"),
    ("client\nassert return True True\n", 2, "Unexpected 12"),
    ("client\nASSERT return True\n", 2, "Command"),
    (X + "client\nassert readTVar x\n", 3, "Mismatch 0"),
    (X + "client\nassert return True\nassert readTVar y\n", 4, "Unknown 9"),
    (X + "choose x 1\nclient\n", 2, "no client"),
    (X + "client\nchoose\n", 3, "Argument"),
    (X + "client\nchoose x\n", 3, "Argument"),
    (X + "client\nchoose y 1\n", 3, "Argument"),
    (X + "client\nchoose x 1 True\n", 3, "Argument"),
    (X + "client\nchoose x ()\n", 3, "Argument"),
    (X + "client\nchoose x x\n", 3, "Argument"),
    (X + "client\nchoose x -1\n", 3, "Argument"),
    (X + "client\nchoose x (1)\n", 3, "Argument"),
    (X + "client\nchoose x 1, 2\n", 3, "Argument"),
    (X + "client\nchoose x 1 2 1\n", 3, "Argument"),
    (X + "client\nchoose x 1 01\n", 3, "Argument"),
    (X + "client\nchoose x 1 9223372036854775808\n", 3, "Argument"),
    (X + "client\nchoose x" + "".join(f" {it}" for it in range(17)) + "\n", 3, "Argument"),
    (X + "tvar r : TVar Int = x\nclient\nchoose r x r\n", 4, "Argument"),
    (X + "client\nCHOOSE x 1\n", 3, "Command"),
    (X + "client\nchoose x 1\nchoose x\n", 4, "Argument"),
    ("throws 1\nclient\n", 1, "no client"),
    ("client\nthrows 1\nsubmit retry\n", 2, "Argument"),
    ("client\nsubmit retry\nthrows\n", 3, "Argument"),
    ("client\nsubmit retry\nthrows 0\n", 3, "Argument"),
    ("client\nsubmit retry\nthrows 2\n", 3, "Argument"),
    ("client\nsubmit retry\nthrows 1 1\n", 3, "Argument"),
    ("client\nsubmit retry\nthrows one\n", 3, "Argument"),
    ("client\nsubmit retry\nthrows 4294967297\n", 3, "Argument"),
    ("client\nsubmit retry\nclient\nthrows 1\n", 4, "Argument"),
    # clients that begin again: their sections have a step, and the line is the last one
    ("repeat\nclient\n", 1, "no client"),
    ("client\nREPEAT\n", 2, "Command"),
    ("client\nrepeat\n", 2, "Argument"),
    ("client\nsubmit retry\nrepeat\n", 3, "Argument"),
    ("client\nsubmit retry\nthrows 1\nrepeat\n", 4, "Argument"),
    ("client\nsubmit retry\ncancel 1\nrepeat\n", 4, "Argument"),
    ("client\nsubmit retry\ncancel 1\nfinish 1\nrepeat\n", 5, "Argument"),
    ("client\nsubmit retry\nsubmit retry\ncancel 2\nfinish 2\ncancel 1\nrepeat\n", 7, "Argument"),
    ("client\nassert return True\nclient\nrepeat\n", 4, "Argument"),
    ("client\nassert return True\nrepeat 2\n", 3, "Argument"),
    ("client\nassert return True\nrepeat\nclient\nrepeat\n", 5, "Argument"),
    ("client\nsubmit retry\nfinish 1\nrepeat\nrepeat\n", 5, "Late"),
    ("client\nsubmit retry\nfinish 1\nrepeat\nrepeat 2\n", 5, "Late"),
    ("client\nsubmit retry\nfinish 1\nrepeat\nsubmit retry\n", 5, "Late"),
    ("client\nsubmit retry\nfinish 1\nrepeat\nsubmit return z\n", 5, "Late"),
    ("client\nsubmit retry\nfinish 1\nrepeat\nfinish 1\n", 5, "Late"),
    ("client\nsubmit retry\nfinish 1\nrepeat\ncancel 1\n", 5, "Late"),
    ("client\nsubmit retry\nfinish 1\nrepeat\nthrows 1\n", 5, "Late"),
    ("client\nsubmit retry\nfinish 1\nrepeat\nassert return 1\n", 5, "Late"),
    ("client\nsubmit retry\nfinish 1\nrepeat\nalways return True\n", 5, "Late"),
    ("client\nsubmit retry\nfinish 1\nrepeat\neventually return True\n", 5, "Late"),
    ("client\nsubmit retry\nfinish 1\nrepeat\ntvar x : Int = 0\n", 5, "Late"),
    ("client\nsubmit retry\nfinish 1\nrepeat\nfrob\n", 5, "Command"),
    ("client\nsubmit retry\nfinish 1\nrepeat\n-- the next one\n\nclient 65\n", 7, "Argument"),
    (X + "client\nexpect x 0\nrepeat\nexpect x 0\n", 5, "Late"),
    (X + "client\nchoose x 1\nrepeat\nchoose x 1\n", 5, "Late"),
    # equal clients, of which there are 1 to 64, with the others
    ("client 0\n", 1, "Argument"),
    ("client 65\n", 1, "Argument"),
    ("client -1\n", 1, "Argument"),
    ("client two\n", 1, "Argument"),
    ("client 2 2\n", 1, "Argument"),
    ("client 4294967297\n", 1, "Argument"),
    ("client 00000000002\n", 1, "Argument"),
    ("client 64\nclient\n", 2, "ClientsFull"),
    ("client\nclient 64\n", 2, "ClientsFull"),
    ("client 32\n-- the others\nclient 33\n", 3, "ClientsFull"),
    ("client\n" * 63 + "client 2\n", 64, "ClientsFull"),
    ("client 62\nclient 2\nclient\n", 3, "ClientsFull"),
    ("client 64\nclient 65\n", 2, "Argument"),
    ("client 64\nclient 0\n", 2, "Argument"),
    ("submit retry\nclient 2\n", 1, "no client"),
    ("client 2\n" + X, 2, "Late"),
    ("client 2\nalways return True\n", 2, "Late"),
    ("client 2\nrepeat\n", 2, "Argument"),
    ("client 2\nsubmit retry\nfinish 2\n", 3, "Argument"),
    ("client 2\nsubmit retry\nthrows 2\n", 3, "Argument"),
    ("client 2\nsubmit retry\nfinish 1\nrepeat\nfinish 1\n", 5, "Late"),
    ("client 2\nassert return True\nrepeat\nclient\nrepeat\n", 5, "Argument"),
    ("client 2\nassert return True\nrepeat\nclient\nsubmit retry\nfinish 2\n", 6, "Argument"),
]
RIGHT_TO_EXPLORE = [  # scripts of some clients that do nothing
    "client 1",
    "client 64\r\n",
    "client\n" * 62 + "client 2\n",
    "client 2\n" * 32,
    "\tclient \t 0000000003 \t\r\nclient\n",
]
NOTHING = {
    "storm": b"client 0 submitted 0 finished 0 cancelled 0 refused 0 missed 0\nevents 0\nreplay ok\n",
    "explore": b"states 1 steps 0\nended 1\ncells 0\nright\n",
}


def named(word, name, script):
    case = transcript.Case(f"{word}: {name}", [word])
    case.text = script.encode(transcript.ENCODING)
    return case


def cases():
    for word, faults in (("storm", FAULTS + STORM_ONLY), ("explore", FAULTS + EXPLORE_ONLY)):
        for script, line, reason in faults:
            case = named(word, f"line {line} of {script[:60]!r}", script)
            case.status, case.errors = 1, f"stmdesk: script line {line}\nstmdesk: script line {line}: {reason}\n".encode()
            yield case
        for script in RIGHT + RIGHT_TO_EXPLORE * (word == "explore"):
            case = named(word, f"{script[:60]!r}", script)
            case.printed = NOTHING[word]
            yield case


def judged(program):
    for case in cases():
        yield case.name, transcript.judged(program, case)
