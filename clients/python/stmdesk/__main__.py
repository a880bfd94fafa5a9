"""`python -m stmdesk serve ..` is `python -m stmdesk.server ..`; with other words it is the program. pip installs it as the command
`stmdesk`, too."""

import os
import sys

from ._program import find_program, raise_stack_limit
from .server import main as serve

USAGE = """{0} serve [OPTIONS] SOCKET runs a server (docs/SERVER.md)
{0} WORDS runs the program that `Desk()` runs: run, explore, storm and check read standard input, --help says more"""


def run(words: list[str]) -> None:
    """Runs the program in place of this process."""
    raise_stack_limit()
    try:
        program = find_program()
        os.execv(program, [program, *words])
    except OSError as error:
        sys.exit(f"stmdesk: {error}")


def main() -> int | None:
    if not sys.argv[1:]:
        sys.exit(USAGE.format("stmdesk" if os.path.basename(sys.argv[0]) == "stmdesk" else "python -m stmdesk"))
    if sys.argv[1] != "serve":
        run(sys.argv[1:])
    return serve(sys.argv[2:])


if __name__ == "__main__":
    sys.exit(main())
