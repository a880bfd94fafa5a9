"""Reads the functions, types, clauses and edits of the crates from their sources."""

import re
from dataclasses import dataclass, field
from pathlib import Path

ITEM = re.compile(
    r"(?m)^(?:(?P<impl>(?:unsafe )?impl\b.*)|pub (?:struct|enum|(?P<trait>trait)|type) (?P<kind>\w+)"
    r"|(?P<at>\s*)(?P<pub>pub )?(?:pub\([a-z]+\) )?(?:unsafe )?(?:extern \"C\" )?fn (?P<name>\w+)|\s+ensures(?: (?P<clause>\w+))? \{)"
)


@dataclass
class Function:
    crate: str
    path: Path  # in the repository
    owner: str  # the type or the trait that it belongs to, or nothing
    name: str
    about: str  # the first sentence above it
    is_public: bool
    around: set[str]  # words that may stand before its name: crate, module, folder and what is named at its owner
    clauses: list[str] = field(default_factory=list)  # nothing is the name of the clause that has none

    @property
    def title(self) -> str:
        return f"{self.owner}::{self.name}" if self.owner else self.name


def first_sentence(text: str, end: int) -> str:
    """Of the comment `///` that ends before this place, which may have attributes and plain comments below it."""
    lines = []
    for line in reversed(text[:end].splitlines()):
        line = line.strip()
        if line.startswith("///"):
            lines.append(line[3:].strip())
        elif lines or not line.startswith(("#[", "#!", "// ")):
            break
    said = " ".join(reversed(lines)).partition("  ")[0]  # of the first paragraph
    found = re.match(r".*?\.(?= [A-Z`]|$)", said)
    return found[0] if found else said


def owner_of(line: str) -> str:
    """The type of a line `impl .. Type<..> ..`."""
    line = re.sub(r"<[^<>]*>", "", re.sub(r"<[^<>]*>", "", line))
    found = re.search(r"impl\s+(?:.*\bfor\s+)?&?(?:mut )?(\w+)", line)
    return found[1] if found else ""


def functions(top: Path) -> tuple[list[Function], dict[str, list[Path]]]:
    """All functions of the crates of a repository, and the files of their public types and of their modules by name."""
    found, types = [], {}
    for path in sorted(top.glob("crates/*/src/**/*.rt")):
        here = path.relative_to(top)
        crate, text, owner, said, is_trait = here.parts[1], path.read_text(encoding="utf-8"), "", "", False
        types.setdefault(path.stem, []).append(here)
        for it in ITEM.finditer(text):
            if it["impl"] is not None:
                owner, said, is_trait = owner_of(it["impl"]), it["impl"], False
            elif it["kind"]:
                owner = said = it["kind"]
                is_trait = it["trait"] is not None
                types.setdefault(it["kind"], []).append(here)
            elif it["name"]:
                inside = owner if it["at"].strip("\n") else ""
                around = {crate, path.stem, path.parent.name, *re.findall(r"\w+", said)}
                is_public = it["pub"] is not None or (is_trait and bool(inside))
                found.append(Function(crate, here, inside, it["name"], first_sentence(text, it.start()), is_public, around))
            elif found:
                found[-1].clauses.append(it["clause"] or "")
    return found, types


def edits(top: Path) -> list[Path]:
    """The edits of the first tier."""
    return sorted(top.glob("crates/*/must-fail/*.edit"))


def second_tier(top: Path) -> list[Path]:
    """The edits of the second tier."""
    return sorted(top.glob("tests/edits/*/*.edit"))


def crate_of(edit: Path) -> str:
    """The crate that an edit of either tier changes."""
    return edit.parent.parent.name if edit.parent.name == "must-fail" else edit.parent.name
