"""The wanted texts of the worked rows: crates/worked_rows/data/README.md says how a file of rows is written."""
import re
from pathlib import Path
from typing import Dict, Iterator, List, NamedTuple

from .places import ROWS


class Row(NamedTuple):
    """Where the row stands, the lines of its script, and the lines of the text that is wanted of it."""
    place: str
    script: List[str]
    wanted: List[str]


def unescaped(text: str) -> str:
    """The bytes that a text stands for, as characters of Latin-1."""
    signs = {"n": "\n", "r": "\r", "t": "\t"}
    return re.sub(r"\\(?:x(..)|([nrt]))", lambda found: chr(int(found[1], 16)) if found[1] else signs[found[2]], text)


class Vectors:
    """Texts that have names. One that is made of bytes of a file or of a turn's number is none here."""

    def __init__(self) -> None:
        self._texts: Dict[str, str] = {}

    def take(self, line: str) -> None:
        """Takes a line `let NAME TEXT` or `join NAME PIECES`."""
        how, name, rest = line.split(" ", 2)
        self._texts[name] = unescaped(rest) if how == "let" else self.joined(rest)

    def joined(self, pieces: str) -> str:
        """The pieces one behind another; one that is cut is taken whole, and one without a text is left out."""
        texts = []
        for piece in pieces.split():
            count, _, name = piece.rpartition("*")
            texts.append(self._texts.get(name.split(":")[0], "") * (int(count) if count.isdecimal() else 1))
        return "".join(texts)


def rows_of(path: Path, vectors: Vectors) -> Iterator[Row]:
    """The rows of a file, whose vectors are added to those before."""
    script: List[str] = []
    wanted = ""
    is_end = False
    for number, line in enumerate([*path.read_text(encoding="utf-8").split("\n"), ""], 1):
        key, _, rest = line.partition(" ")
        if key in ("let", "join"):
            vectors.take(line)
        elif key == ">":
            script.append(unescaped(rest))
        elif key == "<":
            wanted += unescaped(rest) + "\n"
        elif key == "<*":
            wanted += vectors.joined(rest)
        elif key == "end":
            is_end = True
        elif line == "":
            # (where the end of the text is wanted alone, it begins within a line)
            yield Row(f"{path.name} before line {number}", script, wanted.split("\n")[int(is_end):-1])
            script, wanted, is_end = [], "", False


def all_rows() -> Iterator[Row]:
    """The rows of all files, in their order."""
    vectors = Vectors()
    for name in (ROWS.parent / "args").read_text(encoding="utf-8").split():
        yield from rows_of(ROWS / name, vectors)
