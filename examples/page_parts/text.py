"""Reads what a run wrote: the answers to the questions that page.py puts behind a script, and what stood before them."""
from __future__ import annotations

import collections
import dataclasses
import datetime
import re
from typing import Counter, Dict, Iterable, List, Optional, Set, Tuple

from aspaview import Address, Detail, NotAText, Record, Route, Said, Summary, Suspect, Suspects, Verdict, parse_line

VERDICTS = tuple(map(str, Verdict))
MARK = "page.py"
ASKED = {"summary": "summary", "suspects": "suspects", "report": "report", "details": "details invalid"}
QUESTIONS = "".join(f"say {MARK} {name}\n{line}\n" for name, line in ASKED.items()) + f"say {MARK} end\n"
TIME = re.compile(r"(?<!\S)(\d{4}-\d\d-\d\dT\d\d:\d\d(?::\d\d)?)Z(?!\S)")
REFUSALS_KEPT = 20


@dataclasses.dataclass(frozen=True)
class Step:
    """A summary behind a `say` line: the words, and the moment that they tell, if they do."""

    words: str
    time: Optional[datetime.datetime]
    summary: Summary


@dataclasses.dataclass
class Evidence:
    """How many of the listed routes a suspect has, and some of them, with distinct paths first."""

    routes: int = 0
    paths: Set[Tuple[int, ...]] = dataclasses.field(default_factory=set)
    samples: List[Detail] = dataclasses.field(default_factory=list)

    def add(self, detail: Detail, most: int) -> None:
        """One route more, which is a sample where there aren't as many yet or its path is a new one."""
        self.routes += 1
        if detail.path not in self.paths and len(self.paths) < most:
            self.paths.add(detail.path)
            self.samples.insert(len(self.paths) - 1, detail)
        elif len(self.samples) < most:
            self.samples.append(detail)
        del self.samples[most:]


@dataclasses.dataclass
class Run:
    """All that the page tells of a run. Its suspects are in the order of the text, and a session is a peer's address and AS."""

    summary: Optional[Summary] = None
    suspects: Dict[Suspect, Evidence] = dataclasses.field(default_factory=dict)
    sessions: Dict[Tuple[Address, int], Counter[str]] = dataclasses.field(default_factory=dict)
    faults: Counter[str] = dataclasses.field(default_factory=collections.Counter)
    steps: List[Step] = dataclasses.field(default_factory=list)
    refusals: List[str] = dataclasses.field(default_factory=list)
    whole: bool = False


def moment_of(words: str) -> Optional[datetime.datetime]:
    """The moment that the words of a mark tell, or None, as of a day that no month has."""
    time = TIME.search(words)
    try:
        return datetime.datetime.fromisoformat(time[1]).replace(tzinfo=datetime.timezone.utc) if time else None
    except ValueError:
        return None


class Reader:
    """Takes the lines of a text, one after another."""

    def __init__(self, samples: int) -> None:
        self.run = Run()
        self.samples = samples
        # the question of page.py that is answered, and the words of a script's own mark, if they stood right before
        self.asked = ""
        self.words: Optional[str] = None
        self.suspects = Suspects(())

    def take(self, line: str) -> None:
        """A line of the text, without its end. What answers the script's own questions isn't looked at, but for summaries behind a mark."""
        if line.startswith("# "):
            self.take_mark(Said.parse(line).words)
        elif line.startswith("! "):
            if len(self.run.refusals) < REFUSALS_KEPT:
                self.run.refusals.append(line)
        elif self.asked in ASKED:
            self.take_answer(parse_line(line, ASKED[self.asked]))
        else:
            if self.words is not None and line.startswith("summary "):
                self.take_step(self.words, Summary.parse(line))
            self.words = None

    def take_mark(self, words: str) -> None:
        """A line of `say`. The questions may stand more than once: the last ones count."""
        first, _, rest = words.partition(" ")
        if first != MARK or rest not in (*ASKED, "end"):
            self.asked, self.words = "", words
            return
        self.asked, self.words = rest, None
        self.run.whole = rest == "end"
        if rest == "summary":
            self.run = Run(steps=self.run.steps, refusals=self.run.refusals)
        elif rest == "details":
            self.suspects = Suspects(self.run.suspects)

    def take_step(self, words: str, summary: Summary) -> None:
        """A summary behind a mark of the script's own."""
        self.run.steps.append(Step(words, moment_of(words), summary))

    def take_answer(self, record: Record) -> None:
        """A line that answers a question of page.py."""
        if isinstance(record, Summary):
            self.run.summary = record
        elif isinstance(record, Suspect):
            self.run.suspects[record] = Evidence()
        elif isinstance(record, Route):
            self.run.sessions.setdefault((record.peer, record.peer_as), collections.Counter())[record.verdict] += 1
        elif isinstance(record, Detail):
            self.run.faults[record.witness.word] += 1
            for suspect in dict.fromkeys(self.suspects.of(record)):
                self.run.suspects[suspect].add(record, self.samples)


def read(lines: Iterable[str], samples: int) -> Run:
    """What a text tells; NotAText where it isn't that of these questions."""
    reader = Reader(samples)
    for number, line in enumerate(lines, 1):
        try:
            reader.take(line.rstrip("\n"))
        except ValueError as met:
            raise NotAText(f"line {number} of the text isn't understood: {line.rstrip()[:200]!r}") from met
    if not reader.run.whole or reader.run.summary is None:
        raise NotAText("the text isn't whole: it lacks the answers to the questions of page.py, or their end")
    return reader.run
