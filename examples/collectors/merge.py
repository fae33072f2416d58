#!/usr/bin/env python3
"""Adds what jobs found: merge.py LIST SETUP RESULTS. Each job of the list counts once, however often it was started, and no other result counts.

It writes a line for each way on which routes were leaked, in the order of `suspects`, and then one of sums:

    FROM FIRST LAST TO routes R jobs J paths NAME:P ..
    summary jobs J routes R valid V unknown U invalid I customers LEAST MOST passed P refused Q

Numbers of routes add up, so a route that stood in two hours counts in each. Numbers of paths don't, as two jobs may have seen the same path:
they are given by job. LEAST and MOST say how many customers attested in the job that had fewest and in the one that had most. A job of the list
without a result is written as `! NAME missing`, with why it failed behind that, and the status is then 1. So it is with a result of other files
than the list says or of another setup, and with one that no job wrote.
"""
import pathlib
import sys
from collections import defaultdict
from typing import Dict, List, NamedTuple, Tuple

# In a checkout, and where it is installed, the package lies beside the examples.
sys.path.append(str(pathlib.Path(__file__).resolve().parents[2] / "python"))
from aspaview import NotAText, Refusal, Said, Summary, Suspect, parse  # noqa: E402
from job import Job, read_jobs  # noqa: E402

# FROM, FIRST, LAST and TO, where `here` is above every number
Valley = Tuple[int, int, int, float]
HERE = float("inf")


class Found(NamedTuple):
    """What a job found: its suspects, and its summary."""

    suspects: List[Suspect]
    summary: Summary


class NoResult(Exception):
    """Why a job doesn't count."""


def valley_of(row: Suspect) -> Valley:
    return (row.from_as, row.first, row.last, HERE if row.to_as is None else row.to_as)


def lines_of(job: Job, results: pathlib.Path) -> List[str]:
    """The lines of the file that the job left."""
    done, failed = results / f"{job.name}.txt", results / f"{job.name}.failed"
    lines = done.read_text().splitlines() if done.exists() else []
    if lines and lines[0] == job.heading():
        return lines
    if failed.exists():
        raise NoResult(f"missing: {failed.read_text().strip()}")
    raise NoResult("is of other files, or of another setup" if lines else "missing")


def found_by(job: Job, results: pathlib.Path) -> Found:
    """What the job found, by the file that it left."""
    try:
        records = list(parse(lines_of(job, results)[1:]))
    except NotAText as fault:
        raise NoResult(f"isn't what a job writes: {fault}") from fault
    if not records or not isinstance(records[-1], Summary):
        raise NoResult("has no summary at its end")
    others = [record for record in records[:-1] if not isinstance(record, (Suspect, Said, Refusal))]
    if others:
        raise NoResult(f"has a line that is no suspect: {others[0]}")
    return Found([record for record in records if isinstance(record, Suspect)], records[-1])


def valley_lines(found: Dict[str, Found]) -> List[str]:
    by_valley: Dict[Valley, Dict[str, Suspect]] = defaultdict(dict)
    for name, one in found.items():
        for row in one.suspects:
            by_valley[valley_of(row)][name] = row
    lines = []
    for valley, rows in sorted(by_valley.items()):
        words = [*map(str, valley[:3]), "here" if valley[3] == HERE else str(valley[3])]
        routes = sum(row.routes for row in rows.values())
        paths = [f"{name}:{row.paths}" for name, row in rows.items()]
        lines.append(" ".join([*words, "routes", str(routes), "jobs", str(len(rows)), "paths", *paths]))
    return lines


def summary_line(found: Dict[str, Found]) -> str:
    words = ["summary", "jobs", str(len(found))]
    for word in Summary.columns:
        numbers = [getattr(one.summary, word) for one in found.values()] or [0]
        words += [word, str(min(numbers)), str(max(numbers))] if word == "customers" else [word, str(sum(numbers))]
    return " ".join(words)


def main() -> int:
    if len(sys.argv) != 4:
        raise SystemExit("usage: merge.py LIST SETUP RESULTS")
    found: Dict[str, Found] = {}
    refused = []
    for job in read_jobs(sys.argv[1], sys.argv[2]):
        try:
            found[job.name] = found_by(job, pathlib.Path(sys.argv[3]))
        except NoResult as reason:
            refused.append(f"! {job.name} {reason}")
    print("\n".join([*valley_lines(found), summary_line(found), *refused]))
    return 1 if refused else 0


if __name__ == "__main__":
    sys.exit(main())
