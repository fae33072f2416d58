"""Any output of the program as JSON Lines or CSV: python3 -m aspaview jsonl|csv [--only KIND,..] < TEXT

Each line becomes one object, or one row, with its kind and its values. The kinds are the lines of a
script that ask for them (report, sent, details, changes, leaks, origins, suspects, peers, neighbours,
silent, attests, summary, why, judge, say, serve); own, hop and assert for lines that begin so; demo
for the last line of 'demo N'; and refused for lines that begin with '! '. What 'routes' lists is
details, and the first line of 'explain' is why. Addresses and prefixes are written as RFC 5952 has
them.

CSV has the same header whatever the text has; with --only it has the columns of these kinds alone.
A value that there is none of is an empty field, and a list has blanks between its numbers. The
status is 1 where a line is none that the program writes; those before it are written. It is 1 too
where the output can't be written."""
import argparse
import csv
import json
import os
import signal
import sys
from typing import IO, Dict, Iterable, Iterator, List, Optional, Sequence, Type

from .records import Cell, Record
from .spellings import NotAText
from .texts import BY_KIND, Detail, Origin, Route, Sent, parse_line


def _kinds(text: str) -> List[Type[Record]]:
    kinds = text.split(",")
    unknown = [kind for kind in kinds if kind not in BY_KIND]
    if unknown:
        raise argparse.ArgumentTypeError(f"no kind {', '.join(unknown)}: the kinds are {', '.join(BY_KIND)}")
    return [BY_KIND[kind] for kind in kinds]


def _read(lines: Iterable[bytes], only: Optional[List[Type[Record]]]) -> Iterator[Record]:
    """The records, or those of some kinds alone."""
    # A row with a verdict alone may be one of `report`, of `sent` or of `origins`: who wants one of these and no report has it so.
    alike: Optional[Type[Record]] = None if only is None or Route in only else next((kind for kind in (Sent, Origin) if kind in only), None)
    for number, line in enumerate(lines, 1):
        text = line.decode("ascii", "replace").rstrip("\n")
        try:
            record = parse_line(text)
            if alike is not None and isinstance(record, Route):
                record = alike.match(text) or record
        except NotAText as fault:
            raise NotAText(f"line {number}: {fault}") from fault
        if only is None or type(record) in only:
            yield record


def _columns(kinds: Iterable[Type[Record]]) -> List[str]:
    """The columns of these kinds: first those of details, in their order."""
    kinds = sorted(kinds, key=lambda kind: kind is not Detail)
    return list(dict.fromkeys(["kind", *(name for kind in kinds for name in kind.columns)]))


def write_jsonl(records: Iterable[Record], out: IO[str]) -> None:
    """Writes each record as a line of JSON."""
    for record in records:
        out.write(json.dumps({"kind": record.kind, **record.as_row()}) + "\n")


def write_csv(records: Iterable[Record], out: IO[str], kinds: Iterable[Type[Record]]) -> None:
    """Writes a header with the columns of these kinds, and each record as a row."""
    table = csv.DictWriter(out, _columns(kinds), lineterminator="\n")
    table.writeheader()
    for record in records:
        table.writerow({"kind": record.kind, **_fields(record.as_row())})


def _fields(row: Dict[str, Cell]) -> Dict[str, Cell]:
    return {name: _field(value) for name, value in row.items()}


def _field(value: Cell) -> Cell:
    if isinstance(value, bool):
        return "true" if value else "false"
    return " ".join(map(str, value)) if isinstance(value, list) else value


def main(arguments: Optional[Sequence[str]] = None) -> int:
    """Performs the words of the command line, and returns the status."""
    usage = (__doc__ or "").split("\n\n")
    parser = argparse.ArgumentParser(prog="python3 -m aspaview", description=usage[0], epilog="\n\n".join(usage[1:]),
                                     formatter_class=argparse.RawDescriptionHelpFormatter)
    parser.add_argument("form", choices=["jsonl", "csv"], help="JSON Lines, or CSV with a header")
    parser.add_argument("--only", type=_kinds, metavar="KIND,..", help="lines of these kinds alone")
    given = parser.parse_args(arguments)
    try:
        _convert(given.form, given.only)
    except NotAText as fault:
        return _failed(fault)
    except OSError as fault:
        # (Python would try once more at its end to write what is left)
        os.dup2(os.open(os.devnull, os.O_WRONLY), 1)
        return _failed(fault)
    return 0


def _convert(form: str, only: Optional[List[Type[Record]]]) -> None:
    """Turns the standard input. What stands before a line that isn't understood is written."""
    if sys.stdout is None or sys.stdin is None:
        raise OSError("the standard input or output is closed")
    records = _read(sys.stdin.buffer, only)
    try:
        if form == "jsonl":
            write_jsonl(records, sys.stdout)
        else:
            write_csv(records, sys.stdout, only or BY_KIND.values())
    finally:
        sys.stdout.flush()


def _failed(fault: Exception) -> int:
    """Says it, and returns the status."""
    print(f"python3 -m aspaview: {fault}", file=sys.stderr)
    return 1


if __name__ == "__main__":
    # (as other filters: who reads may go away, as `head` does)
    signal.signal(signal.SIGPIPE, signal.SIG_DFL)
    sys.exit(main())
