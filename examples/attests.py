#!/usr/bin/env python3
"""Makes of the lines of `attests` what other caches and routers read: python3 examples/attests.py --as json|openbgpd [--into FILE] < LINES

--as json: a file of JSON as rpki-client writes it, with the attestations as `aspas`. --into FILE takes a validator's JSON of that layout, and
puts the attestations in place of those that it has; all else of it stays, records of prefixes among it. Without --into the file has no record
of a prefix, and says when it was made. What reads it, and which caches pass its attestations over, says docs/recipes.md (9).

--as openbgpd: an `aspa-set`, for a part of the configuration of bgpd, which an `include` line there takes in.

LINES is what the program writes of `attests`. Lines of one customer are united, and comments are passed over. 0 stands for a customer that
attests no provider. The lines say no ends, so neither does what is written: it holds of one moment, and has to be made anew.

Nothing is written, and the status is 1, where something was refused, where a line is another one, or where there is none: so an analysis that
failed doesn't take the attestations out of a router."""
from __future__ import annotations

import argparse
import datetime
import json
import pathlib
import sys
from typing import Any, Dict, Iterable, Iterator, List, Optional

# In a checkout, and where it is installed, the package lies beside the examples.
sys.path.append(str(pathlib.Path(__file__).resolve().parents[1] / "python"))
from aspaview import Assertion, NotAText, Refusal, Said, parse_line  # noqa: E402


class NotAttested(Exception):
    """The input isn't what `attests` writes, or there is nothing in it."""


def read(lines: Iterable[str]) -> Dict[int, List[int]]:
    """The providers of each customer, in the order of the lines."""
    table: Dict[int, List[int]] = {}
    for number, line in enumerate(lines, 1):
        try:
            record = parse_line(line)
        except NotAText as met:
            raise NotAttested(f"line {number}: {met}") from None
        if isinstance(record, Refusal):
            raise NotAttested(f"line {number} says that something was refused: {record}")
        if isinstance(record, Assertion):
            table.setdefault(record.customer, []).extend(record.providers)
        elif not isinstance(record, Said):
            raise NotAttested(f"line {number} is no line of attests: {record}")
    if not table:
        raise NotAttested("there is no line of attests")
    return table


def as_json(table: Dict[int, List[int]], into: Optional[str]) -> Iterator[str]:
    """The file's text."""
    made = datetime.datetime.now(datetime.timezone.utc).strftime("%Y-%m-%dT%H:%M:%SZ")
    tree: Any = {"metadata": {"buildtime": made}, "roas": []}
    if into is not None:
        tree = json.loads(pathlib.Path(into).read_bytes())
        if not isinstance(tree, dict) or not isinstance(tree.get("aspas"), list):
            raise NotAttested(f"{into} has no array aspas")
    tree["aspas"] = [{"customer_asid": customer, "providers": providers} for customer, providers in table.items()]
    if isinstance(tree.get("metadata"), dict):
        tree["metadata"]["aspas"] = len(table)
    yield json.dumps(tree, indent=1)


def as_openbgpd(table: Dict[int, List[int]]) -> Iterator[str]:
    """The lines of the set."""
    yield "aspa-set {"
    for customer, providers in table.items():
        yield f"\tcustomer-as {customer} provider-as {{ {' '.join(map(str, providers))} }}"
    yield "}"


def options_of(words: List[str]) -> argparse.Namespace:
    """The words of the command."""
    parser = argparse.ArgumentParser(prog="attests.py", description="Makes of the lines of attests what other caches and routers read.")
    parser.add_argument("--as", dest="form", choices=["json", "openbgpd"], required=True, help="rpki-client's JSON, or an aspa-set of OpenBGPD")
    parser.add_argument("--into", metavar="FILE", help="a validator's JSON whose attestations these replace")
    options = parser.parse_args(words)
    if options.into is not None and options.form != "json":
        parser.error("--into is for --as json")
    return options


def main() -> None:
    options = options_of(sys.argv[1:])
    try:
        table = read(sys.stdin)
        written = list(as_json(table, options.into) if options.form == "json" else as_openbgpd(table))
    except (NotAttested, ValueError) as met:
        sys.exit(f"attests.py: {met}")
    except OSError as met:
        sys.exit(f"attests.py: the file can't be read: {met}")
    print("\n".join(written))


if __name__ == "__main__":
    main()
