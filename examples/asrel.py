#!/usr/bin/env python3
"""Makes assert lines of a CAIDA file of AS relationships: python3 examples/asrel.py FILE [--largest N | --only AS..] [--zero]

Who attests names the providers that the file has for it; by default everybody does. FILE is of serial-1, with lines PROVIDER|CUSTOMER|-1 and
PEER|PEER|0, or of serial-2, with a source behind them; # begins a comment. It may be packed, as .bz2 or .gz.

--largest N: those N ASes attest whose customer cones are the largest, and the lower AS first where two are alike. The cone of an AS is the
AS itself with all that is reached from it by going from providers to customers, link after link: what CAIDA calls the recursive cone. CAIDA's own
ranking counts a cone by observed paths, and is a little different.

--zero: an AS without a provider in the file attests 0, that it has none. Without this option it attests nothing. For the file may lack a link,
and most ASes without one are no networks without a provider: nobody has seen their links. A wrong 0 has each route that such an AS sends
up taken for a leak. But the largest networks have no provider, and what others leak of their routes shows only where they attest so: so the
option belongs to a question of what adoption could show, and not to a search for leaks of today.

The first line that is written is a comment with counts. A file that isn't so ends the program with a message and status 1."""
from __future__ import annotations

import argparse
import bz2
import collections
import gzip
import signal
import sys
import zlib
from typing import Dict, Iterable, Iterator, List, Sequence, Set, TextIO

LONGEST = 4_096
LARGEST_AS = 4_294_967_295
UP, ACROSS = "-1", "0"


class NotRelations(Exception):
    """The file isn't one of AS relationships."""


def number_of(word: str) -> int:
    """An AS, spelled as a script has it."""
    if not (word.isascii() and word.isdigit()) or (word[0] == "0") or int(word) > LARGEST_AS:
        raise NotRelations(f"{word[:40]!r} is no AS")
    return int(word)


class Relations:
    """The ASes of a file, and of each AS its providers and its customers."""

    def __init__(self) -> None:
        self.ases: Set[int] = set()
        self.providers: Dict[int, Set[int]] = collections.defaultdict(set)
        self.customers: Dict[int, Set[int]] = collections.defaultdict(set)

    def take(self, line: str) -> None:
        """A line of the file."""
        words = line.split("|")
        if len(words) not in (3, 4) or words[2] not in (UP, ACROSS):
            raise NotRelations(f"{line[:60]!r} is neither PROVIDER|CUSTOMER|-1 nor PEER|PEER|0")
        left, right = number_of(words[0]), number_of(words[1])
        if left == right:
            raise NotRelations(f"{left} stands on both sides")
        self.ases.update((left, right))
        if words[2] == UP:
            self.providers[right].add(left)
            self.customers[left].add(right)

    def cone(self, asn: int) -> int:
        """How many ASes the customer cone of an AS has, itself counted."""
        met, waiting = {asn}, [asn]
        while waiting:
            fresh = self.customers.get(waiting.pop(), set()) - met
            met |= fresh
            waiting.extend(fresh)
        return len(met)

    def largest(self, count: int) -> List[int]:
        """The ASes with the largest cones, and the lower one first where two are alike."""
        sizes = {asn: self.cone(asn) if asn in self.customers else 1 for asn in self.ases}
        return sorted(self.ases, key=lambda asn: (-sizes[asn], asn))[:count]


def opened(name: str) -> TextIO:
    """The file's text, unpacked."""
    if name.endswith(".bz2"):
        return bz2.open(name, "rt", encoding="ascii", errors="replace")
    if name.endswith(".gz"):
        return gzip.open(name, "rt", encoding="ascii", errors="replace")
    return open(name, encoding="ascii", errors="replace")


def read(lines: Iterable[str]) -> Relations:
    """What the lines of a file tell."""
    relations = Relations()
    for number, line in enumerate(lines, 1):
        line = line.strip()
        if not line or line.startswith("#"):
            continue
        try:
            relations.take(line)
        except NotRelations as met:
            raise NotRelations(f"line {number}: {met}") from None
    if not relations.ases:
        raise NotRelations("there is no line with a relationship")
    return relations


def lines_of(customer: int, providers: Sequence[int]) -> Iterator[str]:
    """The assert lines of a customer: one, or several where it would be too long. What they say adds up."""
    line = f"assert {customer}"
    for provider in providers:
        if len(line) + 1 + len(str(provider)) > LONGEST:
            yield line
            line = f"assert {customer}"
        line += f" {provider}"
    yield line


def script(relations: Relations, who: Sequence[int], zero: bool) -> Iterator[str]:
    """A comment with counts, and the assert lines of these ASes."""
    with_provider = [asn for asn in who if relations.providers.get(asn)]
    without = [asn for asn in who if asn in relations.ases and not relations.providers.get(asn)]
    missing = len(who) - len(with_provider) - len(without)
    yield (f"# of {len(relations.ases)} ASes {len(with_provider)} attest their providers, and {len(without)} without a provider "
           f"attest {'0' if zero else 'nothing'}" + (f"; {missing} more aren't in the file" if missing else ""))
    for asn in who:
        providers = sorted(relations.providers.get(asn, ()))
        if providers:
            yield from lines_of(asn, providers)
        elif zero and asn in relations.ases:
            yield f"assert {asn} 0"


def options_of(words: List[str]) -> argparse.Namespace:
    """The words of the command."""
    parser = argparse.ArgumentParser(prog="asrel.py", description="Makes assert lines of a CAIDA file of AS relationships.")
    parser.add_argument("file", metavar="FILE", help="of serial-1 or serial-2, perhaps .bz2 or .gz")
    chosen = parser.add_mutually_exclusive_group()
    chosen.add_argument("--largest", metavar="N", type=int, help="the N ASes with the largest customer cones attest")
    chosen.add_argument("--only", metavar="AS", type=number_of, nargs="+", help="these ASes attest")
    parser.add_argument("--zero", action="store_true", help="an AS without a provider in the file attests that it has none")
    options = parser.parse_args(words)
    if options.largest is not None and options.largest < 0:
        parser.error("N is 0 or more")
    return options


def main() -> None:
    try:
        options = options_of(sys.argv[1:])
        with opened(options.file) as file:
            relations = read(file)
    except NotRelations as met:
        sys.exit(f"asrel.py: {met}")
    except (OSError, EOFError, zlib.error) as met:
        sys.exit(f"asrel.py: the file can't be read: {met}")
    if options.only is not None:
        who = sorted(set(options.only))
    elif options.largest is not None:
        who = relations.largest(options.largest)
    else:
        who = sorted(relations.ases)
    for line in script(relations, who, options.zero):
        print(line)


if __name__ == "__main__":
    # (as other filters: who reads may go away, as `head` does)
    signal.signal(signal.SIGPIPE, signal.SIG_DFL)
    main()
