#!/usr/bin/env python3
"""Watches a stream of updates, and writes a line of JSON for each route that became invalid, was healed, or was invalid and is now a leak.

SETUP is a script that loads attestations, says roles, and may take a table to start from: what that
has is how it stood before. STREAM is an MRT file, or with --bmp a recorded stream of BMP: a fifo,
'-' for the standard input, or a file, which is followed as it grows.

Of a route that became invalid 'witness' and 'hops' say why, and 'suspects' on which ways it was
leaked; 'leak' is true where the witness is 'blocked', which alone shows a leak. Of a route that was
invalid before and only now is a leak, 'before' is 'invalid' as well. A healed route has those that it
had when it was last looked at, and 'after' is null where it is gone. With --once all invalid routes
are looked at behind the stream, and else whenever one became invalid or the rows of 'suspects' changed.

The status is 0 behind the stream's end, or where a signal ended the watch; 10 where --once found a
leak; and 1 where a guard refused, SETUP or the stream is wrong, or the program ended. What is
refused of the stream, and of what SETUP takes, is written to standard error."""
import argparse
import datetime
import json
import os
import signal
import stat
import sys
import threading
import time
from pathlib import Path
from typing import Any, Dict, Iterable, Iterator, List, NoReturn, Optional, Sequence, Set, Tuple

# In a checkout the package lies beside the examples.
sys.path.append(str(Path(__file__).resolve().parents[1] / "python"))
from aspaview import AspaviewError, Change, Detail, Key, ProgramEnded, Refusal, Refused, Session, Suspect, Suspects, Verdict  # noqa: E402

ALL = 100_000_000
LONGEST = 4_194_304
# The causes behind which a stream isn't read any further, with them that of one that is cut, and those of a feed's PDUs.
BROKEN = {26, 45, 46}
NOT_WHOLE = BROKEN | {27}
OF_FEEDS = {*range(15, 23), 43}
LEAK_FOUND = 10


class Units:
    """Counts the whole records or messages of a stream, by the lengths in their headers alone."""

    def __init__(self, bmp: bool) -> None:
        self._bmp = bmp
        self._head = b""
        self._head_size = 5 if bmp else 12
        self._left = 0
        self._broken = False

    def count(self, data: bytes) -> int:
        """How many end within the next bytes. One with a broken header counts, and what is behind it doesn't: it is refused, and the last."""
        units = at = 0
        while at < len(data) and not self._broken:
            if self._left == 0:
                piece = data[at:at + self._head_size - len(self._head)]
                self._head += piece
                at += len(piece)
                if len(self._head) == self._head_size:
                    self._left = self._rest()
                    self._head = b""
                    units += self._left == 0
            else:
                step = min(self._left, len(data) - at)
                self._left -= step
                at += step
                units += self._left == 0
        return units

    def is_cut(self) -> bool:
        """Whether the stream would end within a unit here."""
        return not self._broken and (self._left > 0 or self._head != b"")

    def _rest(self) -> int:
        """How many bytes of the unit stand behind its header."""
        if self._bmp:
            length = int.from_bytes(self._head[1:], "big")
            self._broken = self._head[0] != 3 or not 6 <= length <= LONGEST
        else:
            length = len(self._head) + int.from_bytes(self._head[8:], "big")
            self._broken = length > len(self._head) + LONGEST
        return 0 if self._broken else length - len(self._head)


class Stream(threading.Thread):
    """Passes a stream on to the program through a pipe, and tells how many whole units came. So a `take` line asks for what is there, and
    the program needn't wait for more."""

    def __init__(self, name: str, units: Units, follow: Optional[float]) -> None:
        """A file is followed as it grows, where it is said how often to look, in seconds."""
        super().__init__(daemon=True)
        self.output, self._input = os.pipe()
        self._name = name
        self._units = units
        self._follow = follow
        self._came = threading.Condition()
        self._count = 0
        self._over = False
        # why the stream couldn't be read
        self.fault: Optional[OSError] = None

    def wait(self, longest: float) -> Optional[int]:
        """Waits for units, and returns how many came since the last call: 0 once the stream is over, and None where none came in this time."""
        with self._came:
            if not self._came.wait_for(lambda: self._count > 0 or self._over, longest):
                return None
            count, self._count = self._count, 0
            return count

    def run(self) -> None:
        try:
            for data in self._pieces():
                self._add(self._units.count(data), False)
                self._pass_on(data)
        except BrokenPipeError:
            # (the program reads no more, and says why)
            pass
        except OSError as fault:
            self.fault = fault
        finally:
            os.close(self._input)
            self._add(int(self._units.is_cut()), True)

    def _pieces(self) -> Iterator[bytes]:
        with open(0 if self._name == "-" else self._name, "rb", buffering=0, closefd=self._name != "-") as source:
            grows = self._follow is not None and stat.S_ISREG(os.fstat(source.fileno()).st_mode)
            while True:
                data = source.read(65536)
                if data:
                    yield data
                elif grows:
                    time.sleep(self._follow or 0)
                else:
                    return

    def _pass_on(self, data: bytes) -> None:
        view = memoryview(data)
        while view:
            view = view[os.write(self._input, view):]

    def _add(self, units: int, over: bool) -> None:
        with self._came:
            self._count += units
            self._over = over
            self._came.notify()


class Watch:
    """What is known of the routes, and what is told of them."""

    def __init__(self, session: Session, roles: Optional[Set[int]], always: bool) -> None:
        """All invalid routes are looked at always, or only where there is a reason to."""
        self._session = session
        # the ASes with a role of their own, if others are to be listed, and the peers that were seen
        self._roles = roles
        self._peers: Set[Tuple[str, int]] = set()
        self._always = always
        # the routes that are invalid, and the rows of suspects, both as they were last seen
        self._invalid: Dict[Key, Tuple[Detail, List[Suspect]]] = {}
        self._rows: List[Suspect] = []

    def begin(self) -> None:
        """Notes how all stands, and tells nothing of it but the peers."""
        for change in self._session.changes():
            self._see(change)
        self._rows = list(self._session.suspects())
        self._note()

    def look(self) -> bool:
        """Tells what changed, and whether a leak came up."""
        changed = []
        for change in self._session.changes():
            self._see(change)
            if Verdict.INVALID in (change.before, change.after):
                changed.append(change)
        before, self._rows = self._rows, list(self._session.suspects())
        if self._always or self._rows != before or any(change.after == Verdict.INVALID for change in changed):
            changed += self._note()
        return any([self._tell(change) for change in changed])

    def _see(self, change: Change) -> None:
        peer = (str(change.peer), change.peer_as)
        if self._roles is None or change.peer_as in self._roles or peer in self._peers:
            return
        self._peers.add(peer)
        write({"event": "peer", "peer": peer[0], "peer_as": peer[1]})

    def _note(self) -> List[Change]:
        """Notes all routes that are invalid, with their suspects. It returns those that were held as invalid and only now are leaks, of
        which `changes` says nothing."""
        suspects = Suspects(self._rows)
        leaked = []
        for detail in self._session.details(Verdict.INVALID):
            held = self._invalid.get(detail.key)
            if held and not is_leak(held[0]) and is_leak(detail):
                leaked.append(Change(detail.peer, detail.peer_as, detail.prefix, detail.path_id, Verdict.INVALID, Verdict.INVALID))
            self._invalid[detail.key] = detail, suspects.of(detail)
        return leaked

    def _tell(self, change: Change) -> bool:
        became = change.after == Verdict.INVALID
        detail, suspects = self._invalid[change.key] if became else self._invalid.pop(change.key)
        leak = is_leak(detail)
        row = {name: value for name, value in detail.as_row().items() if name in ("witness", "hops", "path", "set", "origin")}
        write({"event": "invalid" if became else "healed", "leak": leak, **change.as_row(), **row,
               "suspects": [suspect.as_row() for suspect in suspects]})
        return became and leak


def is_leak(detail: Detail) -> bool:
    """Whether the route's path shows a leak."""
    return detail.witness.word == "blocked"


def write(event: Dict[str, Any]) -> None:
    """Writes a line of JSON, with the time at which this is seen."""
    now = datetime.datetime.now(datetime.timezone.utc)
    print(json.dumps({"time": f"{now:%Y-%m-%dT%H:%M:%SZ}", **event}), flush=True)


def say(refusals: Iterable[Refusal]) -> None:
    """Writes these to standard error."""
    for refusal in refusals:
        print(refusal, file=sys.stderr)


def take(session: Session, count: int) -> bool:
    """Takes so many units of the stream, and says which were refused; answers whether the stream is still good."""
    try:
        session.tell(f"take stream {count}")
    except Refused as refused:
        say(refused.refusals)
        return not any(refusal.cause in BROKEN for refusal in refused.refusals)
    return True


def units(stream: Stream, session: Session, longest: float) -> int:
    """Waits for units of the stream as long as the program runs, and returns how many came: 0 once the stream is over."""
    while (count := stream.wait(longest)) is None:
        status = session.poll()
        if status is not None:
            raise ProgramEnded(status)
    return count


def set_up(session: Session, setup: str) -> None:
    """Performs the script. Refused records of its dumps are said and counted, and anything else that is refused ends the watch."""
    try:
        session.tell(setup)
    except Refused as refused:
        others = [refusal for refusal in refused.refusals if not is_of_record(refusal, refused.lines[refusal.line])]
        if others:
            raise Refused(others, refused.lines) from None
        say(refused.refusals)
        print(f"watch.py: records that SETUP takes and that were refused: {len(refused.refusals)}", file=sys.stderr)


def is_of_record(refusal: Refusal, line: str) -> bool:
    """Whether a record of a dump is refused, of which the rest is read; and no PDU of a feed, behind which attestations may be missing."""
    return refusal.unit is not None and line.split()[0] in ("take", "until") and refusal.cause not in NOT_WHOLE | OF_FEEDS


def own_roles(setup: str) -> Set[int]:
    """The ASes that the script gives a role."""
    lines = [line.split() for line in setup.split("\n")]
    return {int(words[1]) for words in lines if len(words) == 3 and words[0] == "role" and words[1].isdecimal()}


def begin(session: Session, setup: str, given: argparse.Namespace) -> Watch:
    """Performs the script, and asks the guards."""
    set_up(session, setup)
    customers = session.summary().customers
    if customers < given.customers:
        raise SystemExit(f"watch.py: {customers} customers attest, and not {given.customers} or more: the attestations are stale")
    watch = Watch(session, own_roles(setup) if given.peers else None, given.once)
    watch.begin()
    return watch


def perform(given: argparse.Namespace) -> int:
    """Watches, and returns the status."""
    setup = Path(given.setup).read_text(encoding="utf-8", errors="surrogateescape")
    stream = Stream(given.stream, Units(given.bmp is not None), None if given.once else given.every)
    with Session(given.program, pass_fds=[stream.output]) as session:
        watch = begin(session, setup, given)
        name = f"/dev/fd/{stream.output}"
        session.tell(f"open stream {name}" if given.bmp is None else f"bmp stream {name} {given.bmp}")
        os.close(stream.output)
        stream.start()
        good, found = True, False
        while good and (count := ALL if given.once else units(stream, session, given.every)):
            good = take(session, count)
            found = watch.look()
            if given.once:
                break
            time.sleep(given.every)
    if stream.fault:
        raise stream.fault
    if given.once and found:
        return LEAK_FOUND
    return 0 if good else 1


def end(*_: object) -> NoReturn:
    # (a second one, as `timeout` sends it, would come while this one is performed)
    signal.signal(signal.SIGTERM, signal.SIG_IGN)
    raise KeyboardInterrupt


def seconds(word: str) -> float:
    """How long to wait: more than nothing, and at most a day."""
    try:
        found = float(word)
    except ValueError:
        found = 0
    if not 0 < found <= 86400:
        raise argparse.ArgumentTypeError(f"{word} is no number of seconds above 0, up to a day")
    return found


def main(arguments: Optional[Sequence[str]] = None) -> int:
    usage = (__doc__ or "").split("\n\n", 1)
    parser = argparse.ArgumentParser(description=usage[0], epilog=usage[1], formatter_class=argparse.RawDescriptionHelpFormatter)
    parser.add_argument("setup", metavar="SETUP")
    parser.add_argument("stream", metavar="STREAM")
    parser.add_argument("--bmp", choices=["pre", "post"], help="the stream is one of BMP, read in this view")
    parser.add_argument("--once", action="store_true", help="take the stream up to its end, and then look once")
    parser.add_argument("--every", type=seconds, default=1.0, metavar="SECONDS", help="how long to gather what comes before each look (1)")
    parser.add_argument("--customers", type=int, default=0, metavar="N", help="refuse attestations of fewer customers")
    parser.add_argument("--peers", action="store_true", help="write a line for each peer whose AS has no role line in SETUP")
    parser.add_argument("--program", help="the program aspaview, where it isn't found by itself")
    given = parser.parse_args(arguments)
    signal.signal(signal.SIGTERM, end)
    try:
        return perform(given)
    except KeyboardInterrupt:
        return 1 if given.once else 0
    except (AspaviewError, OSError) as fault:
        print(f"watch.py: {fault}", file=sys.stderr)
        return 1


if __name__ == "__main__":
    sys.exit(main())
