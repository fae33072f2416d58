"""A session with the program, which is kept: it is told lines of a script, and asked."""
import weakref
from collections import deque
from ipaddress import ip_address, ip_network
from secrets import token_hex
from types import TracebackType
from typing import (Any, Deque, Dict, Generic, Iterable, Iterator, List, Literal, Optional, Sequence, Tuple, Type, TypeVar, Union, cast,
                    overload)

from .errors import ProgramEnded, Refused
from .process import PathLike, Process, find_program
from .records import Key, Record
from .spellings import Address, Network, NotAText, Verdict, written_address, written_network
from .texts import (ANSWERS, Assertion, Attested, Change, Detail, Hop, Judged, Leak, Neighbour, Origin, Own, Peer, Refusal, Route, Sent, Silent,
                    Suspect, Summary, Why, parse_line)

Asked = TypeVar("Asked", bound=Record)
First = TypeVar("First", bound=Record)


def _named(route: Key) -> str:
    """The words by which a line names a route."""
    path_id = "" if route.path_id is None else f" {route.path_id}"
    return f"{written_address(route.peer)} {route.peer_as} {written_network(route.prefix)}{path_id}"


class Session:
    """The program, running. It performs each line as it comes, so what one line loaded is there for all later ones.

    ``program`` is its path; without it that is the variable ASPAVIEW, ``aspaview`` on the PATH, or the launcher of the checkout. ``refusals``
    says what ``tell`` and ``ask`` do with lines that begin with ``! ``: ``raise`` has them raise Refused, once all is answered, and ``records``
    has them return records. Files of the script are seen from the folder ``cwd``. ``timeout`` is for how many seconds to wait where the
    program is silent, before TimeoutError is raised; None waits for ever, as a ``take`` line of a fifo or a feed may. ``pass_fds`` are open
    files that the program may read as ``/dev/fd/N``.

    A session is a context manager: at its end the program's input ends, and its end is waited for; where an exception leaves it the program
    is ended at once. It is for one thread at a time.
    """

    def __init__(self, program: Optional[PathLike] = None, *, refusals: Literal["raise", "records"] = "raise",
                 cwd: Optional[PathLike] = None, timeout: Optional[float] = None, pass_fds: Sequence[int] = ()) -> None:
        if refusals not in ("raise", "records"):
            raise ValueError("refusals must be 'raise' or 'records'")
        self._raises = refusals == "raise"
        self._process = Process(find_program(program), cwd, timeout, pass_fds)
        self._status: Optional[int] = None
        self._token = token_hex(8)
        # how many lines were written, and how many marks among them
        self._lines = self._marks = 0
        # the last mark that is still to be read, and the answer that is to have what stands before it
        self._awaited: Optional[str] = None
        self._answer: "Optional[weakref.ReferenceType[Answer[Any]]]" = None

    # ---- lines of a script

    def tell(self, *texts: str) -> List[Refusal]:
        """Performs lines that ask nothing, and returns once that is done. A text may have several lines."""
        return [record for record in self.ask(*texts) if isinstance(record, Refusal)]

    def ask(self, *texts: str) -> "Answer[Record]":
        """Performs any lines, and returns an iterator over the records of what they write."""
        lines = [line for text in texts for line in (text[:-1] if text.endswith("\n") else text).split("\n")]
        return self._asked(lines, Record, self._raises)

    # ---- questions

    def report(self) -> "Answer[Route]":
        """Each route with its verdict."""
        return self._asked(["report"], Route)

    def details(self, verdict: Optional[Union[Verdict, str]] = None) -> "Answer[Detail]":
        """Each route, or each with this verdict, with its witness and its path."""
        return self._asked(["details" if verdict is None else f"details {verdict}"], Detail)

    def routes(self, *, verdict: Optional[Union[Verdict, str]] = None, peer: Optional[int] = None, address: Optional[Union[Address, str]] = None,
               prefix: Optional[Union[Network, str]] = None, within: Optional[Union[Network, str]] = None,
               covering: Optional[Union[Network, str]] = None, origin: Optional[int] = None,
               through: Optional[int] = None) -> "Answer[Detail]":
        """Each route that meets all of the conditions, as ``details`` has it. ``address`` is that of the peer, which a script calls ``from``.
        Addresses and prefixes may have any spelling."""
        networks = {"prefix": prefix, "within": within, "covering": covering}
        given: Dict[str, object] = {
            "verdict": verdict, "peer": peer, "from": None if address is None else written_address(ip_address(address)),
            **{word: None if network is None else written_network(ip_network(network)) for word, network in networks.items()},
            "origin": origin, "through": through}
        return self._asked([" ".join(["routes", *(f"{word} {value}" for word, value in given.items() if value is not None)])], Detail)

    def changes(self) -> "Answer[Change]":
        """Each route whose verdict isn't the one that was marked; and marks all as they are now."""
        return self._asked(["changes"], Change)

    def suspects(self) -> "Answer[Suspect]":
        """On which ways the routes that are ``invalid blocked`` were leaked."""
        return self._asked(["suspects"], Suspect)

    def peers(self) -> "Answer[Peer]":
        """Each peer that has routes, with its role and how many they are; and then each AS with a role of its own and none."""
        return self._asked(["peers"], Peer)

    def neighbours(self, asn: int) -> "Answer[Neighbour]":
        """Each AS that stands beside this one on some route's path."""
        return self._asked([f"neighbours {asn}"], Neighbour)

    def silent(self) -> "Answer[Silent]":
        """Each AS that attests nothing and that some unknown route asks about."""
        return self._asked(["silent"], Silent)

    def sent(self, role: str, ases: Iterable[int]) -> "Tuple[Own, Answer[Sent]]":
        """What we originate, and each route that is sent upwards, as an AS sees them that gets them over these ASes: the one that hands them
        to it comes first, with its role there, and our own AS last."""
        return self._first(" ".join(map(str, ("sent", role, *ases))), Own, Sent)

    @overload
    def attests(self) -> "Answer[Assertion]": ...

    @overload
    def attests(self, asn: int) -> "Answer[Attested]": ...

    def attests(self, asn: Optional[int] = None) -> "Union[Answer[Assertion], Answer[Attested]]":
        """All that attests, as lines of a script; or where the row of one customer comes from, and last that row."""
        if asn is None:
            return self._asked(["attests"], Assertion)
        return self._asked([f"attests {asn}"], Attested)

    def origins(self) -> "Answer[Origin]":
        """Each route with the state of its origin."""
        return self._asked(["origins"], Origin)

    def leaks(self) -> "Answer[Leak]":
        """Each route that its attribute Only-to-Customer tells to be leaked."""
        return self._asked(["leaks"], Leak)

    def summary(self) -> Summary:
        """The counts."""
        return self._one("summary", Summary)

    def why(self, route: Key) -> Why:
        """The verdict of a route, and its witness; Refused with the cause 39 where there is none. Any record of a route names it."""
        return self._one(f"why {_named(route)}", Why)

    def explain(self, route: Key) -> "Tuple[Why, List[Hop]]":
        """The same, and what the two ASes of each hop of its path attest of each other, from the origin on."""
        return self._explained(f"explain {_named(route)}")

    def explain_path(self, role: str, neighbour: int, path: Iterable[int]) -> "Tuple[Why, List[Hop]]":
        """The same of a path that this neighbour, which has this role, would send; the neighbour comes first in the path too."""
        return self._explained(" ".join(map(str, ("explain", role, neighbour, *path))))

    def judge(self, role: str, neighbour: int, path: Iterable[int]) -> Verdict:
        """The verdict of a path that this neighbour, which has this role, would send; the neighbour comes first in the path too."""
        return self._one(" ".join(map(str, ("judge", role, neighbour, *path))), Judged).verdict

    # ---- the end

    def close(self) -> int:
        """Ends the input, waits for the program, and returns its status: 0, or 1 where something was refused. At another one it raises
        ProgramEnded. What wasn't read of an answer is lost."""
        if self._status is None:
            try:
                self._status = self._process.finish()
            except BaseException:
                self.kill()
                raise
        if self._status not in (0, 1):
            raise ProgramEnded(self._status)
        return self._status

    def poll(self) -> Optional[int]:
        """The program's status where it has ended, be it by itself, and else None."""
        return self._process.poll() if self._status is None else self._status

    def kill(self) -> None:
        """Ends the program at once, whatever it does or waits for."""
        if self._status is None:
            self._status = self._process.kill()

    def __enter__(self) -> "Session":
        return self

    def __exit__(self, kind: Optional[Type[BaseException]], fault: Optional[BaseException], trace: Optional[TracebackType]) -> None:
        if kind is None:
            self.close()
        else:
            self.kill()

    # ---- how it is done

    def _one(self, line: str, of: Type[Asked]) -> Asked:
        record, = self._asked([line], of)
        return record

    def _first(self, line: str, first: Type[First], of: Type[Asked]) -> "Tuple[First, Answer[Asked]]":
        """The first record of an answer, which is of another kind than all that follow, and an iterator over these."""
        answer = self._asked([line], Record)
        record = next(answer, None)
        if not isinstance(record, first):
            answer.close()
            raise NotAText(f"not what was asked for: {record}")
        answer._of = of
        return record, cast("Answer[Asked]", answer)

    def _explained(self, line: str) -> "Tuple[Why, List[Hop]]":
        why, hops = self._first(line, Why, Hop)
        return why, list(hops)

    def _asked(self, lines: Iterable[str], of: Type[Asked], raises: bool = True) -> "Answer[Asked]":
        """Sends the lines, with a mark of its own behind each question and behind the last line."""
        self._set_aside()
        numbered: Dict[int, str] = {}
        steps: Deque[Tuple[Optional[str], str]] = deque()
        sent: List[str] = []
        question = None
        for line in lines:
            if "\n" in line:
                raise ValueError(f"more than one line: {line!r}")
            sent.append(line)
            numbered[self._lines + len(sent)] = line
            word = (line.split(maxsplit=1) or [""])[0]
            question = word if word in ANSWERS else None
            if question is not None:
                steps.append((question, self._mark(sent)))
        if question is None:
            steps.append((None, self._mark(sent)))
        self._lines += len(sent)
        self._process.send("".join(f"{line}\n" for line in sent).encode("utf-8", "surrogateescape"))
        self._awaited = steps[-1][1]
        answer = Answer(self, steps, of, numbered if raises else None)
        self._answer = weakref.ref(answer)
        return answer

    def _mark(self, sent: List[str]) -> str:
        """Appends a line that writes a mark, and returns the mark as the program writes it."""
        self._marks += 1
        sent.append(f"say {self._token} {self._marks}")
        return f"# {self._token} {self._marks}"

    def _set_aside(self) -> None:
        """Reads the answer before to its end. What wasn't read of it is kept as long as somebody holds it, and else dropped."""
        if self._status is not None:
            raise ValueError("the session is closed")
        answer = None if self._answer is None else self._answer()
        while self._awaited is not None:
            text = self._read()
            if answer is not None:
                answer._kept.append(text)

    def _forget(self, answer: "Answer[Asked]") -> None:
        """Nobody wants the rest of this answer."""
        if self._answer is not None and self._answer() is answer:
            self._answer = None

    def _read(self) -> str:
        """The next line of the answer that is awaited."""
        if self._status is not None:
            raise ValueError("the session is closed")
        text = self._process.read_line()
        if text == self._awaited:
            self._awaited = None
        return text


class Answer(Generic[Asked]):
    """What the program writes to some lines: an iterator, whose records are read as they are asked for.

    Of a million rows one is held at a time. Where another question is asked in between, the rest is read and kept first; that of an answer
    that nobody holds any more is dropped, with its refusals. Refusals that are to be raised are, by one Refused, behind the last record.
    """

    def __init__(self, session: Session, steps: Deque[Tuple[Optional[str], str]], of: Type[Asked],
                 numbered: Optional[Dict[int, str]]) -> None:
        self._session = session
        # the kind of each question, or None behind lines that ask nothing, and the mark at its end
        self._steps = steps
        self._of = of
        # the script's lines by number, where refusals are to be raised
        self._numbered = numbered
        self._kept: Deque[str] = deque()
        self._refusals: List[Refusal] = []

    def __iter__(self) -> Iterator[Asked]:
        return self

    def __next__(self) -> Asked:
        while self._steps:
            text = self._kept.popleft() if self._kept else self._session._read()
            kind, mark = self._steps[0]
            if text == mark:
                self._steps.popleft()
                continue
            record = parse_line(text, kind)
            if isinstance(record, Refusal) and self._numbered is not None:
                self._refusals.append(record)
            elif isinstance(record, self._of):
                return record
            else:
                raise NotAText(f"not what was asked for: {text!r}")
        if self._refusals and self._numbered is not None:
            refusals, self._refusals = self._refusals, []
            raise Refused(refusals, {refusal.line: self._numbered.get(refusal.line, "") for refusal in refusals})
        raise StopIteration

    def close(self) -> None:
        """Drops what wasn't read."""
        self._steps.clear()
        self._kept.clear()
        self._session._forget(self)
