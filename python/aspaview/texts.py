"""The lines that the program writes, each as a frozen dataclass: docs/formats.md lists them under 'What is written'.

``parse_line`` makes a record of a line, and ``str()`` of a record is its line, byte for byte and without the LF. To add a text, write a
class as these are, and name it in ``RECORDS``, and under what it answers in ``_ALONE`` or ``ANSWERS``.
"""
from dataclasses import dataclass
from typing import Dict, Iterable, Iterator, Match, Optional, Tuple, Type

from .records import (KEY, KEY_COLUMNS, VERDICT, WITNESS, WITNESS_COLUMNS, Key, Record, Witness, Witnessed, compiled, read_key,
                      read_number, read_witness)
from .spellings import ADDRESS, NAME, NUMBER, Address, NotAText, Rule, Stance, State, Verdict, read_address, written_address

STANCES = "(?P<climb>provides|refuses|silent) descend (?P<descend>provides|refuses|silent)"
ASES = rf"(?P<providers>(?: {NUMBER})+)"


def written_ases(numbers: Iterable[int]) -> str:
    """ASes as a line has them, a blank in front of each."""
    return "".join(f" {number}" for number in numbers)


# ---- rows of routes

@dataclass(frozen=True)
class Route(Key, Record):
    """A row of ``report``: a route and its verdict."""
    kind = "report"
    columns = (*KEY_COLUMNS, "verdict")
    _shape = compiled(f"{KEY} {VERDICT}")
    verdict: Verdict

    @classmethod
    def _of(cls, found: Match[str]) -> "Route":
        return cls(*read_key(found), Verdict(found["verdict"]))

    def __str__(self) -> str:
        return f"{self._key_text()} {self.verdict}"


@dataclass(frozen=True)
class Own(Record):
    """The first line of ``sent``: the verdict of what we originate, as the AS sees it that gets it over the line's ASes."""
    kind = "own"
    columns = ("verdict",)
    _shape = compiled(f"own {VERDICT}")
    verdict: Verdict

    @classmethod
    def _of(cls, found: Match[str]) -> "Own":
        return cls(Verdict(found["verdict"]))

    def __str__(self) -> str:
        return f"own {self.verdict}"


@dataclass(frozen=True)
class Sent(Key, Record):
    """A row of ``sent``: a route that is sent upwards, with the verdict that its path has there."""
    kind = "sent"
    columns = (*KEY_COLUMNS, "verdict")
    _shape = compiled(f"{KEY} {VERDICT}")
    verdict: Verdict

    @classmethod
    def _of(cls, found: Match[str]) -> "Sent":
        return cls(*read_key(found), Verdict(found["verdict"]))

    def __str__(self) -> str:
        return f"{self._key_text()} {self.verdict}"


@dataclass(frozen=True)
class Detail(Witnessed, Key, Record):
    """A row of ``details`` or ``routes``: a route with its verdict, its witness and its path.

    ``path`` has the neighbour first and no prepends. ``set`` says that the path has an AS_SET, of which no AS stands in ``path``.
    """
    kind = "details"
    columns = (*KEY_COLUMNS, "verdict", "witness", "hops", "path", "origin", "set", *WITNESS_COLUMNS)
    _shape = compiled(rf"{KEY} {VERDICT} {WITNESS} path(?P<set> set)?(?P<path>(?: {NUMBER})*)")
    verdict: Verdict
    witness: Witness
    path: Tuple[int, ...]
    set: bool

    @property
    def origin(self) -> Optional[int]:
        """The AS that the route comes from: the last one of its path. A path with an AS_SET, or without an AS, has none."""
        return self.path[-1] if self.path and not self.set else None

    @classmethod
    def _of(cls, found: Match[str]) -> "Detail":
        path = tuple(map(int, found["path"].split()))
        return cls(*read_key(found), *read_witness(found), path, found["set"] is not None)

    def __str__(self) -> str:
        return f"{self._key_text()} {self.verdict} {self.witness} path{' set' if self.set else ''}{written_ases(self.path)}"


@dataclass(frozen=True)
class Change(Key, Record):
    """A row of ``changes``: the marked verdict and the current one. None stands for ``none``: there was, or is, no route."""
    kind = "changes"
    columns = (*KEY_COLUMNS, "before", "after")
    _shape = compiled(f"{KEY} (?P<before>valid|unknown|invalid|none) (?P<after>valid|unknown|invalid|none)")
    before: Optional[Verdict]
    after: Optional[Verdict]

    @classmethod
    def _of(cls, found: Match[str]) -> "Change":
        before, after = (None if word == "none" else Verdict(word) for word in found.group("before", "after"))
        return cls(*read_key(found), before, after)

    def __str__(self) -> str:
        return f"{self._key_text()} {self.before or 'none'} {self.after or 'none'}"


@dataclass(frozen=True)
class Leak(Key, Record):
    """A row of ``leaks``: a route whose attribute Only-to-Customer tells a leak. ``otc`` is the AS in it, None where it is malformed."""
    kind = "leaks"
    columns = (*KEY_COLUMNS, "rule", "otc")
    _shape = compiled(f"{KEY} (?:(?P<rule>customer|rs-client|peer) (?P<otc>{NUMBER})|malformed)")
    rule: Rule
    otc: Optional[int]

    @classmethod
    def _of(cls, found: Match[str]) -> "Leak":
        return cls(*read_key(found), Rule(found["rule"] or "malformed"), read_number(found["otc"]))

    def __str__(self) -> str:
        return f"{self._key_text()} {self.rule}{'' if self.otc is None else f' {self.otc}'}"


@dataclass(frozen=True)
class Origin(Key, Record):
    """A row of ``origins``: a route and the state of its origin."""
    kind = "origins"
    columns = (*KEY_COLUMNS, "state")
    _shape = compiled(f"{KEY} (?P<state>valid|invalid|not-found)")
    state: State

    @classmethod
    def _of(cls, found: Match[str]) -> "Origin":
        return cls(*read_key(found), State(found["state"]))

    def __str__(self) -> str:
        return f"{self._key_text()} {self.state}"


# ---- rows of ASes and of peers

@dataclass(frozen=True)
class Suspect(Record):
    """A row of ``suspects``: so many routes went from ``from_as`` to ``first``, and from ``last`` to ``to_as``, which is None for ``here``.

    If what attests is right, an AS from ``first`` to ``last`` leaked them. ``paths`` is the number of distinct paths that they have.
    """
    kind = "suspects"
    columns = ("from_as", "first", "last", "to_as", "routes", "paths")
    _shape = compiled(rf"(?P<from>{NUMBER}) (?P<first>{NUMBER}) (?P<last>{NUMBER}) (?:(?P<to>{NUMBER})|here)"
                      rf" routes (?P<routes>{NUMBER}) paths (?P<paths>{NUMBER})")
    from_as: int
    first: int
    last: int
    to_as: Optional[int]
    routes: int
    paths: int

    @classmethod
    def _of(cls, found: Match[str]) -> "Suspect":
        from_as, first, last, routes, paths = map(int, found.group("from", "first", "last", "routes", "paths"))
        return cls(from_as, first, last, read_number(found["to"]), routes, paths)

    def __str__(self) -> str:
        to = "here" if self.to_as is None else self.to_as
        return f"{self.from_as} {self.first} {self.last} {to} routes {self.routes} paths {self.paths}"


@dataclass(frozen=True)
class Peer(Record):
    """A row of ``peers``: a peer that has routes, or an AS that has a role of its own and none, of which ``peer`` is None.

    ``role`` is that of the AS, and ``own`` says that it was set for this AS. ``routes`` is how many the peer has; the others count them by
    verdict.
    """
    kind = "peers"
    columns = ("peer", "peer_as", "role", "own", "routes", "valid", "unknown", "invalid")
    _shape = compiled(rf"(?:(?P<peer>{ADDRESS})|-) (?P<peer_as>{NUMBER}) (?P<role>provider|customer|peer|rs|rs-client|mutual)"
                      rf" (?P<whose>own|default) routes (?P<routes>{NUMBER}) valid (?P<valid>{NUMBER})"
                      rf" unknown (?P<unknown>{NUMBER}) invalid (?P<invalid>{NUMBER})")
    peer: Optional[Address]
    peer_as: int
    role: str
    own: bool
    routes: int
    valid: int
    unknown: int
    invalid: int

    @classmethod
    def _of(cls, found: Match[str]) -> "Peer":
        peer = None if found["peer"] is None else read_address(found["peer"])
        counts = map(int, found.group("routes", "valid", "unknown", "invalid"))
        return cls(peer, int(found["peer_as"]), found["role"], found["whose"] == "own", *counts)

    def __str__(self) -> str:
        peer = "-" if self.peer is None else written_address(self.peer)
        counts = " ".join(f"{name} {getattr(self, name)}" for name in self.columns[4:])
        return f"{peer} {self.peer_as} {self.role} {'own' if self.own else 'default'} {counts}"


@dataclass(frozen=True)
class Neighbour(Record):
    """A row of ``neighbours``: an AS beside the one that was asked for, on some route's path.

    ``climb`` is what ``asn`` attests of ``neighbour``, and ``descend`` what that attests of ``asn``. ``to_routes`` went from ``asn`` to the
    neighbour, and ``from_routes`` came from it.
    """
    kind = "neighbours"
    columns = ("asn", "neighbour", "climb", "descend", "to_routes", "from_routes")
    _shape = compiled(rf"(?P<asn>{NUMBER}) (?P<neighbour>{NUMBER}) climb {STANCES} to (?P<to>{NUMBER}) from (?P<from>{NUMBER})")
    asn: int
    neighbour: int
    climb: Stance
    descend: Stance
    to_routes: int
    from_routes: int

    @classmethod
    def _of(cls, found: Match[str]) -> "Neighbour":
        stances = Stance(found["climb"]), Stance(found["descend"])
        return cls(int(found["asn"]), int(found["neighbour"]), *stances, int(found["to"]), int(found["from"]))

    def __str__(self) -> str:
        return f"{self.asn} {self.neighbour} climb {self.climb} descend {self.descend} to {self.to_routes} from {self.from_routes}"


@dataclass(frozen=True)
class Silent(Record):
    """A row of ``silent``: an AS that attests nothing, with how many unknown routes ask about it, and how many distinct paths these have."""
    kind = "silent"
    columns = ("asn", "routes", "paths")
    _shape = compiled(rf"(?P<asn>{NUMBER}) routes (?P<routes>{NUMBER}) paths (?P<paths>{NUMBER})")
    asn: int
    routes: int
    paths: int

    @classmethod
    def _of(cls, found: Match[str]) -> "Silent":
        return cls(*map(int, found.group("asn", "routes", "paths")))

    def __str__(self) -> str:
        return f"{self.asn} routes {self.routes} paths {self.paths}"


# ---- what attests

@dataclass(frozen=True)
class Assertion(Record):
    """A line of ``attests``, which is one of a script: the customer attests these providers. ``(0,)`` says that it has none.

    A customer with very many providers has several lines.
    """
    kind = "assert"
    columns = ("customer", "providers")
    _shape = compiled(rf"assert (?P<customer>{NUMBER}){ASES}")
    customer: int
    providers: Tuple[int, ...]

    @classmethod
    def _of(cls, found: Match[str]) -> "Assertion":
        return cls(int(found["customer"]), tuple(map(int, found["providers"].split())))

    def __str__(self) -> str:
        return f"assert {self.customer}{written_ases(self.providers)}"


@dataclass(frozen=True)
class Attested(Record):
    """A line of ``attests AS``: where the row of one customer comes from, and last the row itself.

    ``word`` is ``source``, ``slurm``, ``hand``, ``filtered`` or ``row``. ``name`` is that of the source, or ``slurm`` or ``hand`` of a filter.
    ``providers`` are those that are attested, in which ``(0,)`` says none; they are None of a filter, and of a row that isn't there. ``until``
    is the end of a source's attestation, None where it never ends, and ``ended`` says that this is over.
    """
    kind = "attests"
    columns = ("word", "name", "until", "ended", "providers")
    _shape = compiled(rf"(?:source (?P<name>{NAME})(?: until (?P<until>{NUMBER}))?(?P<attested>(?: {NUMBER})+)(?P<ended> ended)?"
                      rf"|(?P<part>slurm|hand|row){ASES}|filtered (?P<filter>slurm|hand)|row none)")
    word: str
    name: Optional[str]
    until: Optional[int]
    ended: bool
    providers: Optional[Tuple[int, ...]]

    @classmethod
    def _of(cls, found: Match[str]) -> "Attested":
        listed = found["attested"] or found["providers"]
        providers = None if listed is None else tuple(map(int, listed.split()))
        return cls(found[0].partition(" ")[0], found["name"] or found["filter"], read_number(found["until"]), found["ended"] is not None,
                   providers)

    def __str__(self) -> str:
        name = "" if self.name is None else f" {self.name}"
        until = "" if self.until is None else f" until {self.until}"
        if self.providers is None:
            return f"{self.word}{name}{' none' if self.word == 'row' else ''}"
        return f"{self.word}{name}{until}{written_ases(self.providers)}{' ended' if self.ended else ''}"


# ---- answers about all routes together, or about one

@dataclass(frozen=True)
class Summary(Record):
    """The line of ``summary``. ``refused`` counts the lines so far that begin with ``! ``."""
    kind = "summary"
    columns = ("routes", "valid", "unknown", "invalid", "customers", "passed", "refused")
    _shape = compiled("summary " + " ".join(f"{name} ({NUMBER})" for name in columns))
    routes: int
    valid: int
    unknown: int
    invalid: int
    customers: int
    passed: int
    refused: int

    @classmethod
    def _of(cls, found: Match[str]) -> "Summary":
        return cls(*map(int, found.groups()))

    def __str__(self) -> str:
        return " ".join(["summary", *(f"{name} {getattr(self, name)}" for name in self.columns)])


@dataclass(frozen=True)
class Why(Witnessed, Record):
    """The answer to ``why``, and the first line of ``explain``: the verdict of a route, or of a path, and its witness."""
    kind = "why"
    columns = ("verdict", "witness", "hops", *WITNESS_COLUMNS)
    _shape = compiled(f"{VERDICT} {WITNESS}")
    verdict: Verdict
    witness: Witness

    @classmethod
    def _of(cls, found: Match[str]) -> "Why":
        return cls(*read_witness(found))

    def __str__(self) -> str:
        return f"{self.verdict} {self.witness}"


@dataclass(frozen=True)
class Hop(Record):
    """A further line of ``explain``: hop ``number``, counted from 1 at the origin, from the lower AS to the upper one.

    ``climb`` is what ``from_as`` attests of ``to_as``, and ``descend`` what ``to_as`` attests of ``from_as``.
    """
    kind = "hop"
    columns = ("number", "from_as", "to_as", "climb", "descend")
    _shape = compiled(rf"hop (?P<number>{NUMBER}) (?P<from>{NUMBER}) (?P<to>{NUMBER}) climb {STANCES}")
    number: int
    from_as: int
    to_as: int
    climb: Stance
    descend: Stance

    @classmethod
    def _of(cls, found: Match[str]) -> "Hop":
        number, from_as, to_as = map(int, found.group("number", "from", "to"))
        return cls(number, from_as, to_as, Stance(found["climb"]), Stance(found["descend"]))

    def __str__(self) -> str:
        return f"hop {self.number} {self.from_as} {self.to_as} climb {self.climb} descend {self.descend}"


@dataclass(frozen=True)
class Judged(Record):
    """The answer to ``judge``: the verdict of a path."""
    kind = "judge"
    columns = ("verdict",)
    _shape = compiled(VERDICT)
    verdict: Verdict

    @classmethod
    def _of(cls, found: Match[str]) -> "Judged":
        return cls(Verdict(found["verdict"]))

    def __str__(self) -> str:
        return str(self.verdict)


# ---- other lines

@dataclass(frozen=True)
class Served(Record):
    """The last line of ``serve``: so many routers were accepted, and so many answers sent whole."""
    kind = "serve"
    columns = ("routers", "answers")
    _shape = compiled(f"served ({NUMBER}) answers ({NUMBER})")
    routers: int
    answers: int

    @classmethod
    def _of(cls, found: Match[str]) -> "Served":
        return cls(*map(int, found.groups()))

    def __str__(self) -> str:
        return f"served {self.routers} answers {self.answers}"


@dataclass(frozen=True)
class Said(Record):
    """The line of ``say``, a mark between answers: its words, with one space between two."""
    kind = "say"
    columns = ("words",)
    _shape = compiled("# ([!-~]+(?: [!-~]+)*)")
    words: str

    @classmethod
    def _of(cls, found: Match[str]) -> "Said":
        return cls(found[1])

    def __str__(self) -> str:
        return f"# {self.words}"


@dataclass(frozen=True)
class Demo(Record):
    """The last line of ``demo N``: how many routes have another verdict than the marked one. The two before are of Summary."""
    kind = "demo"
    columns = ("changed",)
    _shape = compiled(f"changed ({NUMBER})")
    changed: int

    @classmethod
    def _of(cls, found: Match[str]) -> "Demo":
        return cls(int(found[1]))

    def __str__(self) -> str:
        return f"changed {self.changed}"


@dataclass(frozen=True)
class Refusal(Record):
    """A line that begins with ``! ``: of a line of the script, of a unit that it reads or takes, or of a connection.

    ``line`` is the number of the script's line. ``source`` is the name of the source, the dump or the feed, ``slurm`` or ``serve``; it is
    None where the line itself is refused. ``unit`` and ``cause`` are numbers; ``word`` is the cause's. Of a connection ``word`` is
    ``unreachable``, ``lost`` or ``short``, and there is neither a unit nor a cause.
    """
    kind = "refused"
    columns = ("line", "source", "unit", "cause", "word")
    _shape = compiled(rf"! line (?P<line>{NUMBER})"
                      rf"(?:(?: (?P<source>[A-Za-z0-9._-]+) unit (?P<unit>{NUMBER}))? cause (?P<cause>{NUMBER}) (?P<word>[A-Za-z0-9]+)"
                      r"| (?P<name>[A-Za-z0-9._-]+) (?P<end>unreachable|lost|short))")
    line: int
    source: Optional[str]
    unit: Optional[int]
    cause: Optional[int]
    word: str

    @classmethod
    def _of(cls, found: Match[str]) -> "Refusal":
        source, word = found["source"] or found["name"], found["word"] or found["end"]
        return cls(int(found["line"]), source, read_number(found["unit"]), read_number(found["cause"]), word)

    def __str__(self) -> str:
        source = "" if self.source is None else f" {self.source}"
        unit = "" if self.unit is None else f" unit {self.unit}"
        cause = "" if self.cause is None else f" cause {self.cause}"
        return f"! line {self.line}{source}{unit}{cause} {self.word}"


# ---- which line it is

# By shape, the first of these that fits: a row with a verdict alone behind its prefix is taken for one of a report.
RECORDS: Tuple[Type[Record], ...] = (
    Route, Detail, Change, Leak, Origin, Own, Suspect, Peer, Neighbour, Silent, Assertion, Attested, Refusal, Summary, Why, Hop, Judged, Said, Served,
    Demo, Sent)

BY_KIND: Dict[str, Type[Record]] = {record.kind: record for record in RECORDS}

# Those whose kind is the question that they alone answer.
_ALONE: Tuple[Type[Record], ...] = (
    Route, Detail, Change, Leak, Origin, Suspect, Peer, Neighbour, Silent, Summary, Why, Judged, Said, Served, Demo)

# What each question is answered by, by its first word.
ANSWERS: Dict[str, Tuple[Type[Record], ...]] = {
    **{record.kind: (record,) for record in _ALONE},
    "sent": (Own, Sent),
    "routes": (Detail,),
    "explain": (Why, Hop),
    "attests": (Assertion, Attested),
}


def parse_line(text: str, asked: Optional[str] = None) -> Record:
    """The record of a line, which may have its LF.

    ``asked`` is the line of the script that it answers, or the first word of that: then it is of a kind that answers this, or a refusal.
    Without it the line is told by its shape. That leaves one doubt: ``ADDRESS AS PREFIX VERDICT`` is a row of ``report`` or of ``sent``, and
    with ``valid`` or ``invalid`` perhaps of ``origins``; it is taken for one of ``report``. It raises NotAText where the line is none that the
    program writes.
    """
    text = text[:-1] if text.endswith("\n") else text
    if asked is None:
        candidates = RECORDS
    else:
        candidates = (Refusal,) if text.startswith("! ") else ANSWERS.get((asked.split() or [""])[0], (Refusal,))
    for candidate in candidates:
        record = candidate.match(text)
        if record is not None:
            return record
    raise NotAText(f"no line of {asked}: {text!r}" if asked else f"no line that the program writes: {text!r}")


def parse(lines: Iterable[str], asked: Optional[str] = None) -> Iterator[Record]:
    """The records of lines, one by one, as ``parse_line`` makes them."""
    for text in lines:
        yield parse_line(text, asked)
