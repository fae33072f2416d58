"""What all lines of the program's text have in common, and what those of a route have: see ``texts`` for the lines."""
import re
from dataclasses import dataclass
from ipaddress import ip_address, ip_network
from typing import ClassVar, Dict, List, Match, Optional, Pattern, Tuple, Type, TypeVar, Union

from .spellings import ADDRESS, NUMBER, PREFIX, Address, Network, NotAText, Verdict, read_address, read_network, written_address, written_network

Cell = Union[None, bool, int, str, List[int]]
SomeRecord = TypeVar("SomeRecord", bound="Record")

# Pieces of the lines' shapes, as regular expressions.
KEY = rf"(?P<peer>{ADDRESS}) (?P<peer_as>{NUMBER}) (?P<prefix>{PREFIX})(?: path (?P<path_id>{NUMBER}))?"
VERDICT = "(?P<verdict>valid|unknown|invalid)"
_HOPS = rf"(?: {NUMBER}){{1,2}}"
_LABELS = rf"climbs (?P<climbs>{NUMBER}) free (?P<free>{NUMBER}) descents (?P<descents>{NUMBER})"
WITNESS = rf"(?P<witness>empty|set|neighbour|blocked(?P<blocked>{_HOPS})|(?:unsettled(?P<unsettled>{_HOPS}) )?{_LABELS})"


def read_number(text: Optional[str]) -> Optional[int]:
    """The number of its text, or None of none."""
    return None if text is None else int(text)


class Record:
    """A line of the program's text.

    ``kind`` is the first word of the script's line that asks for it, or ``refused``. ``columns`` are its values in a table, by name.
    """
    kind: ClassVar[str]
    columns: ClassVar[Tuple[str, ...]]
    _shape: ClassVar[Pattern[str]]

    @classmethod
    def parse(cls: Type[SomeRecord], text: str) -> SomeRecord:
        """The record of a line without its LF. It raises NotAText where this is no line of the kind."""
        record = cls.match(text)
        if record is None:
            raise NotAText(f"no line of {cls.kind}: {text!r}")
        return record

    @classmethod
    def match(cls: Type[SomeRecord], text: str) -> Optional[SomeRecord]:
        """The same, but None where the line hasn't the shape of this kind. It raises NotAText where its values aren't spelled as they should."""
        found = cls._shape.fullmatch(text)
        if found is None:
            return None
        try:
            return cls._of(found)
        except ValueError as fault:
            raise NotAText(f"no line of {cls.kind}: {text!r}: {fault}") from fault

    @classmethod
    def _of(cls: Type[SomeRecord], found: Match[str]) -> SomeRecord:
        raise NotImplementedError

    def as_row(self) -> Dict[str, Cell]:
        """The values by column, as JSON has them: addresses and prefixes as RFC 5952 writes them, and None where there is none."""
        return {name: _cell(getattr(self, name)) for name in self.columns}


@dataclass(frozen=True)
class Key:
    """What a route is known by: its peer, its prefix, and its path identifier, or None without one."""
    peer: Address
    peer_as: int
    prefix: Network
    path_id: Optional[int]

    @staticmethod
    def of(peer: Union[Address, str], peer_as: int, prefix: Union[Network, str], path_id: Optional[int] = None) -> "Key":
        """A key of addresses in any spelling."""
        return Key(ip_address(peer), peer_as, ip_network(prefix), path_id)

    @property
    def key(self) -> "Key":
        """These four values alone, as for a dictionary."""
        return Key(self.peer, self.peer_as, self.prefix, self.path_id)

    def _key_text(self) -> str:
        path = "" if self.path_id is None else f" path {self.path_id}"
        return f"{written_address(self.peer)} {self.peer_as} {written_network(self.prefix)}{path}"

    def __str__(self) -> str:
        return self._key_text()


KEY_COLUMNS = ("peer", "peer_as", "prefix", "path_id")


def read_key(found: Match[str]) -> Tuple[Address, int, Network, Optional[int]]:
    """The fields of a Key."""
    return read_address(found["peer"]), int(found["peer_as"]), read_network(found["prefix"]), read_number(found["path_id"])


@dataclass(frozen=True)
class Witness:
    """The few facts from which a verdict follows: chapter 6 of docs/guide.md says what each one means.

    ``word`` is ``climbs``, ``empty``, ``set``, ``neighbour``, ``blocked`` or ``unsettled``. ``hops`` are the one or two of ``blocked`` and
    ``unsettled``, counted from 1 at the origin. ``climbs``, ``free`` and ``descents`` say how many hops are so; the words ``climbs`` and
    ``unsettled`` have them.
    """
    word: str
    hops: Tuple[int, ...] = ()
    climbs: Optional[int] = None
    free: Optional[int] = None
    descents: Optional[int] = None

    def __str__(self) -> str:
        words = [] if self.word == "climbs" else [self.word, *map(str, self.hops)]
        if self.climbs is not None:
            words.append(f"climbs {self.climbs} free {self.free} descents {self.descents}")
        return " ".join(words)


def _cell(value: object) -> Cell:
    if value is None or isinstance(value, int):
        return value
    if isinstance(value, tuple):
        return list(value)
    return value.word if isinstance(value, Witness) else str(value)


VERDICTS = {
    "climbs": Verdict.VALID,
    "unsettled": Verdict.UNKNOWN,
    "empty": Verdict.INVALID,
    "set": Verdict.INVALID,
    "neighbour": Verdict.INVALID,
    "blocked": Verdict.INVALID,
}


def read_witness(found: Match[str]) -> Tuple[Verdict, Witness]:
    """A verdict and its witness; ValueError where the witness isn't one of this verdict."""
    verdict, word = Verdict(found["verdict"]), found["witness"].partition(" ")[0]
    if VERDICTS[word] is not verdict:
        raise ValueError(f"{verdict} has no witness {word}")
    hops = tuple(map(int, (found["blocked"] or found["unsettled"] or "").split()))
    return verdict, Witness(word, hops, *(read_number(found[name]) for name in ("climbs", "free", "descents")))


class Witnessed:
    """The columns of a record with a witness."""
    witness: Witness

    @property
    def hops(self) -> Tuple[int, ...]:
        """The hops that the witness names."""
        return self.witness.hops

    @property
    def climbs(self) -> Optional[int]:
        """How many hops climb."""
        return self.witness.climbs

    @property
    def free(self) -> Optional[int]:
        """How many hops may be anything: none or one."""
        return self.witness.free

    @property
    def descents(self) -> Optional[int]:
        """How many hops descend."""
        return self.witness.descents


WITNESS_COLUMNS = ("climbs", "free", "descents")


def compiled(shape: str) -> Pattern[str]:
    """A line's shape. Digits and blanks are those of ASCII alone."""
    return re.compile(shape, re.ASCII)
