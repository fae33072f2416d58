"""aspaview from Python: a session with the program, and its texts as records. docs/python.md has examples."""
from importlib import metadata
from pathlib import Path

from .errors import AspaviewError, ProgramEnded, Refused
from .process import find_program
from .records import Key, Record, Witness
from .session import Answer, Session
from .spellings import Address, Network, NotAText, Rule, Stance, State, Verdict
from .suspects import Suspects
from .texts import (Assertion, Attested, Change, Demo, Detail, Hop, Judged, Leak, Neighbour, Origin, Own, Peer, Refusal, Route, Said, Sent, Served,
                    Silent, Summary, Suspect, Why, parse, parse_line)

__all__ = [
    "Address", "Answer", "AspaviewError", "Assertion", "Attested", "Change", "Demo", "Detail", "Hop", "Judged", "Key", "Leak", "Neighbour",
    "Network", "NotAText", "Origin", "Own", "Peer", "ProgramEnded", "Record", "Refusal", "Refused", "Route", "Rule", "Said", "Sent", "Served",
    "Session", "Silent", "Stance", "State", "Summary", "Suspect", "Suspects", "Verdict", "Why", "Witness", "find_program", "parse", "parse_line",
]


def _version() -> str:
    """That of the file VERSION two folders above, as in a checkout and where the program is installed, or else what pip noted."""
    file = Path(__file__).resolve().parents[2] / "VERSION"
    return file.read_text(encoding="ascii").strip() if file.is_file() else metadata.version("aspaview")


__version__ = _version()
