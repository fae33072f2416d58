"""What goes wrong in a session."""
import signal
from typing import Dict, Sequence

from .texts import Refusal

# What docs/guide.md says of them in chapter 17. 0 and 1 are those of a good end: who asks what they mean still waits for an answer.
STATUSES = {
    0: "it ended before it had answered",
    1: "it ended before it had answered",
    2: "its words were neither 'run' nor 'demo' with a number",
    3: "the script or a file couldn't be read, for another reason than that it isn't there",
    4: "its output couldn't be written",
    5: "there was no memory",
    6: "the script has more than 64 MiB",
    70: "the launcher couldn't build the program",
}


def meaning_of(status: int) -> str:
    """What it means that the program ended with this status; a negative one is the number of a signal, as in ``subprocess``."""
    if status >= 0:
        return STATUSES.get(status, "no status of aspaview")
    try:
        return f"it was ended by the signal {signal.Signals(-status).name}"
    except ValueError:
        return f"it was ended by the signal {-status}"


class AspaviewError(Exception):
    """What is raised by a session, but for mistakes in its use."""


class ProgramEnded(AspaviewError):
    """The program ended, and not all that was asked is answered. ``status`` is as in ``subprocess``, and ``meaning`` what it means."""

    def __init__(self, status: int) -> None:
        super().__init__(status)
        self.status = status
        self.meaning = meaning_of(status)

    def __str__(self) -> str:
        return f"aspaview ended with status {self.status}: {self.meaning}"


class Refused(AspaviewError):
    """Lines of the script, or units that they took, were refused; all others were performed.

    ``refusals`` are the records, and ``lines`` the script's lines that they name, by number.
    """

    def __init__(self, refusals: Sequence[Refusal], lines: Dict[int, str]) -> None:
        super().__init__(refusals, lines)
        self.refusals = tuple(refusals)
        self.lines = lines

    def __str__(self) -> str:
        first = self.refusals[0]
        more = f" (and {len(self.refusals) - 1} more)" if len(self.refusals) > 1 else ""
        return f"{first}: {self.lines.get(first.line, '')}{more}"
