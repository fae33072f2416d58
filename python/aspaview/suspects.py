"""Which suspects a route has: the rows of ``suspects`` that its path, as ``details`` writes it, goes through."""
from collections import defaultdict
from typing import DefaultDict, Iterable, List, Tuple

from .texts import Detail, Suspect


class Suspects:
    """Rows of ``suspects``, asked together with the ``details`` of the routes.

    A row holds for each route whose path goes from FROM to FIRST, and later from LAST to TO, unless another row lies within. So the
    valleys of a path are found without what attests (docs/definitions.md, 'Valleys').
    """

    def __init__(self, rows: Iterable[Suspect]) -> None:
        self._rows: DefaultDict[Tuple[int, int], List[Suspect]] = defaultdict(list)
        for row in rows:
            self._rows[row.from_as, row.first].append(row)

    def of(self, route: Detail) -> List[Suspect]:
        """The rows that hold for a route, in the order in which it went. A route that isn't ``invalid blocked`` has none."""
        if route.witness.word != "blocked":
            return []
        found = self._spans(route)
        inner = [(begin, end, row) for begin, end, row in found
                 if not any((begin, end) != (b, e) and begin <= b and e <= end for b, e, _ in found)]
        return [row for _, _, row in inner]

    def _spans(self, route: Detail) -> List[Tuple[int, int, Suspect]]:
        """Each row that the path goes through, with the hops from which and to which it does, counted from 1 at the origin."""
        chain = route.path[::-1]
        hops = list(zip(chain, chain[1:]))
        spans: List[Tuple[int, int, Suspect]] = []
        for begin, hop in enumerate(hops, 1):
            for row in self._rows.get(hop, ()):
                ends = [end for end in range(begin + 1, len(chain)) if hops[end - 1] == (row.last, row.to_as)]
                # (the witness of a route that might come down has two hops, and then nothing is refused at `here`)
                if row.to_as is None and row.last == chain[-1] and len(route.witness.hops) == 1:
                    ends.append(len(chain))
                spans.extend((begin, end, row) for end in ends[:1])
        return spans
