"""The suspects of a route are its valleys, as tests/plainly.py works them out hop by hop."""
import random
import sys
import tempfile
import unittest
from pathlib import Path
from typing import Any, Dict, List, Set

from aspaview import Session, Suspects

from .places import TOP

sys.path.append(str(TOP / "tests"))
import plainly  # type: ignore[import]  # noqa: E402

ROLES = ["provider", "customer", "peer", "rs", "rs-client", "mutual"]


def drawn_path(draw: random.Random, peer: int) -> Any:
    """A path, most often of the peer's AS, with prepends and perhaps a loop."""
    ases = [peer] if draw.random() < 0.9 else []
    for _ in range(draw.randrange(8)):
        ases += [draw.randrange(1, 10)] * draw.choice([1, 1, 1, 2])
    return plainly.Path(draw.random() < 0.05, tuple(ases))


class Valleys(unittest.TestCase):
    def test_drawn_routes(self) -> None:
        several = 0
        for seed in range(12):
            with self.subTest(seed):
                several += self.compare(random.Random(seed))
        self.assertGreater(several, 20, "paths with more than one valley are among them")

    def compare(self, draw: random.Random) -> int:
        """Compares a table's routes, and answers how many have several valleys."""
        table: Dict[int, Set[int]] = {asn: set(draw.sample(range(1, 10), draw.randrange(1, 4))) - {asn} or {0}
                                      for asn in range(1, 10) if draw.random() < 0.8}
        peers = [plainly.Peer(f"192.0.2.{asn}", asn) for asn in range(1, 7)]
        roles = [draw.choice(ROLES) for _ in peers]
        paths: Dict[Any, List[Any]] = {}
        dump = plainly.peer_table(peers)
        for number in range(200):
            place = draw.randrange(len(peers))
            path = drawn_path(draw, peers[place].asn)
            prefix = plainly.ipaddress.ip_network(f"198.51.{number}.0/24")
            dump += plainly.announcement(place, prefix, None, path)
            paths[str(prefix)] = [roles[place], peers[place].asn, path]
        lines = [f"assert {asn} {' '.join(map(str, sorted(providers)))}" for asn, providers in table.items()]
        lines += [f"role {peer.asn} {role}" for peer, role in zip(peers, roles)]
        found = several = 0
        with tempfile.TemporaryDirectory() as folder, Session(cwd=folder, timeout=30) as session:
            Path(folder, "dump").write_bytes(dump)
            session.tell(*lines, "open dump dump", "take dump 1000")
            suspects = Suspects(session.suspects())
            for route in session.details():
                wanted = plainly.judge(table, *paths[str(route.prefix)])
                rows = suspects.of(route)
                self.assertEqual(f"{route.verdict} {route.witness}", f"{wanted.verdict} {wanted.witness}")
                self.assertEqual({(row.from_as, row.first, row.last, row.to_as) for row in rows}, wanted.valleys, str(route))
                found += 1
                several += len(rows) > 1
        self.assertEqual(found, 200)
        return several


if __name__ == "__main__":
    unittest.main()
