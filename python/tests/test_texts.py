"""Each text is read, and written again byte for byte; others are refused."""
import dataclasses
import unittest
from ipaddress import ip_address, ip_network
from typing import Dict

from aspaview import (Assertion, Attested, Change, Demo, Detail, Hop, Judged, Key, Leak, Neighbour, NotAText, Origin, Own, Peer, Record, Refusal,
                      Route, Rule, Said, Sent, Served, Silent, Stance, State, Summary, Suspect, Verdict, Why, Witness, parse, parse_line)
from aspaview.texts import ANSWERS, BY_KIND, RECORDS

from .places import TOP
from .rows import all_rows

PEER = ip_address("192.0.2.1"), 64501
LONG = "2001:0db8:0010:0000:0000:0000:0000:0000/48"

# The lines that docs/formats.md shows, and what they say.
SHOWN: Dict[str, Record] = {
    "192.0.2.1 64501 203.0.113.0/24 invalid": Route(*PEER, ip_network("203.0.113.0/24"), None, Verdict.INVALID),
    "192.0.2.3 64503 203.0.113.0/24 path 1 valid": Route(ip_address("192.0.2.3"), 64503, ip_network("203.0.113.0/24"), 1, Verdict.VALID),
    "192.0.2.1 64501 203.0.113.0/24 invalid blocked 2 path 64501 64503 64530": Detail(
        *PEER, ip_network("203.0.113.0/24"), None, Verdict.INVALID, Witness("blocked", (2,)), (64501, 64503, 64530), False),
    "192.0.2.3 64503 203.0.113.0/24 path 1 valid climbs 1 free 0 descents 0 path 64503 64530": Detail(
        ip_address("192.0.2.3"), 64503, ip_network("203.0.113.0/24"), 1, Verdict.VALID, Witness("climbs", (), 1, 0, 0), (64503, 64530), False),
    f"192.0.2.1 64501 {LONG} invalid set path set 64501": Detail(
        *PEER, ip_network("2001:db8:10::/48"), None, Verdict.INVALID, Witness("set"), (64501,), True),
    "64502 64540 64540 64503 routes 1 paths 1": Suspect(64502, 64540, 64540, 64503, 1, 1),
    "64503 64501 64501 here routes 3 paths 2": Suspect(64503, 64501, 64501, None, 3, 2),
    "192.0.2.2 64502 peer own routes 1 valid 1 unknown 0 invalid 0": Peer(ip_address("192.0.2.2"), 64502, "peer", True, 1, 1, 0, 0),
    "192.0.2.3 64503 provider default routes 3 valid 2 unknown 1 invalid 0": Peer(
        ip_address("192.0.2.3"), 64503, "provider", False, 3, 2, 1, 0),
    "- 64520 rs-client own routes 0 valid 0 unknown 0 invalid 0": Peer(None, 64520, "rs-client", True, 0, 0, 0, 0),
    "own unknown": Own(Verdict.UNKNOWN),
    "hop 2 64503 64501 climb refuses descend provides": Hop(2, 64503, 64501, Stance.REFUSES, Stance.PROVIDES),
    "64503 64541 climb refuses descend silent to 0 from 1": Neighbour(64503, 64541, Stance.REFUSES, Stance.SILENT, 0, 1),
    "64540 routes 1 paths 1": Silent(64540, 1, 1),
    "assert 64501 64500 64503": Assertion(64501, (64500, 64503)),
    "assert 64502 0": Assertion(64502, (0,)),
    "source rpki 64500 64503": Attested("source", "rpki", None, False, (64500, 64503)),
    "source until 64497": Attested("source", "until", None, False, (64497,)),
    "source until until 64497 0": Attested("source", "until", 64497, False, (0,)),
    "source 7 until 7 64498 ended": Attested("source", "7", 7, True, (64498,)),
    "source a 64498 ended": Attested("source", "a", None, True, (64498,)),
    "slurm 0": Attested("slurm", None, None, False, (0,)),
    "hand 0 7": Attested("hand", None, None, False, (0, 7)),
    "filtered slurm": Attested("filtered", "slurm", None, False, None),
    "filtered hand": Attested("filtered", "hand", None, False, None),
    "row 64497 64498": Attested("row", None, None, False, (64497, 64498)),
    "row none": Attested("row", None, None, False, None),
    "# after the updates": Said("after the updates"),
    "# ! x": Said("! x"),
    "192.0.2.3 64503 2001:0db8:0040:0000:0000:0000:0000:0000/48 not-found": Origin(
        ip_address("192.0.2.3"), 64503, ip_network("2001:db8:40::/48"), None, State.NOT_FOUND),
    "192.0.2.1 64501 203.0.113.0/24 customer 64503": Leak(*PEER, ip_network("203.0.113.0/24"), None, Rule.CUSTOMER, 64503),
    f"192.0.2.1 64501 {LONG} malformed": Leak(*PEER, ip_network("2001:db8:10::/48"), None, Rule.MALFORMED, None),
    "192.0.2.1 64501 198.51.100.0/24 valid invalid": Change(*PEER, ip_network("198.51.100.0/24"), None, Verdict.VALID, Verdict.INVALID),
    "192.0.2.1 64501 203.0.113.0/24 none invalid": Change(*PEER, ip_network("203.0.113.0/24"), None, None, Verdict.INVALID),
    "invalid": Judged(Verdict.INVALID),
    "invalid blocked 2": Why(Verdict.INVALID, Witness("blocked", (2,))),
    "unknown unsettled 1 2 climbs 2 free 0 descents 0": Why(Verdict.UNKNOWN, Witness("unsettled", (1, 2), 2, 0, 0)),
    "summary routes 20000 valid 4605 unknown 1346 invalid 14049 customers 1495 passed 0 refused 0":
        Summary(20000, 4605, 1346, 14049, 1495, 0, 0),
    "changed 577": Demo(577),
    "served 2 answers 3": Served(2, 3),
    "! line 3 cause 34 Number": Refusal(3, None, None, 34, "Number"),
    "! line 8 table unit 3 cause 30 PeerIndex": Refusal(8, "table", 3, 30, "PeerIndex"),
    "! line 3 rpki lost": Refusal(3, "rpki", None, None, "lost"),
    "! line 2 cause unreachable": Refusal(2, "cause", None, None, "unreachable"),
}

# Lines that the program doesn't write.
OTHERS = [
    "", " ", "valid ", " valid", "Valid", "none", "# ", "#", "#x", "# a  b", "! ", "! line 3", "! line 03 cause 34 Number",
    "! line 3 rpki gone", "! line 3 rpki unit 4", "! line 3 unit 4 cause 34 Number", "summary", "summary routes 1", "served 1", "changed",
    "changed -1", "192.0.2.1 64501 203.0.113.0/24", "192.0.2.1 64501 203.0.113.0/24 none", "192.0.2.1 64501 203.0.113.0/24 customer",
    "192.0.2.1 64501 203.0.113.0/24 malformed 64503", "192.0.2.1 064501 203.0.113.0/24 valid", "192.0.2.01 64501 203.0.113.0/24 valid",
    "192.0.2.1 64501 203.0.113.1/24 valid", "192.0.2.1 64501 203.0.113.0/33 valid", "192.0.2.1 64501 203.0.113.0/024 valid",
    "192.0.2.1 64501 203.0.113.0/255.255.255.0 valid", "192.0.2.1 64501 2001:db8::/32 valid", "2001:db8::1 64501 203.0.113.0/24 valid",
    "192.0.2.1 64501 2001:0DB8:0000:0000:0000:0000:0000:0000/32 valid", "192.0.2.1 64501 203.0.113.0/24 path valid", "valid blocked 2",
    "192.0.2.1 64501 203.0.113.0/24 unknown set path", "invalid blocked", "invalid blocked 1 2 3", "invalid climbs 1 free 0 descents 0",
    "invalid blocked 1 climbs 1 free 0 descents 0", "unknown unsettled 1", "unknown unsettled climbs 1 free 0 descents 0", "valid set",
    "192.0.2.1 64501 203.0.113.0/24 invalid empty", "192.0.2.1 64501 203.0.113.0/24 invalid empty path  64501", "valid\r", "valid\n\n",
    "192.0.2.2 64502 peer own routes 1", "192.0.2.2 64502 sibling own routes 1 valid 1 unknown 0 invalid 0",
    "192.0.2.2 64502 peer its routes 1 valid 1 unknown 0 invalid 0", "- 64502 peer own routes 0 valid 0 unknown 0 invalid",
    "own none", "own valid 1", "hop 1 1 2 climb provides", "hop 1 1 2 climb none descend silent", "hop 1 1 climb silent descend silent",
    "1 2 climb silent descend silent to 1", "1 climb silent descend silent to 1 from 1", "1 routes 1", "1 2 routes 1 paths 1", "assert 1",
    "assert 1 none", "assert 1 02", "assert  1 2", "source 64497", "source a", "source a until 7", "source a until 64497 ended", "source a/b 1",
    "source a 1 ended ", "slurm", "slurm none", "slurm 1 ended", "hand until 7 1", "filtered", "filtered a", "filtered hand 1", "row", "row 1 none",
    "64503 64501 64501 there routes 3 paths 2", "64503 64501 64501 here routes 3", "\u0661 1 1 here routes 1 paths 1",
]


class Texts(unittest.TestCase):
    def test_lines_of_the_formats_page(self) -> None:
        for text, record in SHOWN.items():
            with self.subTest(text):
                self.assertEqual(parse_line(text + "\n"), record)
                self.assertEqual(str(record), text)
                asked = next((asked for asked, kinds in ANSWERS.items() if type(record) in kinds), record.kind)
                self.assertEqual(parse_line(text, asked), record)
                self.assertEqual(tuple(record.as_row()), record.columns)
        # (a row of `sent` looks as one of a report)
        self.assertEqual({type(record) for record in SHOWN.values()}, set(RECORDS) - {Sent})

    def test_lines_that_the_program_does_not_write(self) -> None:
        for text in OTHERS:
            with self.subTest(text), self.assertRaises(NotAText):
                parse_line(text)

    def test_worked_rows(self) -> None:
        kinds = set()
        count = 0
        for row in all_rows():
            for text in row.wanted:
                with self.subTest(row.place, text=text):
                    record = parse_line(text)
                    kinds.add(type(record))
                    count += 1
                    self.assertEqual(str(record), text)
        self.assertEqual(kinds, set(RECORDS) - {Sent})
        self.assertGreater(count, 180_000)

    def test_worked_rows_by_what_was_asked(self) -> None:
        asked = set()
        for row in all_rows():
            kinds = {line.split()[0] for line in row.script if line.split()} & (ANSWERS.keys() - {"say"})
            if len(kinds) != 1 or any(line.startswith("say") for line in row.script):
                continue
            kind, = kinds
            for text in row.wanted:
                with self.subTest(row.place, text=text):
                    record = parse_line(text, kind)
                    self.assertIn(type(record), (Refusal,) if text.startswith("! ") else ANSWERS[kind])
                    self.assertEqual(str(record), text)
                    asked.add(type(record))
        self.assertEqual(asked, set(RECORDS) - {Demo, Said})

    def test_rows_that_look_alike(self) -> None:
        text = "192.0.2.1 64501 203.0.113.0/24 valid"
        self.assertIs(type(parse_line(text)), Route)
        self.assertIs(type(parse_line(text, "report")), Route)
        self.assertIs(type(parse_line(text, "origins")), Origin)
        self.assertIs(type(parse_line(text, "sent customer 64603 64500")), Sent)
        with self.assertRaises(NotAText):
            parse_line(text, "details invalid")
        with self.assertRaises(NotAText):
            parse_line(text, "take table 1")
        with self.assertRaises(NotAText):
            parse_line("assert 1 2", "assert 1 2")
        self.assertEqual({kind for kinds in ANSWERS.values() for kind in kinds}, set(BY_KIND.values()) - {Refusal})
        self.assertEqual(parse_line("! line 3 cause 34 Number", "take table 1").kind, "refused")

    def test_addresses(self) -> None:
        record = parse_line(f"2001:0db8:0000:0000:0000:0000:0000:0001 64501 {LONG} path 7 valid")
        assert isinstance(record, Route)
        self.assertEqual((str(record.peer), str(record.prefix)), ("2001:db8::1", "2001:db8:10::/48"))
        self.assertEqual(record.key, Key.of("2001:db8::1", 64501, "2001:db8:10::/48", 7))
        self.assertEqual({record.key: 1}[Key.of(record.peer, 64501, record.prefix, 7)], 1)
        self.assertEqual(record.as_row(), {
            "peer": "2001:db8::1", "peer_as": 64501, "prefix": "2001:db8:10::/48", "path_id": 7, "verdict": "valid"})

    def test_mapped_addresses(self) -> None:
        # (Python 3.13 and later write these otherwise)
        text = "0000:0000:0000:0000:0000:ffff:c000:0201 64501 0000:0000:0000:0000:0000:ffff:c000:0200/120 valid"
        self.assertEqual(str(parse_line(text)), text)

    def test_origins_of_paths(self) -> None:
        base = SHOWN["192.0.2.1 64501 203.0.113.0/24 invalid blocked 2 path 64501 64503 64530"]
        assert isinstance(base, Detail)
        self.assertEqual(base.origin, 64530)
        self.assertIsNone(dataclasses.replace(base, set=True).origin)
        self.assertIsNone(dataclasses.replace(base, path=()).origin)

    def test_records_are_frozen(self) -> None:
        for record in SHOWN.values():
            with self.assertRaises(dataclasses.FrozenInstanceError):
                setattr(record, record.columns[0], None)

    def test_an_iterator_of_lines(self) -> None:
        with open(TOP / "docs" / "formats.md", encoding="utf-8") as page:
            lines = [line.strip() for line in page if line.startswith("    summary routes")]
        self.assertEqual([record.kind for record in parse(lines)], ["summary", "summary"])


if __name__ == "__main__":
    unittest.main()
