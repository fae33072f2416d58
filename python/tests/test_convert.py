"""Outputs of the program as JSON Lines and CSV."""
import csv
import io
import json
import os
import subprocess
import sys
import unittest
from typing import List, Tuple

from aspaview.process import find_program

from .places import EXAMPLES, TOP


def convert(*words: str, text: str) -> Tuple[int, str, str]:
    """The status of python3 -m aspaview, and what it writes."""
    there = {**os.environ, "PYTHONPATH": str(TOP / "python")}
    done = subprocess.run([sys.executable, "-B", "-m", "aspaview", *words], input=text, env=there, encoding="utf-8", timeout=60,
                          stdout=subprocess.PIPE, stderr=subprocess.PIPE)
    return done.returncode, done.stdout, done.stderr


def output_of(name: str, extra: str = "") -> str:
    """What the program writes of an example."""
    script = (EXAMPLES / f"{name}.txt").read_text() + extra
    return subprocess.run([find_program(), "run"], input=script, cwd=TOP, encoding="ascii", stdout=subprocess.PIPE, timeout=60).stdout


DETAILS = """\
kind,peer,peer_as,prefix,path_id,verdict,witness,hops,path,origin,set,climbs,free,descents
details,192.0.2.1,64501,203.0.113.0/24,,invalid,blocked,2,64501 64503 64530,64530,false,,,
details,192.0.2.1,64501,2001:db8:10::/48,,invalid,set,,64501,,true,,,
details,192.0.2.9,64500,192.0.2.0/24,,invalid,empty,,,,false,,,
details,192.0.2.9,64500,198.51.100.0/24,,invalid,neighbour,,64502 64510,64510,false,,,
"""


class Convert(unittest.TestCase):
    def test_csv_of_details(self) -> None:
        self.assertEqual(convert("csv", "--only", "details", text=output_of("own", "\ndetails invalid\n")), (0, DETAILS, ""))

    @unittest.skipUnless(os.path.exists("/dev/full"), "there is no /dev/full")
    def test_an_output_that_fails(self) -> None:
        there = {**os.environ, "PYTHONPATH": str(TOP / "python")}
        for text in "valid\n", 100_000 * "valid\n", "valid\nno text\n":
            for output in "> /dev/full", ">&-":
                done = subprocess.run(["sh", "-c", f'exec "$0" -B -m aspaview jsonl {output}', sys.executable], input=text, env=there,
                                      encoding="utf-8", timeout=60, stderr=subprocess.PIPE)
                self.assertEqual(done.returncode, 1)
                self.assertRegex(done.stderr, r"\Apython3 -m aspaview: .*(No space left|closed).*\n\Z")

    def test_csv_of_all(self) -> None:
        text = output_of("leaked") + "! line 3 rpki lost\n# a \"mark\", of words\n"
        status, out, _ = convert("csv", text=text)
        rows = list(csv.DictReader(io.StringIO(out)))
        self.assertEqual(status, 0)
        self.assertEqual(list(rows[0])[:11],
                         ["kind", "peer", "peer_as", "prefix", "path_id", "verdict", "witness", "hops", "path", "origin", "set"])
        self.assertEqual([row["kind"] for row in rows], ["details"] * 5 + ["suspects"] * 3 + ["refused", "say"])
        self.assertEqual([rows[6][name] for name in ("from_as", "first", "last", "to_as", "routes", "paths")],
                         ["64503", "64501", "64501", "", "3", "2"])
        self.assertEqual(rows[9]["words"], 'a "mark", of words')
        self.assertEqual(out.splitlines()[0], convert("csv", text="")[1].rstrip("\n"))

    def test_jsonl(self) -> None:
        text = ("192.0.2.3 64503 2001:0db8:0040:0000:0000:0000:0000:0000/48 path 7 unknown unsettled 1 2 climbs 2 free 0 descents 0 "
                "path 64503 64541 64540\n192.0.2.1 64501 203.0.113.0/24 none invalid\nserved 2 answers 3\n")
        status, out, _ = convert("jsonl", text=text)
        self.assertEqual(status, 0)
        self.assertEqual([json.loads(line) for line in out.splitlines()], [
            {"kind": "details", "peer": "192.0.2.3", "peer_as": 64503, "prefix": "2001:db8:40::/48", "path_id": 7, "verdict": "unknown",
             "witness": "unsettled", "hops": [1, 2], "path": [64503, 64541, 64540], "origin": 64540, "set": False, "climbs": 2, "free": 0,
             "descents": 0},
            {"kind": "changes", "peer": "192.0.2.1", "peer_as": 64501, "prefix": "203.0.113.0/24", "path_id": None, "before": None,
             "after": "invalid"},
            {"kind": "serve", "routers": 2, "answers": 3}])

    def test_rows_of_origins(self) -> None:
        text = "192.0.2.1 64501 203.0.113.0/24 valid\n192.0.2.2 64502 203.0.113.0/24 not-found\n192.0.2.3 64503 203.0.113.0/24 unknown\n"

        def kinds(*words: str) -> List[str]:
            return [json.loads(line)["kind"] for line in convert("jsonl", *words, text=text)[1].splitlines()]

        self.assertEqual(kinds(), ["report", "origins", "report"])
        self.assertEqual(kinds("--only", "origins"), ["origins", "origins"])
        self.assertEqual(kinds("--only", "report,origins"), ["report", "origins", "report"])
        self.assertEqual(kinds("--only", "sent"), ["sent", "sent"])
        self.assertEqual(kinds("--only", "sent,origins"), ["sent", "origins", "sent"])

    def test_what_stands_beside_rows(self) -> None:
        text = ("own valid\nhop 2 64503 64501 climb refuses descend provides\nassert 64501 64500 64503\nsource a until 7 0 ended\n"
                "filtered hand\nrow none\n64503 64541 climb refuses descend silent to 0 from 1\n64540 routes 1 paths 1\n")
        status, out, _ = convert("jsonl", text=text)
        self.assertEqual(status, 0)
        self.assertEqual([json.loads(line) for line in out.splitlines()], [
            {"kind": "own", "verdict": "valid"},
            {"kind": "hop", "number": 2, "from_as": 64503, "to_as": 64501, "climb": "refuses", "descend": "provides"},
            {"kind": "assert", "customer": 64501, "providers": [64500, 64503]},
            {"kind": "attests", "word": "source", "name": "a", "until": 7, "ended": True, "providers": [0]},
            {"kind": "attests", "word": "filtered", "name": "hand", "until": None, "ended": False, "providers": None},
            {"kind": "attests", "word": "row", "name": None, "until": None, "ended": False, "providers": None},
            {"kind": "neighbours", "asn": 64503, "neighbour": 64541, "climb": "refuses", "descend": "silent", "to_routes": 0,
             "from_routes": 1},
            {"kind": "silent", "asn": 64540, "routes": 1, "paths": 1}])

    def test_every_example(self) -> None:
        names = sorted(path.stem for path in EXAMPLES.glob("*.txt") if path.stem not in ("feed", "serve", "router"))
        text = "".join(map(output_of, names))
        for form, head in (("jsonl", 0), ("csv", 1)):
            status, out, _ = convert(form, text=text)
            self.assertEqual((status, out.count("\n")), (0, text.count("\n") + head))

    def test_other_texts(self) -> None:
        status, out, err = convert("jsonl", text="valid\n192.0.2.1 64501 20")
        self.assertEqual((status, out), (1, '{"kind": "judge", "verdict": "valid"}\n'))
        self.assertIn("line 2: ", err)
        self.assertEqual(convert("jsonl", "--only", "routes", text="")[0], 2)
        self.assertEqual(convert("xml", text="")[0], 2)

    def test_a_reader_that_goes_away(self) -> None:
        command = f"yes valid | head -n 100000 | {sys.executable} -B -m aspaview jsonl | head -n 1"
        done = subprocess.run(["bash", "-c", command], env={**os.environ, "PYTHONPATH": str(TOP / "python")}, encoding="utf-8", timeout=60,
                              stdout=subprocess.PIPE, stderr=subprocess.PIPE)
        self.assertEqual((done.stdout, done.stderr), ('{"kind": "judge", "verdict": "valid"}\n', ""))


if __name__ == "__main__":
    unittest.main()
