"""What examples/attests.py makes of the lines of `attests`."""
import json
import os
import subprocess
import sys
import tempfile
import unittest
from pathlib import Path
from typing import Any, Tuple

from .places import EXAMPLES

# The row of 1 has two lines, as one with very many providers has.
LINES = "assert 1 2 4294967295\nassert 1 5\nassert 7 0\n"
ROWS = [{"customer_asid": 1, "providers": [2, 4294967295, 5]}, {"customer_asid": 7, "providers": [0]}]


def made(*words: str, text: str) -> Tuple[int, str, str]:
    """The status of the program, and what it writes."""
    done = subprocess.run([sys.executable, "-B", str(EXAMPLES / "attests.py"), *words], input=text, encoding="utf-8", timeout=60,
                          stdout=subprocess.PIPE, stderr=subprocess.PIPE)
    return done.returncode, done.stdout, done.stderr


class Attests(unittest.TestCase):
    def read(self, *words: str) -> Any:
        """The JSON of the lines."""
        status, out, err = made("--as", "json", *words, text=LINES)
        self.assertEqual((status, err), (0, ""))
        return json.loads(out)

    def test_json(self) -> None:
        tree = self.read()
        self.assertEqual((tree["aspas"], tree["roas"], tree["metadata"]["aspas"]), (ROWS, [], 2))
        self.assertRegex(tree["metadata"]["buildtime"], r"\A20[0-9]{2}-[0-9]{2}-[0-9]{2}T[0-9:]{8}Z\Z")

    def test_json_of_a_validator(self) -> None:
        file = EXAMPLES / "rpki-client.json"
        before, after = json.loads(file.read_text()), self.read("--into", str(file))
        self.assertEqual(after.pop("aspas"), ROWS)
        self.assertEqual(after["metadata"].pop("aspas"), 2)
        del before["aspas"], before["metadata"]["aspas"]
        self.assertEqual(after, before)

    def test_openbgpd(self) -> None:
        self.assertEqual(made("--as", "openbgpd", text=f"# a mark\n{LINES}"), (
            0, "aspa-set {\n\tcustomer-as 1 provider-as { 2 4294967295 5 }\n\tcustomer-as 7 provider-as { 0 }\n}\n", ""))

    def test_other_lines(self) -> None:
        for text, why in (("", "there is no line"), ("# a mark\n", "there is no line"), (f"{LINES}! line 3 cause 37 NoFile\n", "line 4 says"),
                          (f"{LINES}row none\n", "line 4 is no line of attests"), (f"{LINES}\n", "line 4: "), ("assert 1\n", "line 1: "),
                          ("assert 1 2 x\n", "line 1: ")):
            for form in "json", "openbgpd":
                with self.subTest(text, form=form):
                    status, out, err = made("--as", form, text=text)
                    self.assertEqual((status, out), (1, ""))
                    self.assertIn(f"attests.py: {why}", err)

    def test_other_files(self) -> None:
        with tempfile.TemporaryDirectory() as folder:
            file = Path(folder) / "file"
            for text in "[]", "{}", '{"aspas": 7}', "{":
                file.write_text(text)
                status, out, err = made("--as", "json", "--into", str(file), text=LINES)
                self.assertEqual((status, out), (1, ""))
                self.assertTrue(err.startswith("attests.py: "))
            status, out, err = made("--as", "json", "--into", os.path.join(folder, "none"), text=LINES)
            self.assertEqual((status, out), (1, ""))
            self.assertIn("can't be read", err)
        self.assertEqual(made("--as", "openbgpd", "--into", "file", text=LINES)[0], 2)
        self.assertEqual(made(text=LINES)[0], 2)


if __name__ == "__main__":
    unittest.main()
