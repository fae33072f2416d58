#!/usr/bin/env python3
"""The assert lines that examples/asrel.py makes are those of the file: of made-up files by hand, and of drawn ones by another computation of cones.

Usage: asrel.py PROGRAM. The program has to take each line. The last line is 'N passed, M failed', and the status is 0 where none failed.
"""
import bz2
import gzip
import pathlib
import random
import subprocess
import sys
import tempfile

TOP = pathlib.Path(__file__).resolve().parent.parent
ASREL = TOP / "examples" / "asrel.py"
FILE = "# a comment\n3|1|-1\n3|2|-1\n4|2|-1\n\n1|10|-1\n2|10|-1\n3|4|0\n5|10|-1\n"
ALL = ["assert 1 3", "assert 2 3 4", "assert 10 1 2 5"]
WRONG = {
    "no relationship": ("# only this\n", "there is no line with a relationship"),
    "siblings": ("1|2|-1\n1|2|2\n", "line 2: '1|2|2' is neither PROVIDER|CUSTOMER|-1 nor PEER|PEER|0"),
    "two words": ("1|2\n", "line 1: '1|2' is neither PROVIDER|CUSTOMER|-1 nor PEER|PEER|0"),
    "too large an AS": ("1|4294967296|-1\n", "line 1: '4294967296' is no AS"),
    "the AS 0": ("0|1|-1\n", "line 1: '0' is no AS"),
    "an AS as a word": ("AS1|2|-1\n", "line 1: 'AS1' is no AS"),
    "its own provider": ("7|7|-1\n", "line 1: 7 stands on both sides"),
    "a line for a script": ("1|2 3\nfilter 1|-1\n", "line 1: '1|2 3' is neither PROVIDER|CUSTOMER|-1 nor PEER|PEER|0"),
}


class Tests:
    def __init__(self, program, work):
        self.program, self.file, self.passed, self.failed = program, work / "as-rel", 0, 0

    def check(self, what, wanted, got):
        if wanted == got:
            self.passed += 1
        else:
            self.failed += 1
            print(f"failed: {what}\nwanted: {wanted}\ngot: {got}")

    def made(self, *options, file=None):
        ended = subprocess.run([sys.executable, "-B", ASREL, file or self.file, *map(str, options)], capture_output=True, text=True, timeout=60)
        return ended.returncode, ended.stdout.splitlines(), ended.stderr

    def lines(self, what, *options, file=None):
        """The lines behind the comment, where all is well."""
        status, lines, said = self.made(*options, file=file)
        self.check(f"{what}: status, a comment, and nothing on standard error", (0, "# ", ""), (status, (lines or [""])[0][:2], said))
        return lines[1:]

    def by_hand(self):
        """3 and 4 have no provider, nor has 5. The cones: 3 has {3, 1, 2, 10}, 4 {4, 2, 10}, 1 {1, 10}, 2 {2, 10}, 5 {5, 10}, and 10 itself."""
        self.file.write_text(FILE)
        self.check("everybody", ALL, self.lines("everybody"))
        self.check("with 0", ["assert 1 3", "assert 2 3 4", "assert 3 0", "assert 4 0", "assert 5 0", "assert 10 1 2 5"], self.lines("with 0", "--zero"))
        self.check("the counts", "# of 6 ASes 3 attest their providers, and 3 without a provider attest nothing", self.made()[1][0])
        self.check("the largest two", [], self.lines("the largest two", "--largest", 2))
        self.check("the largest two with 0", ["assert 3 0", "assert 4 0"], self.lines("the largest two with 0", "--largest", 2, "--zero"))
        self.check("the largest three", ["assert 1 3"], self.lines("the largest three", "--largest", 3))
        self.check("the largest five", ["assert 3 0", "assert 4 0", "assert 1 3", "assert 2 3 4", "assert 5 0"],
                   self.lines("the largest five", "--largest", 5, "--zero"))
        self.check("none", [], self.lines("none", "--largest", 0))
        self.check("more than there are", 3, len(self.lines("more than there are", "--largest", 99)))
        self.check("a list", ["assert 2 3 4", "assert 10 1 2 5"], self.lines("a list", "--only", 10, 2, 4, 77, 2))
        self.check("a list with 0", ["assert 4 0"], self.lines("a list with 0", "--only", 4, 77, "--zero"))
        self.check("a list: the counts", "# of 6 ASes 1 attest their providers, and 1 without a provider attest nothing; 1 more aren't in the file",
                   self.made("--only", 10, 4, 77)[1][0])

    def forms(self):
        """Serial-2, packed files, and what is wrong."""
        second = "".join(f"{line}|bgp\n" if "|" in line else f"{line}\n" for line in FILE.splitlines())
        self.file.write_text(second)
        self.check("serial-2", ALL, self.lines("serial-2"))
        for ending, pack in ((".bz2", bz2.compress), (".gz", gzip.compress)):
            packed = self.file.with_name("packed" + ending)
            packed.write_bytes(pack(second.encode()))
            self.check(ending, ALL, self.lines(ending, file=packed))
            packed.write_bytes(packed.read_bytes()[:-9])
            status, lines, said = self.made(file=packed)
            self.check(f"a cut {ending}", (1, [], 1), (status, lines, said.count("\n")))
        for what, (text, said) in WRONG.items():
            self.file.write_text(text)
            self.check(what, (1, [], f"asrel.py: {said}\n"), self.made())
        self.check("no file", (1, []), self.made(file="/nothing")[:2])
        self.check("two choices", 2, self.made("--largest", 1, "--only", 1)[0])

    def long(self):
        """A customer of 1,000 providers of ten digits: no line is too long for the program, and none is lost."""
        first = 4_294_960_000
        self.file.write_text("".join(f"{first + at}|64500|-1\n" for at in range(1000)))
        lines = self.lines("long")
        self.check("long: lines, and the longest", (3, True), (len(lines), max(map(len, lines)) <= 4096 < max(map(len, lines)) + 11))
        asks = [f"judge customer {first + at} {first + at} 64500" for at in (0, 500, 999, 1000)]
        ended = subprocess.run([self.program, "run"], input="\n".join(lines + asks), capture_output=True, text=True, timeout=60)
        self.check("long: the program takes it", (0, "valid\nvalid\nvalid\ninvalid\n"), (ended.returncode, ended.stdout))

    def drawn(self):
        """Cones of drawn files, with cycles, by squaring the relation; and what the program makes of all lines."""
        for seed in range(1, 31):
            draw = random.Random(seed)
            links = {tuple(draw.sample(range(1, 13), 2)) for _ in range(draw.randrange(1, 20))}
            self.file.write_text("".join(f"{a}|{b}|-1\n" for a, b in links))
            reach = links | {(a, a) for pair in links for a in pair}
            while (more := reach | {(a, d) for a, b in reach for c, d in reach if b == c}) != reach:
                reach = more
            ases = sorted({a for pair in links for a in pair}, key=lambda asn: (-sum(a == asn for a, _ in reach), asn))
            count = draw.randrange(len(ases) + 1)
            wanted = [f"assert {asn} {' '.join(str(a) for a in sorted(a for a, b in links if b == asn)) or '0'}" for asn in ases[:count]]
            self.check(f"seed {seed}", wanted, self.lines(f"seed {seed}", "--largest", count, "--zero"))


def main():
    with tempfile.TemporaryDirectory() as work:
        tests = Tests(sys.argv[1], pathlib.Path(work))
        for part in (tests.by_hand, tests.forms, tests.long, tests.drawn):
            part()
    print(f"{tests.passed} passed, {tests.failed} failed")
    sys.exit(tests.failed > 0)


if __name__ == "__main__":
    main()
