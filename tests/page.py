#!/usr/bin/env python3
"""What examples/page.py makes is well-formed, loads nothing, and has each suspect with its routes: of the examples, of hostile words, and of drawn
routes.

Usage: page.py PROGRAM. Where Graphviz or matplotlib isn't there, a line says what was left out. The last line is 'N passed, M failed', and the status
is 0 where none failed.
"""
import collections
import html.parser
import os
import pathlib
import random
import re
import shutil
import subprocess
import sys
import tempfile
import xml.etree.ElementTree as tree

TOP = pathlib.Path(__file__).resolve().parent.parent
PAGE = TOP / "examples" / "page.py"
sys.path[:0] = [str(TOP / name) for name in ("examples", "python", "tests")]

import suspects  # noqa: E402
from aspaview import NotAText, Summary  # noqa: E402
from page_parts import charts, text  # noqa: E402

# docs/formats.md, under 'What is written': who, from whom, to whom, routes and paths.
LEAKED = ["AS64501 from AS64503 to us 3 routes, 2 paths", "AS64540 from AS64502 to AS64503 1 route, 1 path",
          "AS64540 to AS64541 from AS64503 to AS64502 1 route, 1 path"]
HOSTILE = "</title><script>alert('a & b')</script><img src=http://192.0.2.1/ onerror=\"x\"> $\\frac{1}{0}$ @0@ ]]> &amp;"
SCRIPTS = ["bmp", "changes", "dumps", "ends", "leaked", "otc", "own", "paths", "table", "why"]


class Checks:
    """Counts."""
    def __init__(self):
        self.passed, self.failed = 0, 0

    def check(self, what, wanted, got):
        if wanted == got:
            self.passed += 1
            return
        self.failed += 1
        print(f"failed: {what}\nwanted: {wanted}\ngot: {got}")


class Loads(html.parser.HTMLParser):
    """What a browser would load or run, and whether each element is closed."""
    def __init__(self):
        super().__init__()
        self.found, self.open = [], []

    def handle_starttag(self, name, attributes):
        self.open.append(name)
        self.look(name, attributes)

    def handle_startendtag(self, name, attributes):
        self.look(name, attributes)

    def look(self, name, attributes):
        if name in ("script", "link", "iframe", "img", "object", "embed", "base", "image", "video", "audio", "form"):
            self.found.append(name)
        for key, value in attributes:
            inner = key in ("href", "xlink:href", "src") and not value.startswith("#")
            # (a namespace is a name, and isn't loaded)
            outer = not key.startswith("xmlns") and re.search(r"url\((?!['\"]?#)|https?:", value or "")
            if inner or outer or key.startswith("on") and len(key) > 2 or key in ("srcset", "action"):
                self.found.append(f"{name} {key}={value}")

    def handle_endtag(self, name):
        if not self.open or self.open.pop() != name:
            self.found.append(f"</{name}> stands wrong")


def words(element):
    return " ".join("".join(element.itertext()).split())


def spaced(element):
    return " ".join(" ".join(element.itertext()).split())


class Tests(Checks):
    def __init__(self, program, work):
        super().__init__()
        self.program, self.work, self.page = program, work, work / "page.html"

    def make(self, options, script=None, python=sys.executable, path=None, fds=()):
        """Calls page.py in the repository's folder; its status and what it says."""
        environment = dict(os.environ, **({"PATH": path} if path is not None else {}))
        ended = subprocess.run([python, "-B", PAGE, "--program", self.program, "-o", self.page, *options], input=script, cwd=TOP, env=environment,
                               capture_output=True, text=True, timeout=60, pass_fds=fds)
        return ended.returncode, ended.stderr

    def read(self, what):
        """The page as a tree, behind what holds of each."""
        written = self.page.read_text(encoding="utf-8")
        loads = Loads()
        loads.feed(written)
        loads.close()
        self.check(f"{what}: nothing is loaded or run, all is closed", ([], []), (loads.found, loads.open))
        self.check(f"{what}: no style loads", [], re.findall(r"@import|@font-face|url\((?!#)", written))
        try:
            return tree.fromstring(written.partition("\n")[2])
        except tree.ParseError as met:
            self.check(f"{what}: well-formed", "", str(met))
            return tree.fromstring("<html><head><title/></head><body><header/><pre/></body></html>")

    def listed(self, page):
        """The suspects' lines."""
        return [spaced(found.find("summary")) for found in page.iter("details") if found.get("class") == "suspect"]

    # ---- the examples

    def examples(self):
        for name in SCRIPTS:
            script = (TOP / "examples" / f"{name}.txt").read_text()
            self.check(f"{name}: status", (0, ""), self.make(["--script", f"examples/{name}.txt"]))
            page = self.read(name)
            for question in ("suspects", "report"):
                run = subprocess.run([self.program, "run"], input=f"{script}\nsay here it is\n{question}\n", cwd=TOP, capture_output=True, text=True)
                lines = run.stdout.partition("# here it is\n")[2].splitlines()
                if question == "suspects":
                    wanted = sorted(lines)
                    self.check(f"{name}: each suspect", wanted, sorted(self.as_written(line) for line in self.listed(page)))
                else:
                    self.sessions(name, page, lines)
            if name == "leaked":
                self.check("leaked: the suspects by routes", LEAKED, [line.lstrip() for line in self.listed(page)])
                self.leaked(page)

    @staticmethod
    def as_written(line):
        """The line of the program's text that a suspect's line stands for."""
        found = re.fullmatch(r"AS(\d+)(?: to AS(\d+))? from AS(\d+) to (?:AS)?(\w+) ([\d,]+) routes?, ([\d,]+) paths?", line)
        first, last, source, target, routes, paths = found.groups()
        return f"{source} {first} {last or first} {'here' if target == 'us' else target} routes {routes} paths {paths}"

    def sessions(self, name, page, lines):
        """Counts by peer, beside those of the report's lines."""
        wanted = collections.Counter()
        for line in lines:
            *_, verdict = fields = line.split(" ")
            wanted[fields[1], verdict] += 1
        got = collections.Counter()
        found = next(section for section in page.iter("section") if section.get("id") == "sessions")
        for row in found.iter("tr"):
            cells = [spaced(cell).replace(",", "") for cell in row.iter("td")]
            if cells:
                asn = cells[0].split(" ")[0][2:]
                for verdict, count in zip(("invalid", "unknown", "valid"), cells[1:4]):
                    got[asn, verdict] += int(count)
        self.check(f"{name}: counts by session", +wanted, +got)

    def leaked(self, page):
        """Routes and paths that docs/guide.md, 7, gives to the first suspect."""
        first = next(found for found in page.iter("details") if found.get("class") == "suspect")
        routes = [(words(list(route)[0]), words(list(route)[1]).replace("\u2190", "<")) for route in first.iter("div") if route.get("class") == "route"]
        self.check("leaked: the routes of the first suspect", {
            ("203.0.113.0/25 by 192.0.2.1 AS64501, blocked 2", "us< 64501< 64503< 64530"),
            ("203.0.113.128/25 by 192.0.2.1 AS64501, blocked 2", "us< 64501< 64503< 64530"),
            ("2001:db8:30::/48 by 192.0.2.1 AS64501, blocked 1", "us< 64501< 64503")}, set(routes))
        marked = [[bold.text for bold in path.iter("b")] for path in page.iter("div") if path.get("class") == "path"]
        self.check("leaked: the ASes that stand out", [["64501"]] * 3 + [["64540"], ["64541", "64540"]], marked)

    # ---- words that others choose

    def hostile(self):
        steps = f"open t examples/leaked.mrt\ntake t 99\nsay {HOSTILE}\nsummary\nsay $x$\nsummary\nsay ok\nsummary\nno {HOSTILE}\n"
        name = self.work / "<img src=x onerror=alert(1)>&.txt"
        name.write_text(steps)
        for python in pythons(self):
            self.check("hostile: status", (0, ""), self.make(["--script", str(name), "--title", HOSTILE], python=python))
            page = self.read("hostile")
            self.check("hostile: the title", HOSTILE, page.find("head/title").text)
            self.check("hostile: the words of a step", True, any(cell.text == HOSTILE for cell in page.iter("span")))
            drawn = next(svg for svg in page.iter() if svg.get("class") == "curves")
            self.check("hostile: the labels of the steps", [HOSTILE[:22] + " ..", "$x$", "ok"],
                       [label.text for label in drawn.iter("{http://www.w3.org/2000/svg}text") if label.text[:1] in "<$o"])
            self.check("hostile: the script's name", True, str(name) in words(page.find("body/header")))
            self.check("hostile: the refusal", "! line 9 cause 32 Command", next(page.iter("pre")).text)
            drawn = "matplotlib" if python != sys.executable or has_matplotlib(python) else "page.py"
            self.check("the curves are drawn by", drawn, re.search(r"Drawn by (\S+)\.", words(page))[1])
        self.check("a day that no month has: status", (0, ""), self.make([], script="say at 2025-02-30T00:00Z\nsummary\nsay 2\nsummary\n"))
        self.check("a day that no month has: the steps", True, "Verdicts by step" in words(self.read("a day that no month has")))
        self.make([], script="say one\nsummary\nsay two\njudge peer 1 1\nsummary\nsay three\nsummary\n")
        steps = spaced(self.read("a summary behind another answer"))
        self.check("a summary behind another answer is no step", [True, False, True], [f"{name} 0 0 0" in steps for name in ("one", "two", "three")])
        self.check("questions within the script", (0, ""), self.make([], script=text.QUESTIONS + "say page.py details\nassert 1 2\nopen t examples/leaked.mrt\ntake t 99\n"))
        self.read("questions within the script")

    def texts(self):
        """The text of a run elsewhere, whole and otherwise."""
        script = (TOP / "examples" / "leaked.txt").read_text()
        questions = subprocess.run([sys.executable, "-B", PAGE, "--questions"], capture_output=True, text=True).stdout
        written = subprocess.run([self.program, "run"], input=script + questions, cwd=TOP, capture_output=True, text=True).stdout
        (self.work / "text").write_text(written)
        self.check("a text: status", (0, ""), self.make(["--text", str(self.work / "text")]))
        self.check("a text: the suspects", LEAKED, self.listed(self.read("a text")))
        before = self.page.stat().st_ino
        self.make(["--text", str(self.work / "text")])
        self.check("a page is replaced, and not written over", True, self.page.stat().st_ino != before)
        before = self.page.read_text()
        lines = written.splitlines(keepends=True)
        wrong = {"cut": "".join(lines[:-1]), "empty": "", "a line more": written.replace("# page.py report\n", "# page.py report\n<script>\n"),
                 "a word that is none": written.replace("routes 3 paths", "routes x paths"), "bytes": written + "# page.py details\n\udcff\n",
                 "an address that is none": re.sub(r"192\.0\.2\.1 (.* blocked)", r"192.0.2.999 \1", written)}
        for what, broken in wrong.items():
            (self.work / "text").write_text(broken, encoding="utf-8", errors="surrogateescape")
            status, said = self.make(["--text", str(self.work / "text")])
            self.check(f"a text with {what}: status, one line, and the page stays", (1, 1, True),
                       (status, said.count("\n"), self.page.read_text() == before))

    def ends(self):
        """A run that ends early leaves the page that was there."""
        link, pipe = self.work / "link", self.work / "pipe"
        link.symlink_to(self.page)
        self.check("through a link: status", (0, ""), self.make(["-o", link], script=""))
        self.check("through a link: it stays one, and the page is there", (True, "<!DOCTYPE html>"), (link.is_symlink(), self.page.read_text()[:15]))
        os.mkfifo(pipe)
        reader = subprocess.Popen(["cat", pipe], stdout=subprocess.PIPE, text=True)
        self.check("into a pipe: status", (0, ""), self.make(["-o", pipe], script=""))
        self.check("into a pipe: the page comes, and it stays one", ("<!DOCTYPE html>", True), (reader.communicate(timeout=60)[0][:15], pipe.is_fifo()))
        for wrong in (["--samples", "-1"], ["--suspects", "x"], ["--text", "a", "--script", "b"]):
            self.check(f"wrong words {wrong}", 2, self.make(wrong)[0])
        self.page.write_text("before")
        status, said = self.make([], script="open d examples\ntake d 1\n")
        self.check("a run that fails", (1, "page.py: aspaview ended with status 3: the script or a file couldn't be read, for another "
                   "reason than that it isn't there\n"), (status, said))
        status, said = self.make(["--program", "/nothing"], script="")
        self.check("no program", (1, "page.py: there is no program /nothing\n"), (status, said))
        self.check("no script", 1, self.make(["--script", "/nothing"])[0])
        self.check("no folder for the page", 1, self.make(["-o", "/nothing/page.html"], script="")[0])
        self.check("the page stays, and nothing is left beside it", ("before", 1), (self.page.read_text(), len(list(self.work.glob("page.html*")))))
        with open(TOP / "examples" / "leaked.mrt", "rb") as dump:
            given = dump.fileno()
            script = (TOP / "examples" / "leaked.txt").read_text().replace("examples/leaked.mrt", f"/dev/fd/{given}")
            self.check("a dump that the shell opened: status", (0, ""), self.make([], script=script, fds=(given,)))
        self.check("a dump that the shell opened", LEAKED, self.listed(self.read("a dump that the shell opened")))

    # ---- drawings

    def drawings(self):
        empty = self.work / "empty"
        empty.mkdir()
        self.check("without Graphviz: status", (0, ""), self.make(["--script", "examples/leaked.txt"], path=str(empty)))
        page = self.read("without Graphviz")
        self.check("without Graphviz: it says so", True, "Graphviz isn't installed" in words(page))
        self.check("without Graphviz: the suspects", LEAKED, self.listed(page))
        if shutil.which("dot") is None:
            print("left out: the graph, for Graphviz's dot isn't there")
        else:
            self.make(["--script", "examples/leaked.txt"])
            graph = [svg for svg in self.read("the graph").iter("{http://www.w3.org/2000/svg}svg") if svg.get("class") == "graph"]
            titles = sorted(title.text for title in graph[0].iter("{http://www.w3.org/2000/svg}title"))
            self.check("the graph: its ASes and arrows", ["64501", "64501->us", "64502", "64502->64540", "64503", "64503->64501", "64503->64540",
                       "64540", "64540->64503", "64540->64541", "64541", "64541->64502", "us"], [title for title in titles if title != "%3"])
        steps = [text.Step(f"s{at}", None, Summary(9, at, 2 * at, 0, 1, 0, 0)) for at in range(3)]
        points = re.findall(r'points="([^"]*)"', charts.by_hand(steps))
        levels = [[float(pair.split(",")[1]) for pair in line.split(" ")] for line in points]
        self.check("by hand: the first curve rises evenly", True, levels[0][0] - levels[0][1] == levels[0][1] - levels[0][2] > 0)
        self.check("by hand: the last is level", 1, len(set(levels[2])))

    # ---- drawn routes

    def drawn(self):
        """For each suspect the program counts as many routes as the page finds by their paths."""
        seen = 0
        for seed in range(1, 41):
            script = suspects.Drawn(random.Random(seed), 3)
            for _ in range(6):
                script.step()
            script.lines += text.QUESTIONS.splitlines()
            lines, _ = script.performed(self.program)
            try:
                run = text.read(lines, 3)
            except NotAText as met:
                self.check(f"seed {seed}: the text", "understood", str(met))
                continue
            self.check(f"seed {seed}: routes of each suspect", [found.routes for found in run.suspects],
                       [evidence.routes for evidence in run.suspects.values()])
            seen += len(run.suspects)
        self.check("suspects were drawn", True, seen > 100)


def has_matplotlib(python):
    return subprocess.run([python, "-c", "import matplotlib"], capture_output=True).returncode == 0


def pythons(tests):
    """This Python, and one with matplotlib where this one has none."""
    if has_matplotlib(sys.executable):
        return [sys.executable]
    if os.access("/usr/bin/python3", os.X_OK) and has_matplotlib("/usr/bin/python3"):
        return [sys.executable, "/usr/bin/python3"]
    print("left out: the curves by matplotlib, which isn't there")
    return [sys.executable]


def main():
    with tempfile.TemporaryDirectory() as work:
        tests = Tests(sys.argv[1], pathlib.Path(work))
        for part in (tests.examples, tests.hostile, tests.texts, tests.ends, tests.drawings, tests.drawn):
            part()
    print(f"{tests.passed} passed, {tests.failed} failed")
    sys.exit(tests.failed > 0)


if __name__ == "__main__":
    main()
