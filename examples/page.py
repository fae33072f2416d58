#!/usr/bin/env python3
"""Makes one HTML page of a run: who leaked, with sample routes and their paths, a graph, counts by session, and verdicts over time.

    python3 examples/page.py --script examples/leaked.txt -o page.html

runs the program over the script with its own questions behind it. Or put the questions behind a script yourself, run it anywhere, and make the
page of its text:

    { cat SCRIPT; python3 examples/page.py --questions; } | ./aspaview run > text
    python3 examples/page.py --text text -o page.html

The script loads attestations, roles and dumps. Each `summary` right behind a `say` line is a step of the curves; where all these lines have
a time as 2025-01-01T00:05:00Z the steps stand by it. The page is one file without a script, and nothing is loaded from elsewhere. Graphviz draws
the graph and matplotlib the curves, where they are there. The page is written whole or not at all: an older one stays where the run fails."""
from __future__ import annotations

import argparse
import contextlib
import datetime
import os
import pathlib
import subprocess
import sys
import tempfile
from typing import IO, Iterator, List, Optional

# In a checkout, and where it is installed, the package lies beside the examples.
sys.path.append(str(pathlib.Path(__file__).resolve().parents[1] / "python"))
from aspaview import AspaviewError, NotAText, ProgramEnded, find_program  # noqa: E402
from page_parts import sections  # noqa: E402
from page_parts.markup import Markup, tag, trusted  # noqa: E402
from page_parts.text import QUESTIONS, Run, read  # noqa: E402

STYLE = pathlib.Path(__file__).parent / "page_parts" / "style.css"
POLICY = "default-src 'none'; style-src 'unsafe-inline'"


@contextlib.contextmanager
def text_of_run(program: Optional[str], script: bytes) -> Iterator[IO[str]]:
    """What the program writes over the script with the questions behind it, while it runs."""
    with tempfile.TemporaryFile() as whole:
        whole.write(script if script.endswith(b"\n") or not script else script + b"\n")
        whole.write(QUESTIONS.encode())
        whole.seek(0)
        # (what the shell opened for the script, as /dev/fd/3, stays open)
        run = subprocess.Popen([find_program(program), "run"], stdin=whole, stdout=subprocess.PIPE, encoding="ascii", errors="replace",
                               close_fds=False)
    assert run.stdout is not None
    try:
        yield run.stdout
    except NotAText as met:
        if run.stdout.read(1) or run.wait() in (0, 1):
            raise
        raise ProgramEnded(run.returncode) from met
    finally:
        if sys.exc_info()[0]:
            run.kill()
        run.stdout.close()
        run.wait()
    if run.returncode not in (0, 1):
        raise ProgramEnded(run.returncode)


def run_of(options: argparse.Namespace) -> Run:
    """The run that is asked for."""
    if options.text is not None:
        with open(options.text, encoding="ascii", errors="replace") as text:
            return read(text, options.samples)
    if options.script is None:
        script = sys.stdin.buffer.read()
    else:
        script = pathlib.Path(options.script).read_bytes()
    with text_of_run(options.program, script) as text:
        return read(text, options.samples)


def page_of(run: Run, options: argparse.Namespace) -> Markup:
    """The page."""
    source = f"of the text {options.text}" if options.text else f"of the script {options.script or 'on standard input'}"
    parts: List[Markup] = [
        sections.tiles(run),
        sections.warnings(run),
        sections.suspects(run, options.suspects),
        sections.graph(run),
        sections.steps(run.steps),
        sections.faults(run),
        sections.sessions(run),
    ]
    head = tag(
        "head",
        tag("meta", charset="utf-8"),
        tag("meta", name="viewport", content="width=device-width, initial-scale=1"),
        tag("meta", http_equiv="Content-Security-Policy", content=POLICY),
        tag("title", options.title),
        tag("style", trusted(STYLE.read_text(encoding="utf-8"))),
    )
    words = ("Made by aspaview's examples/page.py. A path is written neighbour first, as it comes to us. "
             "An unknown route hangs on an AS that attests nothing.")
    made = datetime.datetime.now(datetime.timezone.utc)
    body = tag("body", sections.heading(options.title, source, made), tag("main", *parts), tag("footer", tag("p", words)))
    return trusted(f"<!DOCTYPE html>\n{tag('html', head, body, lang='en')}\n")


def write(page: str, output: str) -> None:
    """Writes the page. A file is replaced at once, so that nobody reads half of one, and that to which a link goes, not the link; a pipe or a
    device is written to, as by the shell."""
    if output == "-":
        sys.stdout.buffer.write(page.encode())
        return
    output = os.path.realpath(output)
    if os.path.exists(output) and not os.path.isfile(output):
        with open(output, "wb") as there:
            there.write(page.encode())
        return
    beside = f"{output}.{os.getpid()}"
    # (made anew, so that no link that others left there is followed)
    made = open(beside, "xb")
    try:
        with made:
            made.write(page.encode())
        os.replace(beside, output)
    except OSError:
        with contextlib.suppress(OSError):
            os.unlink(beside)
        raise


def count(word: str) -> int:
    """A number of things to show."""
    if not (word.isascii() and word.isdigit()):
        raise argparse.ArgumentTypeError(f"{word} is no number from 0 on")
    return int(word)


def options_of(words: List[str]) -> argparse.Namespace:
    """The words of the command."""
    parser = argparse.ArgumentParser(prog="page.py", description="Makes one HTML page of a run.")
    source = parser.add_mutually_exclusive_group()
    source.add_argument("--script", metavar="FILE", help="the script to run; without it that of standard input")
    parser.add_argument("--program", metavar="FILE", help="the program aspaview, where it isn't found by itself")
    source.add_argument("--text", metavar="FILE", help="what a run wrote whose script ends with the questions; nothing is run")
    parser.add_argument("--questions", action="store_true", help="write the questions, for the end of a script, and no page")
    parser.add_argument("-o", "--output", metavar="FILE", default="-", help="where the page goes; without it to standard output")
    parser.add_argument("--title", default="Route leaks", help="the title of the page")
    parser.add_argument("--suspects", metavar="N", type=count, default=500, help="list so many suspects at most (500)")
    parser.add_argument("--samples", metavar="N", type=count, default=5, help="show so many routes of each at most (5)")
    return parser.parse_args(words)


def main() -> None:
    options = options_of(sys.argv[1:])
    if options.questions:
        sys.stdout.write(QUESTIONS)
        return
    try:
        write(page_of(run_of(options), options), options.output)
    except (AspaviewError, NotAText, OSError) as met:
        sys.exit(f"page.py: {met}")


if __name__ == "__main__":
    main()
