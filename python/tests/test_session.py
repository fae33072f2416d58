"""Sessions with the built program, and with small stand-ins that end as it might."""
import gc
import os
import signal
import stat
import subprocess
import tempfile
import threading
import time
import unittest
from pathlib import Path
from typing import Any, List
from unittest import mock

from aspaview import (Assertion, Change, Detail, Judged, Key, Refusal, ProgramEnded, Refused, Route, Said, Sent, Session, Stance, Suspects, Summary,
                      Verdict, parse_line)
from aspaview.process import find_program

from .places import EXAMPLES, TOP

LEAKED = Key.of("192.0.2.1", 64501, "203.0.113.0/24")
# So many paths are judged at once, in place of a large table.
MANY = 60_000


def session(**how: Any) -> Session:
    """A session in the repository's folder, which waits for nothing longer than this."""
    how = {"cwd": TOP, "timeout": 30, **how}
    return Session(**how)


def table(**how: Any) -> Session:
    """The same, with the example's table."""
    made = session(**how)
    made.tell((EXAMPLES / "table.txt").read_text())
    return made


class Questions(unittest.TestCase):
    """What docs/guide.md shows, in chapters 5 to 9, 14 and 15."""

    def test_what_an_as_above_sees(self) -> None:
        with table() as it:
            it.tell("assert 64500 64503")
            own, rows = it.sent("peer", [64503, 64500])
            self.assertEqual(own.verdict, Verdict.VALID)
            self.assertEqual([(type(row), str(row.prefix), str(row.verdict)) for row in rows],
                             [(Sent, "198.51.100.0/24", "valid"), (Sent, "203.0.113.0/24", "invalid")])
            own, rows = it.sent("peer", [64502, 64500])
            # (the next question has the rest of this answer kept)
            self.assertEqual(it.summary().routes, 6)
            self.assertEqual((own.verdict, [str(row.verdict) for row in rows]), ("invalid", ["invalid", "invalid"]))
            with self.assertRaises(Refused):
                it.sent("peer", [])

    def test_hops(self) -> None:
        with table() as it:
            why, hops = it.explain(LEAKED)
            self.assertEqual(why, it.why(LEAKED))
            self.assertEqual([str(hop) for hop in hops], ["hop 1 64530 64503 climb provides descend refuses",
                                                          "hop 2 64503 64501 climb refuses descend provides"])
            self.assertEqual(it.explain_path("customer", 64501, [64501, 64503, 64530]), (why, hops))
            self.assertIs(hops[0].climb, Stance.PROVIDES)
            self.assertEqual([str(record) for record in it.ask("explain customer 5")], ["invalid empty"])
            with self.assertRaises(Refused):
                it.explain(Key.of("192.0.2.1", 64501, "192.0.2.0/24"))

    def test_what_attests(self) -> None:
        with table() as it:
            lines = list(it.attests())
            self.assertEqual(lines[:2], [Assertion(64501, (64500, 64503)), Assertion(64502, (0,))])
            it.tell("assert 64501 64502", "filter 64501")
            self.assertEqual([str(line) for line in it.attests(64501)],
                             ["source rpki 64500 64503", "hand 64502", "filtered hand", "row 64502"])
            self.assertEqual([line.providers for line in it.attests(7)], [None])
        with session() as it:
            it.tell("\n".join(map(str, lines)))
            self.assertEqual(list(it.attests()), lines)

    def test_some_routes(self) -> None:
        with table() as it:
            self.assertEqual(list(it.routes()), list(it.details()))
            self.assertEqual(list(it.routes(verdict=Verdict.INVALID)), list(it.details("invalid")))
            self.assertEqual([str(row.peer) for row in it.routes(covering="203.0.113.7/32", address="192.0.2.3")], ["192.0.2.3"])
            self.assertEqual([row.peer_as for row in it.routes(within="2001:db8::/32", through=64502)], [64502])
            self.assertEqual([row.peer_as for row in it.routes(origin=64510)], [64501, 64503])
            self.assertEqual([row.key for row in it.routes(peer=64501, prefix="203.0.113.0/24")], [LEAKED])
            with self.assertRaises(ValueError):
                it.routes(prefix="203.0.113.1/24")

    def test_each_question(self) -> None:
        with table() as it:
            self.assertEqual([str(row) for row in it.report()][1], "192.0.2.1 64501 203.0.113.0/24 invalid")
            self.assertEqual(sum(1 for _ in it.changes()), 6)
            self.assertEqual(list(it.changes()), [])
            self.assertEqual(it.summary(), Summary(6, 4, 1, 1, 6, 0, 0))
            self.assertEqual(str(it.why(LEAKED)), "invalid blocked 2")
            self.assertEqual([str(row) for row in it.details(Verdict.INVALID)],
                             ["192.0.2.1 64501 203.0.113.0/24 invalid blocked 2 path 64501 64503 64530"])
            self.assertEqual(sum(1 for _ in it.details()), 6)
            self.assertEqual(list(it.details("unknown"))[0].path, (64503, 64541, 64540))
            self.assertEqual([str(row) for row in it.suspects()], ["64503 64501 64501 here routes 1 paths 1"])
            self.assertEqual([(row.peer_as, row.role, row.own, row.routes) for row in it.peers()],
                             [(64501, "customer", True, 2), (64502, "peer", True, 1), (64503, "provider", True, 3)])
            self.assertEqual([str(row) for row in it.neighbours(64503)], [
                "64503 64501 climb refuses descend provides to 1 from 1", "64503 64530 climb refuses descend provides to 0 from 2",
                "64503 64541 climb refuses descend silent to 0 from 1"])
            self.assertEqual([(row.asn, row.routes, row.paths) for row in it.silent()], [(64540, 1, 1), (64541, 1, 1)])
            self.assertEqual([str(row.state) for row in it.origins()], ["not-found"] * 6)
            self.assertEqual(list(it.leaks()), [])
            self.assertIs(it.judge("customer", 64501, [64501, 64503, 64530]), Verdict.INVALID)
            self.assertIs(it.judge("customer", 64501, []), Verdict.INVALID)

    def test_the_routes_of_path_identifiers(self) -> None:
        with session() as it:
            it.tell((EXAMPLES / "paths.txt").read_text().partition("report\n")[0])
            rows = list(it.report())
            self.assertEqual([row.path_id for row in rows], [1, 1, 2])
            self.assertEqual(str(it.why(rows[2])), "invalid blocked 1 2")

    def test_leaks_and_origins(self) -> None:
        for name, last in (("otc", "192.0.2.2 64502 2001:0db8:0050:0000:0000:0000:0000:0000/48 malformed"),
                           ("origins", "192.0.2.3 64503 2001:0db8:0040:0000:0000:0000:0000:0000/48 not-found")):
            with self.subTest(name), session() as it:
                rows = [str(row) for row in it.ask((EXAMPLES / f"{name}.txt").read_text())]
                self.assertIn(last, rows)

    def test_a_whole_script_is_as_the_program_writes_it(self) -> None:
        for path in sorted(EXAMPLES.glob("*.txt")):
            # (a file of AS relationships, and scripts that wait for somebody)
            if path.stem in ("as-rel", "feed", "serve", "router"):
                continue
            with self.subTest(path.name), session(refusals="records") as it:
                with path.open() as script:
                    wanted = subprocess.run([find_program(), "run"], stdin=script, cwd=TOP, stdout=subprocess.PIPE, check=True).stdout
                self.assertEqual("".join(f"{record}\n" for record in it.ask(path.read_text())).encode(), wanted)

    def test_each_record_is_of_its_own_question(self) -> None:
        with table() as it:
            kinds = [record.kind for record in it.ask("report", "say x", "origins", "judge peer 1 1", "why 192.0.2.1 64501 203.0.113.0/24")]
        self.assertEqual(kinds, ["report"] * 6 + ["say"] + ["origins"] * 6 + ["judge", "why"])

    def test_suspects_of_routes(self) -> None:
        with session() as it:
            it.tell((EXAMPLES / "leaked.txt").read_text())
            suspects = Suspects(it.suspects())
            found = [[str(row) for row in suspects.of(route)] for route in it.details()]
        self.assertEqual([rows for rows in found if rows], 3 * [["64503 64501 64501 here routes 3 paths 2"]] + [
            ["64503 64540 64541 64502 routes 1 paths 1"], ["64502 64540 64540 64503 routes 1 paths 1"]])


class Refusals(unittest.TestCase):
    def test_they_are_raised_behind_the_answer(self) -> None:
        with table() as it:
            with self.assertRaises(Refused) as met:
                it.tell("take nothing 1", "# no line of it", "role 64501 friend", "role 64510 customer")
            self.assertEqual([(refusal.cause, refusal.word) for refusal in met.exception.refusals], [(36, "NoName"), (33, "Words")])
            self.assertEqual(list(met.exception.lines.values()), ["take nothing 1", "role 64501 friend"])
            self.assertIn("NoName: take nothing 1 (and 1 more)", str(met.exception))
            with self.assertRaises(Refused) as met:
                it.why(Key.of("192.0.2.9", 1, "203.0.113.0/24"))
            self.assertEqual(met.exception.refusals[0].cause, 39)
            rows = it.ask("report", "nonsense", "report")
            self.assertEqual(len([next(rows) for _ in range(12)]), 12)
            with self.assertRaises(Refused):
                next(rows)
            self.assertEqual(list(rows), [])
            self.assertEqual(it.close(), 1)

    def test_they_are_records_where_that_is_wanted(self) -> None:
        with table(refusals="records") as it:
            self.assertEqual([refusal.word for refusal in it.tell("take nothing 1", "at x")], ["NoName", "Number"])
            self.assertEqual([type(record) for record in it.ask("judge peer 1 1", "nonsense", "summary")], [Judged, Refusal, Summary])
        with self.assertRaises(ValueError):
            session(refusals="ignore")


class Flow(unittest.TestCase):
    """Much is asked and written, and read late or never."""

    def paths(self) -> str:
        return "\n".join(f"judge customer {number} {number} 7" for number in range(1, MANY + 1))

    def test_much_is_sent_and_much_is_written(self) -> None:
        with session() as it:
            # 1.5 MB of lines and as much of answers, where a pipe holds 64 KiB.
            self.assertEqual({record.kind for record in it.ask(self.paths())}, {"judge"})
            rows = it.ask(self.paths())
            self.assertIsInstance(next(rows), Judged)
            # (no more is held than one piece of the output)
            self.assertLess(len(it._process._lines), 70_000)
            self.assertEqual(sum(1 for _ in rows), MANY - 1)

    def test_an_answer_is_left(self) -> None:
        with session() as it:
            for _ in it.ask(self.paths()):
                break
            self.assertEqual(it.summary().routes, 0)
            rows = it.ask(self.paths())
            rows.close()
            self.assertEqual(list(rows), [])
            self.assertEqual(it.summary().routes, 0)
            it.ask(self.paths())
            gc.collect()
            self.assertEqual(it.summary().routes, 0)
            it.ask(self.paths())

    def test_questions_within_an_answer(self) -> None:
        with table() as it:
            told = [(str(route.prefix), str(it.why(route).verdict)) for route in it.report()]
            self.assertEqual([verdict for _, verdict in told], ["valid", "invalid", "valid", "valid", "valid", "unknown"])
            first, second = it.report(), it.origins()
            self.assertEqual([type(row).__name__ for pair in zip(first, second) for row in pair], ["Route", "Origin"] * 6)

    def test_a_thread_of_its_own(self) -> None:
        found: List[Detail] = []

        def ask() -> None:
            with table() as it:
                found.extend(it.details("invalid"))

        threads = [threading.Thread(target=ask) for _ in range(3)]
        for thread in threads:
            thread.start()
        for thread in threads:
            thread.join()
        self.assertEqual([type(row) for row in found], [Detail] * 3)

    def test_words_that_look_like_a_mark(self) -> None:
        with session() as it:
            self.assertEqual([str(record) for record in it.ask("say a 1", "say  a   2")], ["# a 1", "# a 2"])
            self.assertEqual(list(it.ask("say x"))[0], Said("x"))

    def test_a_word_with_a_second_line(self) -> None:
        with table() as it:
            with self.assertRaisesRegex(ValueError, "more than one line"):
                it.details("invalid\nclear")
            self.assertEqual(it.summary().routes, 6)

    def test_other_characters(self) -> None:
        with session() as it:
            self.assertEqual(it.tell("# caf\u00e9", "", "\t "), [])
            with self.assertRaises(Refused):
                it.tell("say caf\u00e9")


class Ends(unittest.TestCase):
    def setUp(self) -> None:
        folder = tempfile.TemporaryDirectory()
        self.addCleanup(folder.cleanup)
        self.folder = Path(folder.name)

    def stand_in(self, text: str) -> str:
        """A program that is this shell script."""
        path = self.folder / "stand-in"
        path.write_text(f"#!/bin/sh\n{text}\n")
        path.chmod(path.stat().st_mode | stat.S_IXUSR)
        return str(path)

    def test_statuses(self) -> None:
        for status, word in ((2, "neither 'run' nor"), (3, "couldn't be read"), (4, "couldn't be written"), (5, "memory"), (6, "64 MiB"),
                             (70, "launcher"), (99, "no status")):
            with self.subTest(status), self.assertRaisesRegex(ProgramEnded, f"status {status}: .*{word}") as met:
                with session(program=self.stand_in(f"read -r line; echo valid; exit {status}")) as it:
                    rows = it.ask("judge peer 1 1")
                    self.assertEqual(next(rows), parse_line("valid", "judge"))
                    next(rows)
            self.assertEqual(met.exception.status, status)

    def test_it_ends_before_it_answered_all(self) -> None:
        for status in 0, 1:
            with self.assertRaises(ProgramEnded) as met, session(program=self.stand_in(f"read -r line; exit {status}")) as it:
                it.summary()
            self.assertEqual(str(met.exception), f"aspaview ended with status {status}: it ended before it had answered")
        it = session(program=self.stand_in("read -r line; exit 0"))
        self.assertIsNone(it.poll())
        it.ask("summary")
        self.assertEqual(it._process._process.wait(30), 0)
        self.assertEqual(it.poll(), 0)
        it.kill()

    def test_a_folder_is_read(self) -> None:
        with self.assertRaises(ProgramEnded) as met, session() as it:
            it.tell("open a examples", "take a 1")
        self.assertEqual(met.exception.status, 3)

    def test_a_signal(self) -> None:
        with self.assertRaisesRegex(ProgramEnded, "SIGKILL"), session(program=self.stand_in("read -r line; kill -9 $$")) as it:
            it.summary()

    def test_it_ends_while_much_is_sent(self) -> None:
        with self.assertRaises(ProgramEnded), session(program=self.stand_in("read -r line; exit 5")) as it:
            it.tell("# " + 1_000_000 * "x")

    def test_a_program_that_ends_late(self) -> None:
        it = session(program=self.stand_in("cat > /dev/null; exit 4"))
        with self.assertRaises(ProgramEnded):
            it.close()
        with self.assertRaises(ProgramEnded):
            it.close()

    def test_a_program_that_says_something_else(self) -> None:
        with self.assertRaisesRegex(ValueError, "no line of summary: 'hello'"), session(program=self.stand_in("echo hello; cat")) as it:
            it.summary()

    def test_statuses_of_a_good_end(self) -> None:
        it = table()
        self.assertEqual((it.close(), it.close()), (0, 0))
        with self.assertRaisesRegex(ValueError, "closed"):
            it.summary()
        it = table(refusals="records")
        rows = it.report()
        it.tell("nonsense")
        self.assertEqual(it.close(), 1)
        self.assertEqual(len(list(rows)), 6)

    def test_silence(self) -> None:
        fifo = self.folder / "fifo"
        os.mkfifo(fifo)
        it = session(timeout=0.3)
        with self.assertRaises(TimeoutError):
            it.tell(f"open news {fifo}", "take news 1")
        # What was asked is still under way; once the fifo is written it ends, and the session goes on.
        with open(fifo, "wb") as writer:
            writer.write((EXAMPLES / "updates.mrt").read_bytes())
        time.sleep(0.1)
        self.assertEqual(it.summary().refused, 0)
        self.assertEqual(it.close(), 0)

    def test_an_exception_ends_a_program_that_waits(self) -> None:
        fifo = self.folder / "fifo"
        os.mkfifo(fifo)
        begun = time.monotonic()
        with self.assertRaises(TimeoutError), session(timeout=0.3) as it:
            process = it._process._process
            it.tell(f"open news {fifo}", "take news 1")
        self.assertEqual(process.returncode, -signal.SIGTERM)
        self.assertLess(time.monotonic() - begun, 10)

    def test_files_that_are_passed(self) -> None:
        with open(EXAMPLES / "table.mrt", "rb") as dump, session(pass_fds=[dump.fileno()]) as it:
            it.tell(f"open table /dev/fd/{dump.fileno()}", "take table 100")
            self.assertEqual(it.summary().routes, 6)

    def test_where_the_program_is(self) -> None:
        program = find_program()
        empty = {"PATH": str(self.folder)}
        with mock.patch.dict(os.environ, empty, clear=True):
            self.assertEqual(find_program(program), program)
            self.assertEqual(find_program(), str(TOP / "aspaview"))
            with self.assertRaises(FileNotFoundError):
                find_program("nowhere")
            with self.assertRaisesRegex(OSError, "is a folder"):
                find_program(self.folder)
            (self.folder / "text").write_text("no program")
            with self.assertRaisesRegex(OSError, "text is no program that may be run here"):
                find_program(self.folder / "text")
        (self.folder / "aspaview").symlink_to(program)
        with mock.patch.dict(os.environ, empty, clear=True):
            self.assertEqual(find_program(), str(self.folder / "aspaview"))
            self.assertEqual(find_program("aspaview"), str(self.folder / "aspaview"))
        with mock.patch.dict(os.environ, {**empty, "ASPAVIEW": program}, clear=True):
            self.assertEqual(find_program(), program)

    def test_changes_while_time_goes_on(self) -> None:
        with table() as it:
            for _ in it.changes():
                pass
            it.tell("filter 64510", "assert 64510 64502")
            self.assertEqual({(row.before, row.after) for row in it.changes()}, {(Verdict.VALID, Verdict.INVALID)})
            self.assertIsInstance(next(iter(it.report())), Route)
            it.tell("clear")
            gone = list(it.changes())
            self.assertEqual([row.after for row in gone], [None] * 6)
            self.assertIs(type(gone[0]), Change)


if __name__ == "__main__":
    unittest.main()
