"""examples/watch.py over streams that grow slowly."""
import importlib
import importlib.util
import json
import os
import signal
import struct
import subprocess
import sys
import tempfile
import time
import unittest
from pathlib import Path
from typing import Any, BinaryIO, Dict, List, Tuple

from aspaview import find_program

from .places import EXAMPLES, TOP

WATCH = EXAMPLES / "watch.py"
sys.path.append(str(EXAMPLES))
make_dumps: Any = importlib.import_module("make_dumps")
UPDATES = (EXAMPLES / "updates.mrt").read_bytes()
ROUTER = (EXAMPLES / "router.bmp").read_bytes()
# Behind the first record, by which the customer withdraws the route that it leaked. By the second one the peer leaks it.
FIRST = 12 + struct.unpack(">8xI", UPDATES[:12])[0]
LEAK: Dict[str, Any] = {"leak": True, "prefix": "203.0.113.0/24", "path_id": None, "witness": "blocked", "hops": [2], "origin": 64530,
                        "set": False}
HEALED: Dict[str, Any] = {
    **LEAK, "event": "healed", "peer": "192.0.2.1", "peer_as": 64501, "before": "invalid", "after": None, "path": [64501, 64503, 64530],
    "suspects": [{"from_as": 64503, "first": 64501, "last": 64501, "to_as": None, "routes": 1, "paths": 1}]}
CAME: Dict[str, Any] = {
    **LEAK, "event": "invalid", "peer": "192.0.2.2", "peer_as": 64502, "before": None, "after": "invalid", "path": [64502, 64503, 64530],
    "suspects": [{"from_as": 64503, "first": 64502, "last": 64502, "to_as": None, "routes": 1, "paths": 1}]}
BY_CUSTOMER = {**HEALED, "event": "invalid", "before": None, "after": "invalid"}


def event(line: str) -> Dict[str, Any]:
    """A line of what is told, without its time."""
    told: Dict[str, Any] = json.loads(line)
    time.strptime(told.pop("time"), "%Y-%m-%dT%H:%M:%SZ")
    return told


class Watch(unittest.TestCase):
    def setUp(self) -> None:
        folder = tempfile.TemporaryDirectory()
        self.addCleanup(folder.cleanup)
        self.folder = Path(folder.name)
        self.setup = self.folder / "setup.txt"
        self.setup.write_text("aspa64 rpki examples/neighbours.base64\nrole 64502 peer\n")

    def begin(self, *words: object) -> "subprocess.Popen[str]":
        """The watch, running. It has a minute."""
        watch = subprocess.Popen(["timeout", "60", sys.executable, "-B", str(WATCH), "--every", "0.1", *map(str, words)], cwd=TOP,
                                 encoding="utf-8", stdin=subprocess.PIPE, stdout=subprocess.PIPE, stderr=subprocess.PIPE)
        self.addCleanup(watch.communicate)
        self.addCleanup(watch.terminate)
        return watch

    def told(self, *words: object) -> Tuple[int, List[Dict[str, Any]], str]:
        """The status, the events and the errors of a watch that ends by itself."""
        watch = self.begin(*words)
        out, err = watch.communicate()
        return watch.returncode, [event(line) for line in out.splitlines()], err

    def next(self, watch: "subprocess.Popen[str]") -> Dict[str, Any]:
        assert watch.stdout is not None
        return event(watch.stdout.readline())

    def fifo(self) -> Path:
        path = self.folder / "fifo"
        os.mkfifo(path)
        return path

    def test_updates_come_slowly_through_a_fifo(self) -> None:
        fifo = self.fifo()
        watch = self.begin(EXAMPLES / "table.txt", fifo)
        with open(fifo, "wb", buffering=0) as writer:
            slowly(writer, UPDATES[:FIRST + 20])
            # (it is told while the second record is still on its way)
            self.assertEqual(self.next(watch), HEALED)
            slowly(writer, UPDATES[FIRST + 20:])
            self.assertEqual(self.next(watch), CAME)
        self.assertEqual(watch.communicate(), ("", ""))
        self.assertEqual(watch.returncode, 0)

    def test_bmp_comes_slowly_through_a_fifo(self) -> None:
        fifo = self.fifo()
        watch = self.begin("--peers", "--bmp", "pre", self.setup, fifo)
        with open(fifo, "wb", buffering=0) as writer:
            slowly(writer, ROUTER)
            self.assertEqual(self.next(watch), {"event": "peer", "peer": "192.0.2.1", "peer_as": 64501})
            self.assertEqual(self.next(watch), BY_CUSTOMER)
            self.assertIsNone(watch.poll())
        self.assertEqual(watch.communicate(), ("", ""))
        self.assertEqual(watch.returncode, 0)

    def test_a_file_that_grows(self) -> None:
        path = self.folder / "updates.mrt"
        path.write_bytes(UPDATES[:FIRST])
        watch = self.begin(EXAMPLES / "table.txt", path)
        self.assertEqual(self.next(watch), HEALED)
        with open(path, "ab", buffering=0) as writer:
            slowly(writer, UPDATES[FIRST:])
        self.assertEqual(self.next(watch), CAME)
        watch.send_signal(signal.SIGTERM)
        self.assertEqual(watch.communicate(), ("", ""))
        self.assertEqual(watch.returncode, 0)

    def test_once(self) -> None:
        self.assertEqual(self.told("--once", EXAMPLES / "table.txt", EXAMPLES / "updates.mrt"), (10, [HEALED, CAME], ""))
        first = self.folder / "first.mrt"
        first.write_bytes(UPDATES[:FIRST])
        self.assertEqual(self.told("--once", EXAMPLES / "table.txt", first), (0, [HEALED], ""))
        self.assertEqual(self.told("--once", "--bmp", "pre", self.setup, EXAMPLES / "router.bmp"), (10, [BY_CUSTOMER], ""))
        self.assertEqual(self.told("--once", "--bmp", "post", self.setup, EXAMPLES / "router.bmp"), (0, [], ""))

    def test_an_invalid_route_that_becomes_a_leak(self) -> None:
        # a route with an AS_SET, and one whose path doesn't begin with the peer's AS; each is announced again with the path of a leak
        table, news = self.folder / "table.mrt", self.folder / "news.mrt"
        table.write_bytes(make_dumps.table(make_dumps.PEERS, [("203.0.113.0/24", [(0, [64501, {64510, 64511}]), (1, [64510, 64530])])]))
        self.setup.write_text("aspa64 rpki examples/neighbours.base64\nrole 64501 customer\nrole 64502 peer\n"
                              f"open table {table}\ntake table 9\n")
        by_customer, by_peer = (make_dumps.update(0, peer, [], make_dumps.as_path([first, 64503, 64530]), ["203.0.113.0/24"])
                                for peer, first in ((0, 64501), (1, 64502)))
        for text, wanted in ((by_customer, BY_CUSTOMER), (by_peer, CAME)):
            news.write_bytes(text)
            self.assertEqual(self.told("--once", self.setup, news), (10, [{**wanted, "before": "invalid"}], ""))
        # Followed, and withdrawn in the end: the witness and the path are those that it had last.
        fifo = self.fifo()
        watch = self.begin(self.setup, fifo)
        with open(fifo, "wb", buffering=0) as writer:
            writer.write(by_customer)
            self.assertEqual(self.next(watch), {**BY_CUSTOMER, "before": "invalid"})
            writer.write(make_dumps.update(0, 0, ["203.0.113.0/24"], b"", []))
            self.assertEqual(self.next(watch), HEALED)
        self.assertEqual((*watch.communicate(), watch.returncode), ("", "", 0))

    def test_refused_records_of_the_setup(self) -> None:
        table = self.folder / "table.mrt"
        good = (EXAMPLES / "table.mrt").read_bytes()
        # (behind the table a RIB record whose body is too short, and then one that is cut)
        for more, wanted, word in ((struct.pack(">IHHI", 0, 13, 2, 1) + b"x", 10, "28 Body"), (b"x", 1, "27 CutShort")):
            table.write_bytes(good + more)
            self.setup.write_text((EXAMPLES / "table.txt").read_text().replace("examples/table.mrt", str(table)))
            status, told, err = self.told("--once", self.setup, EXAMPLES / "updates.mrt")
            self.assertEqual((status, told), (wanted, [HEALED, CAME] if wanted == 10 else []))
            self.assertIn(f"table unit 6 cause {word}", err)
            self.assertEqual("that were refused: 1\n" in err, wanted == 10)

    def test_the_program_ends_while_nothing_comes(self) -> None:
        program = self.folder / "stand-in"
        program.write_text(f"#!/bin/sh\necho $$ > {self.folder}/pid\nexec {find_program()} run\n")
        program.chmod(0o755)
        fifo = self.fifo()
        watch = self.begin("--program", program, EXAMPLES / "table.txt", fifo)
        with open(fifo, "wb", buffering=0) as writer:
            writer.write(UPDATES[:FIRST])
            self.assertEqual(self.next(watch), HEALED)
            os.kill(int((self.folder / "pid").read_text()), signal.SIGKILL)
            out, err = watch.communicate()
        self.assertEqual((watch.returncode, out), (1, ""))
        self.assertIn("SIGKILL", err)

    def test_routes_that_are_invalid_and_no_leaks(self) -> None:
        self.setup.write_text("aspa64 rpki examples/neighbours.base64\n")
        status, told, _ = self.told("--once", self.setup, EXAMPLES / "own.mrt")
        self.assertEqual(status, 0)
        self.assertEqual([(it["witness"], it["leak"], it["suspects"]) for it in told],
                         [("set", False, []), ("empty", False, []), ("neighbour", False, [])])

    def test_the_standard_input(self) -> None:
        done = subprocess.run([sys.executable, "-B", str(WATCH), "--once", str(EXAMPLES / "table.txt"), "-"], input=UPDATES, cwd=TOP,
                              timeout=60, stdout=subprocess.PIPE)
        self.assertEqual([event(line) for line in done.stdout.decode().splitlines()], [HEALED, CAME])

    def test_guards(self) -> None:
        status, told, err = self.told("--once", "--customers", 7, self.setup, EXAMPLES / "updates.mrt")
        self.assertEqual((status, told), (1, []))
        self.assertIn("6 customers attest, and not 7 or more", err)
        self.assertEqual(self.told("--once", "--customers", 6, EXAMPLES / "table.txt", EXAMPLES / "updates.mrt")[0], 10)
        status, told, _ = self.told("--once", "--peers", self.setup, EXAMPLES / "table.mrt")
        self.assertEqual([(it["peer"], it["peer_as"]) for it in told if it["event"] == "peer"], [("192.0.2.1", 64501), ("192.0.2.3", 64503)])
        self.setup.write_text("aspa64 rpki nowhere.base64\n")
        status, told, err = self.told("--once", self.setup, EXAMPLES / "updates.mrt")
        self.assertEqual((status, told), (1, []))
        self.assertIn("cause 37 NoFile: aspa64 rpki nowhere.base64", err)
        for wrong in "-1", "0", "nan", "x":
            self.assertEqual(self.told("--every", wrong, self.setup, EXAMPLES / "updates.mrt")[0], 2)

    def test_a_stream_that_is_cut_or_broken(self) -> None:
        cut = self.folder / "cut"
        fifo = self.fifo()
        for text, wanted, word in ((UPDATES[:-1], 0, "27 CutShort"), (UPDATES[:FIRST] + b"\xff" * 200, 1, "26 TooLong")):
            cut.write_bytes(text)
            status, told, err = self.told("--once", EXAMPLES / "table.txt", cut)
            self.assertEqual((status, told), (wanted, [HEALED]))
            self.assertIn(word, err)
            watch = self.begin(EXAMPLES / "table.txt", fifo)
            with open(fifo, "wb") as writer:
                writer.write(text)
                writer.flush()
                self.assertEqual(self.next(watch), HEALED)
                if wanted:
                    # (it doesn't wait for more of a broken one)
                    self.assertEqual(watch.wait(), wanted)
            out, err = watch.communicate()
            self.assertEqual((watch.returncode, out), (wanted, ""))
            self.assertIn(word, err)
        status, told, err = self.told("--once", "--bmp", "pre", self.setup, EXAMPLES / "updates.mrt")
        self.assertEqual((status, told), (1, []))
        self.assertIn("45 BmpVersion", err)

    def test_a_missing_stream(self) -> None:
        status, told, err = self.told(EXAMPLES / "table.txt", self.folder / "nowhere")
        self.assertEqual((status, told), (1, []))
        self.assertIn("No such file", err)


class Units(unittest.TestCase):
    def test_pieces_of_any_length(self) -> None:
        spec = importlib.util.spec_from_file_location("watch", WATCH)
        assert spec is not None and spec.loader is not None
        watch = importlib.util.module_from_spec(spec)
        spec.loader.exec_module(watch)
        for size in range(1, 70):
            for bmp, text, wanted in ((True, ROUTER, 9), (False, UPDATES, 2)):
                units = watch.Units(bmp)
                self.assertEqual(sum(units.count(text[at:at + size]) for at in range(0, len(text), size)), wanted)
                self.assertFalse(units.is_cut())
                units.count(text[:3])
                self.assertTrue(units.is_cut())
        # Two records without a body, and what is broken: it counts once, and hides what is behind it.
        self.assertEqual(watch.Units(False).count(bytes(24)), 2)
        for bmp, text in ((True, UPDATES), (False, b"\xff" * 12)):
            units = watch.Units(bmp)
            self.assertEqual(units.count(text + ROUTER), 1)
            self.assertEqual(units.count(ROUTER), 0)
            self.assertFalse(units.is_cut())


def slowly(writer: BinaryIO, text: bytes) -> None:
    """Writes in pieces, with pauses: more than a second for all of an example."""
    for at in range(0, len(text), 61):
        writer.write(text[at:at + 61])
        time.sleep(0.08)


if __name__ == "__main__":
    unittest.main()
