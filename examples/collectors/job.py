#!/usr/bin/env python3
#SBATCH --job-name=aspaview
"""Performs jobs of a list: job.py LIST SETUP RESULTS [N..]. Each job is a line of LIST, `NAME FILE..`: the dumps of one collector and hour.

N counts the jobs from 1; where none is given, it is Slurm's SLURM_ARRAY_TASK_ID. A job takes its dumps, one after another, behind the lines of
the script SETUP, which says what attests and who the peers are, and asks for the suspects and the summary. Dumps that end with .bz2 or .gz are
unpacked on the way, through a pipe and without a file. The program is that of the environment's ASPAVIEW, or the `aspaview` on the PATH.

What a job found stands in RESULTS/NAME.txt, as a whole or not at all, however often it is started; a job whose result is there already does
nothing. One that fails says why in RESULTS/NAME.failed and on standard error, and the status is then 1: where an unpacking program or aspaview
failed, a line of the script was refused, a source wasn't right, or a dump was cut. Refused records of a dump fail no job: merge.py counts them.

This file needs no other one, since Slurm runs a copy of it in a folder of its own.
"""
import hashlib
import os
import pathlib
import re
import subprocess
import sys
from typing import List, NamedTuple

UNPACKERS = {".bz2": "bunzip2", ".gz": "gunzip"}
ALL_RECORDS = 100_000_000
# what may be refused without harm: a record of a dump, but neither 26 (TooLong) nor 27 (CutShort), behind which the dump is over
REFUSED_RECORD = re.compile(r"! line \d+ dump\.\d+ unit \d+ cause (?!26 |27 )\d+ \w+")
NAME = re.compile(r"[A-Za-z0-9][\w.-]*", re.ASCII)


class Job(NamedTuple):
    """A line of the list, with the text of the setup that is common to all."""

    name: str
    files: List[str]
    setup: str

    def heading(self) -> str:
        """The first line of its result, which says of what it is one."""
        sum_of_setup = hashlib.sha256(self.setup.encode()).hexdigest()[:16]
        return " ".join(["# job", self.name, "setup", sum_of_setup, *self.files])


class Failure(Exception):
    """Why a job failed."""


def read_jobs(path: str, setup: str) -> List[Job]:
    """The jobs of the list, in its order. Lines that are blank or begin with # are none."""
    try:
        lines = [line.split() for line in pathlib.Path(path).read_text().splitlines()]
        text = pathlib.Path(setup).read_text()
    except (OSError, UnicodeError) as error:
        raise SystemExit(f"{path} or {setup} can't be read: {error}") from error
    jobs = [Job(words[0], words[1:], text) for words in lines if words and not words[0].startswith("#")]
    seen = set()
    for job in jobs:
        if job.name in seen or not NAME.fullmatch(job.name) or not job.files:
            raise SystemExit(f"{path}: {job.name} stands there twice, has no files, or other characters than letters, digits and ._-")
        seen.add(job.name)
    return jobs


def unpacker_of(file: str) -> "subprocess.Popen[bytes] | None":
    """The program that unpacks the file into a pipe, where it is packed."""
    program = UNPACKERS.get(pathlib.Path(file).suffix)
    if program is None:
        return None
    try:
        return subprocess.Popen([program, "-c", "--", file], stdin=subprocess.DEVNULL, stdout=subprocess.PIPE)
    except OSError as error:
        raise Failure(f"{program} can't be run: {error.strerror}") from error


def pipe_of(unpacker: "subprocess.Popen[bytes]") -> int:
    assert unpacker.stdout is not None
    return unpacker.stdout.fileno()


def ended(unpacker: "subprocess.Popen[bytes]") -> int:
    """Its status. Nobody reads its pipe any more, so where it isn't done it ends by that, with a status below 0."""
    assert unpacker.stdout is not None
    unpacker.stdout.close()
    return unpacker.wait()


def script_of(job: Job, places: List[str]) -> str:
    takes = [f"open dump.{number} {place}\ntake dump.{number} {ALL_RECORDS}\n" for number, place in enumerate(places, 1)]
    return "".join([job.setup, "\n", *takes, "suspects\nsummary\n"])


def perform(job: Job) -> str:
    """What the program writes for the job."""
    program = os.environ.get("ASPAVIEW", "aspaview")
    unpackers = [unpacker_of(file) for file in job.files]
    pipes = [pipe_of(unpacker) for unpacker in unpackers if unpacker]
    places = [f"/dev/fd/{pipe_of(unpacker)}" if unpacker else file for file, unpacker in zip(job.files, unpackers)]
    try:
        ran = subprocess.run([program, "run"], input=script_of(job, places).encode(), stdout=subprocess.PIPE, pass_fds=pipes)
    except OSError as error:
        raise Failure(f"{program} can't be run: {error.strerror}") from error
    finally:
        statuses = [ended(unpacker) if unpacker else 0 for unpacker in unpackers]
    if ran.returncode not in (0, 1):
        raise Failure(f"{program} ended with status {ran.returncode}")
    for file, status in zip(job.files, statuses):
        if status > 0:
            raise Failure(f"{file} can't be unpacked: status {status}")
    text = ran.stdout.decode()
    for line in text.splitlines():
        if line.startswith("! ") and not REFUSED_RECORD.fullmatch(line):
            raise Failure(f"refused: {line}")
    if any(statuses):
        raise Failure("a dump was not taken whole")
    return text


def put(path: pathlib.Path, text: str) -> None:
    """The file, as a whole or not at all: whoever reads it meanwhile finds the one before, or none."""
    part = path.with_name(f".{path.name}.{os.uname().nodename}.{os.getpid()}.part")
    with part.open("w") as file:
        file.write(text)
        file.flush()
        os.fsync(file.fileno())
    part.replace(path)


def do(job: Job, results: pathlib.Path) -> bool:
    """Whether the job is done, by this call or by one before."""
    done, failed = results / f"{job.name}.txt", results / f"{job.name}.failed"
    if done.exists() and done.read_text().partition("\n")[0] == job.heading():
        return True
    try:
        text = perform(job)
    except Failure as failure:
        put(failed, f"{failure}\n")
        print(f"{job.name}: {failure}", file=sys.stderr)
        return False
    put(done, f"{job.heading()}\n{text}")
    failed.unlink(missing_ok=True)
    return True


def main() -> int:
    if len(sys.argv) < 4:
        raise SystemExit("usage: job.py LIST SETUP RESULTS [N..]")
    jobs, results = read_jobs(sys.argv[1], sys.argv[2]), pathlib.Path(sys.argv[3])
    numbers = sys.argv[4:] or [os.environ.get("SLURM_ARRAY_TASK_ID", "")]
    if not all(number.isdecimal() and 1 <= int(number) <= len(jobs) for number in numbers):
        raise SystemExit(f"{' '.join(numbers)}: each job is a number from 1 to {len(jobs)}")
    results.mkdir(parents=True, exist_ok=True)
    return 0 if all([do(jobs[int(number) - 1], results) for number in numbers]) else 1


if __name__ == "__main__":
    sys.exit(main())
