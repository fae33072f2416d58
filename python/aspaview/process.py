"""The program as a process: where it is, and its input and output, moved by one thread so that neither side waits for the other."""
import os
import selectors
import shutil
import subprocess
from collections import deque
from pathlib import Path
from typing import IO, Deque, Optional, Sequence, Union

from .errors import ProgramEnded

PathLike = Union[str, "os.PathLike[str]"]
_CHUNK = 65536
_PATIENCE = 5.0


def find_program(program: Optional[PathLike] = None) -> str:
    """The program's absolute path: that given, or that of the variable ASPAVIEW, or ``aspaview`` on the PATH, or the one beside the folder in
    which this package lies: a checkout's launcher, which may build it first, or an installed program. A name without a slash is looked up on
    the PATH."""
    named = program or os.environ.get("ASPAVIEW")
    if named:
        found = shutil.which(os.fspath(named))
        if found is None:
            raise _fault_of(os.fspath(named))
        return os.path.abspath(found)
    found = shutil.which("aspaview") or shutil.which(str(Path(__file__).resolve().parents[2] / "aspaview"))
    if found is None:
        raise FileNotFoundError("aspaview isn't on the PATH: name it, or set the variable ASPAVIEW")
    return os.path.abspath(found)


def _fault_of(name: str) -> OSError:
    """Why this is no program."""
    if os.path.isdir(name):
        return IsADirectoryError(f"{name} is a folder, and no program")
    if os.path.exists(name):
        return PermissionError(f"{name} is no program that may be run here" if "/" in name else f"{name} isn't on the PATH: write ./{name}")
    return FileNotFoundError(f"there is no program {name}")


class Process:
    """A running program. What is sent is written as the program takes it, while its output is read; of the output no more is held than the
    pipe gives at once, so a program that writes much waits for its reader.

    ``timeout`` is for how many seconds a read waits when nothing moves, before it raises TimeoutError; None waits for ever.
    """

    def __init__(self, program: str, cwd: Optional[PathLike], timeout: Optional[float], pass_fds: Sequence[int]) -> None:
        # (of its own session: a Ctrl-C at the terminal is for the caller, who decides what becomes of the program)
        self._process = subprocess.Popen([program, "run"], stdin=subprocess.PIPE, stdout=subprocess.PIPE, bufsize=0, cwd=cwd,
                                         pass_fds=pass_fds, start_new_session=True)
        self._input, self._output = _there(self._process.stdin), _there(self._process.stdout)
        os.set_blocking(self._input.fileno(), False)
        self._timeout = timeout
        self._selector = selectors.DefaultSelector()
        self._selector.register(self._output, selectors.EVENT_READ)
        self._unsent = bytearray()
        self._lines: Deque[bytes] = deque()
        self._begun = b""
        self._over = False

    def send(self, text: bytes) -> None:
        """Has the text written: as much as the program takes now, and the rest while its output is read."""
        if text and not self._unsent:
            self._selector.register(self._input, selectors.EVENT_WRITE)
        self._unsent += text
        self._write()

    def read_line(self) -> str:
        """The next line of the output, without its LF. It raises ProgramEnded where there is none any more."""
        while not self._lines:
            if self._over:
                raise ProgramEnded(self._process.wait())
            self._move()
        return self._lines.popleft().decode("ascii", "replace")

    def finish(self) -> int:
        """Ends the input behind what was sent, passes over the output, and waits for the program's status."""
        while self._unsent:
            self._move()
            self._lines.clear()
        self._input.close()
        while not self._over:
            self._move()
            self._lines.clear()
        return self._closed()

    def poll(self) -> Optional[int]:
        """The program's status where it has ended."""
        return self._process.poll()

    def kill(self) -> int:
        """Ends the program, wherever it is, and returns its status."""
        self._process.terminate()
        try:
            self._process.wait(_PATIENCE)
        except subprocess.TimeoutExpired:
            self._process.kill()
        return self._closed()

    def _closed(self) -> int:
        self._selector.close()
        self._input.close()
        self._output.close()
        return self._process.wait()

    def _move(self) -> None:
        """Waits until the program takes or gives something, and moves that."""
        ready = self._selector.select(self._timeout)
        if not ready:
            raise TimeoutError(f"aspaview wrote nothing for {self._timeout} s")
        for key, _ in ready:
            if key.fileobj is self._input:
                self._write()
            else:
                self._read()

    def _write(self) -> None:
        try:
            sent = os.write(self._input.fileno(), bytes(self._unsent[:_CHUNK]))
        except BlockingIOError:
            return
        except BrokenPipeError:
            # (the program has ended, and its output will tell)
            sent = len(self._unsent)
        del self._unsent[:sent]
        if not self._unsent:
            self._selector.unregister(self._input)

    def _read(self) -> None:
        chunk = os.read(self._output.fileno(), _CHUNK)
        if not chunk:
            self._over = True
            self._selector.unregister(self._output)
        *whole, self._begun = (self._begun + chunk).split(b"\n")
        self._lines.extend(whole)


def _there(pipe: Optional[IO[bytes]]) -> IO[bytes]:
    assert pipe is not None
    return pipe
