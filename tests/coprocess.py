"""Starts a referee as a co-process and asks it one line at a time."""

import os
import select
import shlex
import subprocess
from pathlib import Path

ROOT = Path(__file__).resolve().parent.parent
DEFAULT_REFEREE = ROOT / "tests" / "referee"


class RefereeGone(Exception):
    """The referee could not be started, ended early or gave no answer in time."""


def add_referee_option(parser):
    parser.add_argument(
        "--referee", default=shlex.quote(str(DEFAULT_REFEREE)), metavar="COMMAND",
        help="the referee's command line, such as 'python3 tests/second_cli.py' "
             "(default: tests/referee, which builds referee_cli if need be)")
    parser.add_argument("--time-limit", type=float, default=60, metavar="SECONDS",
                        help="give up if one answer takes longer (default: 60)")


def build():
    """Building takes minutes, more than any answer may: so it is done first."""
    if subprocess.run([str(DEFAULT_REFEREE), "build"]).returncode:
        raise RefereeGone("the referee could not be built")


class Referee:
    """A running referee. Use it in a `with` block, so that it is ended."""

    def __init__(self, command, time_limit=60):
        self.time_limit = time_limit
        self.waiting = b""
        try:
            words = shlex.split(command)
        except ValueError as fault:
            raise RefereeGone(f"cannot read the command {command!r}: {fault}") from None
        if not words:
            raise RefereeGone("the referee's command is empty")
        if words == [str(DEFAULT_REFEREE)]:
            build()
        try:
            self.process = subprocess.Popen(words, stdin=subprocess.PIPE,
                                            stdout=subprocess.PIPE, bufsize=0)
        except OSError as fault:
            raise RefereeGone(f"cannot start {words[0]}: {fault.strerror}; build the "
                              "referee first, or name one with --referee") from None

    def __enter__(self):
        return self

    def __exit__(self, *_):
        try:
            self.process.stdin.close()
        except OSError:
            pass
        try:
            self.process.wait(timeout=5)
        except subprocess.TimeoutExpired:
            self.process.kill()
            self.process.wait()
        self.process.stdout.close()

    def ask(self, line):
        """Send one line and give back the answer, without its line end."""
        data = line.encode("latin-1", "replace") + b"\n"
        try:
            while data:
                data = data[self.process.stdin.write(data):]
        except OSError:
            raise RefereeGone("the referee ended and takes no more lines") from None
        return self.read_line()

    def read_line(self):
        while b"\n" not in self.waiting:
            ready, _, _ = select.select([self.process.stdout], [], [], self.time_limit)
            if not ready:
                raise RefereeGone(f"no answer within {self.time_limit:g} seconds")
            chunk = os.read(self.process.stdout.fileno(), 1 << 16)
            if not chunk:
                raise RefereeGone("the referee ended without an answer")
            self.waiting += chunk
        line, self.waiting = self.waiting.split(b"\n", 1)
        return line.decode("latin-1")
