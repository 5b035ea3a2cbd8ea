"""How a tool starts, is refused, tells how far it is, and writes what it made."""

from __future__ import annotations

import argparse
import sys
import time
from typing import Callable, NoReturn, Optional

REFUSED = 2
SECONDS_BETWEEN_LINES = 2.0


class BadInput(Exception):
    """What a tool cannot go on with: one line for standard error."""


class CommandLine(argparse.ArgumentParser):
    """A command line that is refused in one line."""

    def error(self, message: str) -> NoReturn:
        self.exit(REFUSED, f"{self.prog}: {message} (--help tells the words)\n")


class Progress:
    """Tells on standard error how far long work is: at most a line in two seconds, and none in the first two of it."""

    def __init__(self, tool: str, of: str) -> None:
        self.tool, self.of = tool, of
        self.last: Optional[float] = None

    def at(self, done: int, whole: Optional[int] = None) -> None:
        now = time.monotonic()
        if self.last is None:
            self.last = now
        if now - self.last >= SECONDS_BETWEEN_LINES:
            self.last = now
            say(self.tool, f"{done}{'' if whole is None else f' of {whole}'} {self.of}")


def replicas(text: str) -> int:
    """The number of replicas that a word is."""
    if not text.isdecimal() or not 1 <= int(text) <= 16:
        raise argparse.ArgumentTypeError("replicas are 1 to 16")
    return int(text)


def say(tool: str, line: str) -> None:
    print(f"{tool}: {line}", file=sys.stderr, flush=True)


def run_tool(tool: str, work: Callable[[], Optional[int]]) -> int:
    """The exit status of the work: what it gives, if not 0, or 2 where it was refused, which one line on standard error tells."""
    try:
        return work() or 0
    except BadInput as refusal:
        say(tool, str(refusal))
    except OSError as fault:
        say(tool, f"{fault.filename or 'output'}: {fault.strerror}")
    except KeyboardInterrupt:
        say(tool, "interrupted")
    return REFUSED


def read_file(name: str) -> bytes:
    """The octets of a file, or of standard input where the name is `-`."""
    if name == "-":
        return sys.stdin.buffer.read()
    with open(name, "rb") as source:
        return source.read()


def write_file(name: Optional[str], octets: bytes) -> None:
    """Writes to the file, or to standard output where there is no name or `-`."""
    if name is None or name == "-":
        sys.stdout.buffer.write(octets)
        sys.stdout.buffer.flush()
        return
    with open(name, "wb") as sink:
        sink.write(octets)


def counted(number: int, one: str, many: Optional[str] = None) -> str:
    """The number and its noun, as `1 line` or `3 lines`."""
    return f"{number} {one if number == 1 else many or one + 's'}"
