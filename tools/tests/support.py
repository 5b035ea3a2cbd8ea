"""What the tests share: the folders, the tools as they are started, and what a test needs to be run."""

from __future__ import annotations

import re
import shutil
import subprocess
import sys
import tempfile
import unittest
from pathlib import Path
from typing import Callable, List, Optional

from balthiri_tools.command import Progress
from balthiri_tools.program import ECHO, is_built

TESTS = Path(__file__).resolve().parent
TOOLS = TESTS.parent
DATA = TESTS / "data"
EXAMPLES = TOOLS.parent / "examples"

PLAIN = ["plain_1", "plain_2", "plain_3"]
REPLAYS = ["replay_1", "replay_2", "replay_3"]

IS_BUILT = is_built()

# What tshark remarks on where a message of session management has no header of protection: it takes the bearer identity for one.
NO_HEADER = "A security header should use EMM protocol discriminator"

HOW_FAR = re.compile(r"[a-z0-9]+: [0-9]+( of [0-9]+)? (messages of each device|messages that tshark told|frames|frames with SCTP|messages heard|runs)")


def needs(*commands: str) -> Callable[[type], type]:
    """Skips the tests of a class where one of these commands is not installed, or the program is not built."""
    missing = [it for it in commands if it != "program" and shutil.which(it) is None]
    if "program" in commands and not IS_BUILT:
        missing.append("the built program (`rt ci` makes it)")
    return unittest.skipIf(bool(missing), f"missing: {', '.join(missing)}")


def has_command(word: str) -> bool:
    """Whether the built program has this command."""
    return IS_BUILT and subprocess.run([str(ECHO), word], input=b"", stdout=subprocess.DEVNULL, stderr=subprocess.DEVNULL, check=False).returncode == 0


def has_replay() -> bool:
    """Whether the built program has the command `replay`."""
    return has_command("replay")


def run_program(word: str, case: bytes, *options: str) -> bytes:
    return subprocess.run([str(ECHO), word, *options], input=case, stdout=subprocess.PIPE, stderr=subprocess.DEVNULL, check=True).stdout


def run(tool: str, *words: object, given: bytes = b"") -> "subprocess.CompletedProcess[bytes]":
    line = [sys.executable, str(TOOLS / tool), *map(str, words)]
    return subprocess.run(line, input=given, stdout=subprocess.PIPE, stderr=subprocess.PIPE, check=False)


def trace_of(case: bytes) -> List[str]:
    """The lines of the trace, without comments; nothing of this is the tools' own reading."""
    section: Optional[bytes] = None
    lines = []
    for it in (line[:-1] if line.endswith(b"\r") else line for line in case.split(b"\n")):
        if it.startswith(b"["):
            section = it
        elif it and not it.startswith(b"#") and section == b"[trace]":
            lines.append(it.decode("latin-1"))
    return lines


def subscribers_of(case: bytes) -> bytes:
    return b"".join(it + b"\n" for it in case.replace(b"\r", b"").split(b"\n") if it.startswith(b"{"))


def told(done: "subprocess.CompletedProcess[bytes]") -> List[str]:
    """What a tool told on standard error, but for how far it was, which it tells on a slow machine."""
    return [it for it in done.stderr.decode().splitlines() if not HOW_FAR.fullmatch(it)]


class Quiet(Progress):
    """Tells nothing."""

    def __init__(self) -> None:
        super().__init__("", "")

    def at(self, done: int, whole: Optional[int] = None) -> None:
        pass


class InFolder(unittest.TestCase):
    """A test with a folder of its own."""

    def setUp(self) -> None:
        folder = tempfile.TemporaryDirectory()
        self.addCleanup(folder.cleanup)
        self.folder = Path(folder.name)

    def file(self, name: str, octets: bytes) -> Path:
        path = self.folder / name
        path.write_bytes(octets)
        return path

    def ran(self, tool: str, *words: object, given: bytes = b"") -> "subprocess.CompletedProcess[bytes]":
        """A run that is to end well."""
        done = run(tool, *words, given=given)
        self.assertEqual(done.returncode, 0, done.stderr)
        return done

    def refused(self, expected: str, tool: str, *words: object, given: bytes = b"") -> None:
        """A run that is to be refused: status 2, one line on standard error that has these words, nothing written."""
        made = self.folder / "made"
        done = run(tool, *words, "-o", made, given=given)
        self.assertEqual((done.returncode, done.stdout), (2, b""))
        lines = told(done)
        self.assertEqual(len(lines), 1, lines)
        self.assertIn(expected, lines[0])
        self.assertFalse(made.exists())
