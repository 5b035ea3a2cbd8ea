"""The program, which says whether a case text is refused and what becomes of it."""

from __future__ import annotations

import argparse
import os
import subprocess
import sys
import tempfile
from dataclasses import dataclass
from pathlib import Path
from typing import List, Optional, Tuple

from .case_text import CaseText, Event
from .command import BadInput
from .printed import Printed, belongs, read_printed

# The wrapper at the top of the repository, which finds the program.
ECHO = Path(__file__).resolve().parents[2] / "echo"
OF_WRAPPER, OF_PROGRAM = "./echo: ", "echo: "
USAGE = "echo: usage"


@dataclass
class Program:
    """The program echo_cli, or the wrapper that finds it."""

    path: str
    has_told: bool = False

    def printed(self, words: List[str], case: bytes) -> bytes:
        """What the program prints for a case text; a case text that it refuses is bad input."""
        status, text, said = self._run(words, case)
        if USAGE in said:
            raise BadInput(f"{self.path} has no command {words[0]}")
        if status != 0:
            own = [it for it in said if it.startswith(OF_PROGRAM)] or [it for it in said if it]
            raise BadInput(own[-1] if own else f"{self.path} ended with status {status}")
        return text

    def plain(self, case: bytes) -> Printed:
        return read_printed(self.printed(["plain"], case))

    def _run(self, words: List[str], case: bytes) -> "Tuple[int, bytes, List[str]]":
        if not os.access(self.path, os.X_OK):
            raise BadInput(f"no program at {self.path}: ./echo at the top of the repository runs it")
        with tempfile.TemporaryFile() as given, tempfile.TemporaryFile() as text:
            given.write(case)
            given.seek(0)
            with subprocess.Popen([self.path, *words], stdin=given, stdout=text, stderr=subprocess.PIPE) as ran:
                assert ran.stderr is not None
                said = [self._heard(it.decode("utf-8", "replace").rstrip("\n")) for it in ran.stderr]
            text.seek(0)
            return ran.returncode, text.read(), said

    def _heard(self, line: str) -> str:
        """A line on standard error. Once it is passed on that the wrapper runs what takes minutes."""
        if line.startswith(OF_WRAPPER) and "unproved" in line and not self.has_told:
            self.has_told = True
            print(line, file=sys.stderr, flush=True)
        return line


def add_program_option(words: argparse.ArgumentParser) -> None:
    told = "the program echo_cli (if left out, what ./echo at the top of the repository runs)"
    words.add_argument("--program", default=str(ECHO), metavar="PATH", help=told)


def is_built() -> bool:
    """Whether the wrapper finds a built program."""
    built = {**os.environ, "ECHO_ONLY_BUILT": "1"}
    return subprocess.run([str(ECHO), "plain"], input=b"", stdout=subprocess.DEVNULL, stderr=subprocess.DEVNULL, env=built, check=False).returncode == 0


def _replicas_of(schedule: List[Event], answers: List[str]) -> int:
    """The least number of replicas under which none of these events is `void replica` that was not so answered."""
    there = [event.replica for event, answer in zip(schedule, answers) if answer != "void replica"]
    return max([1, *there])


def printed_for(program: Program, case_octets: bytes, case: CaseText, text: bytes) -> Printed:
    """The printed text, once the program has printed the same for the case."""
    printed = read_printed(text)
    command = ["plain"]
    if printed.answers:
        command = ["replay", f"--replicas={_replicas_of(case.schedule, printed.answers)}"]
    if not belongs(case, printed) or program.printed(command, case_octets) != text:
        raise BadInput(f"the printed text is not what the program prints for the case text (`{' '.join(command)}`)")
    return printed


def calls_printed(program: Program, command: str, case_octets: bytes, text: Optional[bytes]) -> bytes:
    """What the program prints by `s11` or `s6a` for the case, which the text is to be, if there is one."""
    printed = program.printed([command], case_octets)
    if text not in (None, printed):
        raise BadInput(f"the text is not what the program prints for the case text (`{command}`)")
    return printed
