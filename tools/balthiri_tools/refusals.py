"""Runs of a program to which requests for memory are refused, and what is wrong with how they end."""

from __future__ import annotations

import os
import shutil
import signal
import struct
import subprocess
import threading
from collections import Counter
from concurrent.futures import ThreadPoolExecutor
from dataclasses import dataclass, field
from pathlib import Path
from typing import Dict, List, Optional, Tuple

from .command import BadInput, Progress, counted
from .memory_cases import Case, Outcome

SOURCE = Path(__file__).resolve().with_name("refused_memory.c")
LIBRARY = "refused_memory.so"
COUNTS = struct.Struct("=QQ")
MOST = 2**64 - 1
BLOCK = 4  # how many runs a job has before what came of them is looked at
MOST_TOLD = 5
MOST_HANGS = 4  # where so many runs did not end, the case is given up

NO_MEMORY = Outcome(5, b"", b"echo: out of memory\n")


def built_library(folder: Path) -> Path:
    """The library that refuses, compiled into a folder."""
    compiler = shutil.which("cc")
    if compiler is None:
        raise BadInput("no C compiler: it needs cc")
    made = folder / LIBRARY
    words = [compiler, "-shared", "-fPIC", "-O2", "-fno-builtin", "-o", str(made), str(SOURCE), "-ldl"]
    done = subprocess.run(words, stdout=subprocess.DEVNULL, stderr=subprocess.PIPE, check=False)
    if done.returncode != 0:
        said = done.stderr.decode("utf-8", "replace").splitlines()
        raise BadInput(f"cc does not compile {SOURCE.name}: {said[0] if said else f'status {done.returncode}'}")
    return made


@dataclass(frozen=True)
class Places:
    """The numbers of the requests that are refused to a run, and how one says it."""

    first: int
    last: int

    def __str__(self) -> str:
        return f"place {self.first}" + ("" if self.first == self.last else " and on")


NONE = Places(0, 0)

# How places are refused, by the word for it: the one place, or it and all behind it.
WAYS = {"once": lambda n: Places(n, n), "from there on": lambda n: Places(n, MOST)}


@dataclass(frozen=True)
class End:
    """How a run ended, or that it was killed behind its time, and how many requests came and were refused."""

    outcome: Outcome
    in_time: bool
    requests: int
    refused: int


def ended_with(status: int) -> str:
    return f"status {status}" if status >= 0 else f"killed by {signal.Signals(-status).name}"


def line_of(octets: bytes) -> str:
    """What stands on standard error, in one line."""
    return repr(octets.decode("utf-8", "replace")) if octets else "nothing"


def _fault_of_text(outcome: Outcome, whole: Outcome) -> Optional[str]:
    """What is wrong with the text of a run whose status may be."""
    wanted = whole.text if outcome.status == whole.status else b""
    if outcome.text == wanted:
        return None
    if not outcome.text:
        return "wrote no text"
    if outcome.text == whole.text:
        return "wrote its whole text"
    if whole.text.startswith(outcome.text):
        return f"wrote {len(outcome.text)} of the {len(whole.text)} octets of its text"
    return "wrote another text"


def fault_of(end: End, whole: Outcome) -> Optional[str]:
    """What is wrong with how a run ended that ends so with all its memory."""
    found = end.outcome
    if not end.in_time:
        return "did not end"
    if found == whole or (found == NO_MEMORY and end.refused):
        return None
    if found.status < 0:
        return f"was {ended_with(found.status)}"
    ended = f"ended with {ended_with(found.status)}"
    if found.status not in (whole.status, NO_MEMORY.status):
        return f"{ended}, and told {line_of(found.said)}"
    of_text = _fault_of_text(found, whole)
    if of_text is not None:
        return f"{ended}, and {of_text}"
    wanted = whole.said if found.status == whole.status else NO_MEMORY.said
    return f"{ended}, and told {line_of(found.said)}, not {line_of(wanted)}" if found.said != wanted else f"{ended}, though nothing was refused"


@dataclass
class Tried:
    """What came of a case in one way: how many places were refused, how these runs ended, how many did not, and what was wrong."""

    places: int = 0
    hangs: int = 0
    ends: "Counter[str]" = field(default_factory=Counter)
    wrong: List[Tuple[str, str]] = field(default_factory=list)

    def __str__(self) -> str:
        ends = ", ".join(f"{number} {how}" for how, number in sorted(self.ends.items()))
        return counted(self.places, "place") + (f", {ends}" if ends else "")

    def lines(self, case: Case, way: str) -> List[str]:
        """The line of the case, and where it failed what was wrong, of the first places."""
        lines = [f"{'FAILED: ' if self.wrong else ''}{case}, {way}: {self}"]
        lines += [f"    {place}: {fault}" for place, fault in self.wrong[:MOST_TOLD]]
        if len(self.wrong) > MOST_TOLD:
            lines.append(f"    and {len(self.wrong) - MOST_TOLD} more")
        return lines


class Runner:
    """Runs programs, several side by side, each behind the library that refuses."""

    def __init__(self, programs: Dict[str, str], folder: Path, seconds: float, jobs: int, progress: Progress) -> None:
        self.programs, self.folder, self.seconds, self.jobs, self.progress = programs, folder, seconds, jobs, progress
        self.library = built_library(folder)
        self.given = folder / "given"
        self.done = 0

    def run(self, case: Case, places: Places) -> End:
        """One run; what it is given on standard input is what `give` was told last."""
        counts = self.folder / f"counts-{threading.get_ident()}"
        counts.write_bytes(bytes(COUNTS.size))
        words = [self.programs[case.program], *case.words.split()]
        environment = {**os.environ, "LD_PRELOAD": str(self.library), "REFUSED_COUNTS": str(counts)}
        environment.update(REFUSED_FIRST=str(places.first), REFUSED_LAST=str(places.last))
        in_time = True
        with self.given.open("rb") as given:
            ran = subprocess.Popen(words, stdin=given, stdout=subprocess.PIPE, stderr=subprocess.PIPE, env=environment, start_new_session=True)
            try:
                text, said = ran.communicate(timeout=self.seconds)
            except subprocess.TimeoutExpired:
                in_time = False
                os.killpg(ran.pid, signal.SIGKILL)
                text, said = ran.communicate()
        return End(Outcome(ran.returncode, text, said), in_time, *COUNTS.unpack(counts.read_bytes()))

    def give(self, case: Case) -> None:
        self.given.write_bytes(case.given)

    def whole(self, case: Case) -> End:
        """How a case ends with all its memory."""
        self.give(case)
        return self.run(case, NONE)

    def tried(self, case: Case, whole: Outcome, way: str, most: int, only: Optional[int]) -> Tried:
        """Refuses each place in this way, from 1 to one that no run comes to any more, of which at least `most` are tried; or one place alone."""
        found = Tried()
        with ThreadPoolExecutor(self.jobs) as pool:
            numbers = range(1, most + 1) if only is None else range(only, only + 1)
            while numbers and found.hangs < MOST_HANGS:
                block, numbers = numbers[: BLOCK * self.jobs], numbers[BLOCK * self.jobs :]
                places = [WAYS[way](n) for n in block]
                ends = list(pool.map(lambda it: self._run_and_tell(case, it), places))
                for at, end in zip(places, ends):
                    _put(found, at, end, whole)
                if not numbers and ends[-1].refused and only is None:
                    numbers = range(block[-1] + 1, block[-1] + 2)
        if numbers:
            found.wrong.append((str(WAYS[way](numbers[0])), "was not tried, and none behind it, since too many did not end"))
        if only is not None and not found.places:
            found.wrong.append((str(WAYS[way](only)), "is not there: the run asks for memory less often"))
        return found

    def _run_and_tell(self, case: Case, places: Places) -> End:
        end = self.run(case, places)
        self.done += 1
        self.progress.at(self.done)
        return end


def _put(found: Tried, places: Places, end: End, whole: Outcome) -> None:
    """Counts a run; one to which nothing was refused has no place, but its end is looked at too."""
    fault = fault_of(end, whole)
    if fault is not None:
        found.wrong.append((str(places), fault))
    found.hangs += not end.in_time
    if end.refused:
        found.places += 1
        found.ends["no end" if not end.in_time else ended_with(end.outcome.status)] += 1
