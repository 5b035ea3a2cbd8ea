"""The messages of a case under schedules of many seeds, each run's end beside that of the machine that never fails."""

from __future__ import annotations

from typing import List

from .command import Progress
from .program import Program
from .schedule import case_with, schedule_of
from .turns import Turn

OF_A_TRANSCRIPT = b"event "


def end_of(text: bytes) -> bytes:
    """What `replay` prints behind its transcript."""
    return b"".join(it for it in text.splitlines(keepends=True) if not it.startswith(OF_A_TRANSCRIPT))


def others_of(program: Program, case: bytes, turns: List[Turn], kind: str, seeds: range, replicas: int, progress: Progress) -> List[int]:
    """Which seeds have a run that does not come to the end of `plain`."""
    end, others = program.printed(["plain"], case), []
    for number, seed in enumerate(seeds, 1):
        scheduled = case_with(case, schedule_of(kind, turns, seed, replicas))
        if end_of(program.printed(["replay", f"--replicas={replicas}"], scheduled)) != end:
            others.append(seed)
        progress.at(number, len(seeds))
    return others


def told(kind: str, seeds: range, others: List[int]) -> str:
    """What came of the runs, in one line."""
    runs = f"{len(seeds)} {'run' if len(seeds) == 1 else 'runs'} of `{kind}`, {'seed' if len(seeds) == 1 else 'seeds'} {seeds[0]}"
    runs += f" to {seeds[-1]}" if len(seeds) > 1 else ""
    if not others:
        return f"{runs}: all came to the end of `plain`"
    return f"{runs}: another end than that of `plain` with {'seed' if len(others) == 1 else 'seeds'} {', '.join(map(str, others))}"
