"""What a run of the gate took, read from its log: by crate and by what a call is for, by edit, and by function."""

from __future__ import annotations

import os
import re
from dataclasses import dataclass, field
from pathlib import Path
from typing import Dict, Iterable, List, Optional, Tuple

# What rt calls rattle for: to prove a crate; its tests, with the crate once more; the crate once more, for its edits; an edit; the check that closes
# the edits; the builds of a proved program.
PARTS = ("proof", "tests", "seed", "edits", "closing", "program")
CALL = re.compile(r"([\d.]+) ([\d.]+) (\d+) (\S+) \S+ ((?:check|build) .*--crate-name (\w+).*)")
FUNCTION = re.compile(r"function (\w+) ([\d.]+) (.+)")
NAMES = re.compile(r"edits (\w+) ?(.*)")
HEADING = "run "
FROM_NOTHING = "an edit from nothing"


def _value_of(words: List[str], option: str) -> str:
    return words[words.index(option) + 1] if option in words[:-1] else ""


@dataclass
class Run:
    """A run: its heading, the seconds of each crate by part, those of its edits and functions by name, and how often edits were tried."""

    heading: str = ""
    seconds: Dict[str, Dict[str, float]] = field(default_factory=dict)
    edits: Dict[Tuple[str, str], float] = field(default_factory=dict)
    functions: Dict[Tuple[str, str], float] = field(default_factory=dict)
    tried: Dict[str, int] = field(default_factory=dict)

    def of_crate(self, crate: str) -> float:
        return sum(self.seconds.get(crate, {}).values())

    def of_part(self, part: str) -> float:
        return sum(it[part] for it in self.seconds.values())

    def whole(self) -> float:
        return sum(self.of_crate(it) for it in self.seconds)


@dataclass
class _Reader:
    """The run so far, the names of edits as the log tells them, and the folder in which each crate was proved."""

    run: Run = field(default_factory=Run)
    names: Dict[str, List[str]] = field(default_factory=dict)
    folders: Dict[str, str] = field(default_factory=dict)
    seeded: Dict[str, bool] = field(default_factory=dict)

    def line(self, text: str) -> None:
        call, function, names = CALL.fullmatch(text), FUNCTION.fullmatch(text), NAMES.fullmatch(text)
        if text.startswith(HEADING):
            self.run.heading = text[len(HEADING) :]
        elif names:
            self.names[names[1]] = names[2].split()
        elif function:
            key = function[1], function[3]
            self.run.functions[key] = self.run.functions.get(key, 0.0) + float(function[2])
        elif call:
            self._call(float(call[1]) + float(call[2]), call[4], call[5].split(" "), call[6])

    def _call(self, seconds: float, folder: str, words: List[str], crate: str) -> None:
        part = self._part(folder, words, crate)
        parts = self.run.seconds.setdefault(crate, dict.fromkeys(PARTS, 0.0))
        parts[part] += seconds
        if part == "proof":
            self.folders[crate] = folder
        if part == "edits":
            key = crate, self._name(crate, os.path.basename(_value_of(words, "--incremental")))
            self.run.edits[key] = self.run.edits.get(key, 0.0) + seconds
            self.run.tried[crate] = self.run.tried.get(crate, 0) + 1

    def _part(self, folder: str, words: List[str], crate: str) -> str:
        if os.path.basename(folder).startswith("rt-edit-"):
            if os.path.basename(_value_of(words, "--incremental")) != "seed":
                return "edits"
            is_again, self.seeded[crate] = self.seeded.get(crate, False), True
            return "closing" if is_again else "seed"
        return "tests" if "--test" in words else "program" if "--crate-checked" in words else "proof"

    def _name(self, crate: str, number: str) -> str:
        """The name of an edit: that of its number among the crate's, from 0, or of a crate's only edit."""
        if crate not in self.names:
            self.names[crate] = edits_in(Path(self.folders.get(crate, "")))
        names = self.names[crate]
        if number.isdecimal():
            return names[int(number)] if int(number) < len(names) else f"edit {int(number) + 1}"
        return names[0] if len(names) == 1 else FROM_NOTHING


def edits_in(folder: Path) -> List[str]:
    """The names of a crate's edits, in the order in which rt numbers them."""
    return sorted(it.stem for it in folder.glob("must-fail/*.edit"))


def read_log(lines: Iterable[str]) -> Run:
    """The run that a log is of; lines of other calls, and a last one that is cut off, are passed over."""
    reader = _Reader()
    for it in lines:
        reader.line(it.rstrip("\n"))
    return reader.run


def front_of_log(words: List[str], jobs: Optional[str], crates: Path) -> str:
    """What a log begins with: which run it is of, and the names of the edits of each crate."""
    heading = f"{HEADING}{' '.join(['rt', 'ci', *words])}, {'RT_JOBS not set' if jobs is None else 'RT_JOBS=' + jobs}, {os.cpu_count()} processors\n"
    return heading + "".join(f"edits {it.name} {' '.join(edits_in(it))}\n" for it in sorted(crates.iterdir()) if it.is_dir())
