"""What tshark says of the messages of a page: a line of each, and of the first ones whole trees."""

from __future__ import annotations

import re
import shutil
import subprocess
import tempfile
from dataclasses import dataclass, field
from pathlib import Path
from typing import Dict, Iterator, List, Optional, Sequence, Tuple

from .command import Progress
from .packets import Frame, pcap_of

MOST_TREES = 5000
FRAME = re.compile(r"Frame [0-9]+: ")
IN_FRONT = ("Frame ", "Raw packet data", "Internet Protocol", "Stream Control Transmission Protocol")
MALFORMED = re.compile(r"\[Malformed Packet[^\]]*\]")


@dataclass
class Told:
    """Of each message tshark's line, or none; which it finds malformed; and trees as numbers of lines, each of which stands once."""

    infos: List[Optional[str]] = field(default_factory=list)
    malformed: List[int] = field(default_factory=list)
    lines: List[str] = field(default_factory=list)
    trees: List[Optional[List[int]]] = field(default_factory=list)

    def add(self, at: int, info: str) -> None:
        """What tshark's line says of a message."""
        self.infos[at] = MALFORMED.sub("", info).strip()
        if MALFORMED.search(info):
            self.malformed.append(at)


def _said(words: List[str]) -> Iterator[str]:
    """The lines of tshark. Where it fails there are fewer."""
    with subprocess.Popen(words, stdout=subprocess.PIPE, stderr=subprocess.DEVNULL, encoding="utf-8", errors="replace") as ran:
        assert ran.stdout is not None
        for line in ran.stdout:
            yield line.rstrip("\r\n")


def _dissections(read: List[str], number: int) -> Iterator[Tuple[str, List[str]]]:
    """Of each of the first frames its line, and the lines of S1AP and of what it carries, with two spaces a level."""
    info: Optional[str] = None
    tree: List[str] = []
    before = ""
    for line in _said([*read, "-c", str(number), "-P", "-O", "s1ap,nas-eps", "-o", 'gui.column.format:"Info","%i"', "-T", "text"]):
        if FRAME.match(line):
            behind = tree.pop() if before.strip() and tree else ""  # the line of a frame stands before the frame
            if info is not None:
                yield info, tree
            info, tree = behind, []
        elif line.strip() and not line.startswith(IN_FRONT):
            depth = (len(line) - len(line.lstrip(" "))) // 4
            tree.append("  " * depth + line.strip())
        before = line
    if info is not None:
        yield info, tree


def _lines_of_frames(read: List[str]) -> Iterator[str]:
    return _said([*read, "-T", "fields", "-e", "_ws.col.Info"])


def _fill(told: Told, there: List[int], read: List[str], most_trees: int, progress: Progress) -> None:
    places: Dict[str, int] = {}
    for number, (at, (info, tree)) in enumerate(zip(there, _dissections(read, most_trees)), 1):
        told.add(at, info)
        told.trees[at] = [places.setdefault(line, len(places)) for line in tree]
        progress.at(number, len(there))
    told.lines = list(places)
    if len(there) <= most_trees:
        return
    for number, (at, info) in enumerate(zip(there, _lines_of_frames(read)), 1):
        if number > most_trees:
            told.add(at, info)
        progress.at(number, len(there))


def told_of(frames: Sequence[Optional[Frame]], progress: Progress, most_trees: int = MOST_TREES) -> Optional[Told]:
    """What tshark says of these messages; none where it is not installed."""
    tshark = shutil.which("tshark")
    if tshark is None:
        return None
    told = Told([None] * len(frames), trees=[None] * len(frames))
    there = [at for at, it in enumerate(frames) if it is not None]
    with tempfile.TemporaryDirectory() as folder:
        capture = Path(folder) / "messages.pcap"
        capture.write_bytes(pcap_of(it for it in frames if it is not None))
        if there:
            _fill(told, there, [tshark, "-n", "-r", str(capture)], most_trees, progress)
    return told
