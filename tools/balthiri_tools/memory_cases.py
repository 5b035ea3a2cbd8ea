"""The cases over which memory is refused: for each command of both programs small ones, which reach every crate of it together."""

from __future__ import annotations

from dataclasses import dataclass
from pathlib import Path
from typing import Iterator, List, Optional

TOP = Path(__file__).resolve().parents[2]
CLI, THREADS = "echo_cli", "echo_threads"

USAGE = b"echo: usage\n"


@dataclass(frozen=True)
class Outcome:
    """How a run ends: its status, what it wrote to standard output, and to standard error."""

    status: int
    text: bytes
    said: bytes


@dataclass(frozen=True)
class Given:
    """A case text and its name, and what `plain` and `run` make of it, where that is stored."""

    name: str
    octets: bytes
    plain: Optional[bytes] = None


@dataclass(frozen=True)
class Case:
    """A command over a case text, and how it is to end with all its memory; of a text of which none is stored, the run itself tells it."""

    program: str
    words: str
    name: str
    given: bytes
    text: Optional[bytes] = None
    status: int = 0
    said: bytes = b""

    def __str__(self) -> str:
        return f"{self.program} {self.words}" + (f" < {self.name}" if self.name else "")

    def is_whole(self, outcome: Outcome) -> bool:
        """Whether a run with all its memory ended as it is to."""
        text = outcome.text if self.text is None and self.status == 0 else self.text or b""
        return outcome == Outcome(self.status, text, self.said)


def _stored(name: str) -> Given:
    path = TOP / name
    text = path.with_name(f"{path.stem}_text.txt")
    return Given(name, path.read_bytes(), text.read_bytes() if text.exists() else None)


ATTACH, SECOND, PAGING = "examples/attach.txt", "examples/second.txt", "examples/paging.txt"
DETACH = "tools/tests/data/detach.txt"


def _calls(name: str) -> Given:
    """A case whose trace is the calls and answers of a stored text of `s11` or `s6a`, as `show` reads them by `--kind`."""
    lines = [it.split(b" ") for it in (TOP / name).read_bytes().splitlines()]
    messages = [it[2] for it in lines if it[0] in (b"call", b"answer")]
    return Given(f"the messages of {name}", b"[trace]\n" + b"".join(b"1 " + it + b"\n" for it in messages))


def _read(program: str, words: str, *names: str) -> Iterator[Case]:
    """A command over stored cases; what `plain` and `run` write of one is stored, and so is what `replay` writes of one with a schedule."""
    for name in names:
        given = _stored(name)
        has_schedule = b"\n[schedule]\n" in given.octets
        is_stored = words.startswith("replay") if has_schedule else words.split()[0] in ("plain", "run")
        yield Case(program, words, name, given.octets, given.plain if is_stored else None)


def _refused(program: str, word: str) -> Iterator[Case]:
    """Cases that are refused: at a row, at a row behind another one, and at an event behind a whole attach."""
    attach = _stored(ATTACH).octets
    heading, row, rest = attach.split(b"\n", 2)
    for name, octets, said in (
        ("a row that is no JSON", b"[subscribers]\n{\n", "19 BadJson line 2"),
        ("a row that stands twice", b"\n".join([heading, row, row, rest]), "22 RepeatedImsi line 3"),
        ("an attach and a bad event", attach + b"[schedule]\nsend 1 1\nsend 2 1\n", "26 BadLine line 12"),
    ):
        yield Case(program, word, name, octets, status=2, said=f"echo: case refused {said}\n".encode())


def _of_cli() -> Iterator[Case]:
    strange = ("examples/refused.txt", "examples/stranger.txt", "examples/service_reject.txt")
    yield from _read(CLI, "plain", ATTACH, SECOND, PAGING, DETACH, *strange)
    yield from _refused(CLI, "plain")
    yield from _read(CLI, "show", SECOND, *strange)
    for kind, name in ((1, "tools/tests/data/s11_1_text.txt"), (2, "tools/tests/data/s6a_1_text.txt")):
        calls = _calls(name)
        yield Case(CLI, f"show --kind={kind}", calls.name, calls.octets)
    yield from _read(CLI, "s11", SECOND, DETACH)
    yield from _read(CLI, "s6a", DETACH)
    yield from _read(CLI, "replay --replicas=2", "examples/replay.txt", "examples/race.txt", "examples/stop.txt")
    yield from _read(CLI, "replay --replicas=3", PAGING, DETACH)
    yield from _refused(CLI, "replay")
    for words in ("make --number=7 --devices=2 --rounds=1", "make --number=7 --devices=2 --rounds=1 --text"):
        yield Case(CLI, words, "", b"")
    yield from _read(CLI, "epochs --device=1 --number=7 --events=30", ATTACH, PAGING)
    yield from _read(CLI, "crash --after=18", ATTACH)
    yield from _read(CLI, "crash --after=1000", DETACH)
    yield Case(CLI, "plain --replicas=2", "", b"", status=1, said=USAGE)


def _of_threads() -> Iterator[Case]:
    for workers in (1, 3):
        yield from _read(THREADS, f"run --workers={workers}", ATTACH, SECOND, PAGING, DETACH, "examples/stranger.txt")
        yield Case(THREADS, f"load --number=7 --devices=2 --rounds=1 --workers={workers}", "", b"")
    yield from _refused(THREADS, "run")
    yield Case(THREADS, "run --workers=17", "", b"", status=1, said=USAGE)


def all_cases() -> List[Case]:
    return [*_of_cli(), *_of_threads()]
