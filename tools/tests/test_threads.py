"""The program with threads beside `echo_cli`: the same texts, the same sums, the same statuses."""

from __future__ import annotations

import os
import re
import subprocess
import unittest
from pathlib import Path
from typing import Tuple

from support import EXAMPLES


def built(name: str) -> Path:
    return EXAMPLES.parent / "crates" / name / "out" / name


ECHO, THREADS = built("echo_cli"), built("echo_threads")

SCHEDULE = re.compile(rb" events [0-9]+ committed [0-9]+ stale [0-9]+")

SECONDS = 60


def ended(program: Path, words: str, case: bytes = b"") -> Tuple[int, bytes, bytes]:
    """The status, the text and the line on standard error of a run, which has so many seconds."""
    done = subprocess.run([str(program), *words.split()], input=case, stdout=subprocess.PIPE, stderr=subprocess.PIPE, check=False, timeout=SECONDS)
    return done.returncode, done.stdout, done.stderr


@unittest.skipUnless(all(os.access(it, os.X_OK) for it in (ECHO, THREADS)), "missing: the built programs (`rt ci` makes them)")
class Threads(unittest.TestCase):
    def test_run_writes_what_plain_writes(self) -> None:
        for path in sorted(EXAMPLES.glob("*.txt")):
            case = path.read_bytes()
            plain = ended(ECHO, "plain", case)
            for workers in (1, 2, 4, 16):
                with self.subTest(case=path.name, workers=workers):
                    self.assertEqual(ended(THREADS, f"run --workers={workers}", case), plain)

    def test_load_has_the_sums_of_make(self) -> None:
        for numbers in ("--number=1 --devices=1 --rounds=0", "--number=7 --devices=40 --rounds=19"):
            status, line, said = ended(ECHO, f"make {numbers}")
            self.assertEqual(len(SCHEDULE.findall(line)), 1)
            with self.subTest(numbers=numbers):
                self.assertEqual(ended(THREADS, f"load {numbers} --workers=8"), (status, SCHEDULE.sub(b"", line), said))

    def test_many_runs_end_with_one_text(self) -> None:
        case = (EXAMPLES / "attach.txt").read_bytes()
        texts = {ended(THREADS, "run --workers=16", case) for _ in range(10)}
        self.assertEqual(texts, {(0, (EXAMPLES / "attach_text.txt").read_bytes(), b"")})


if __name__ == "__main__":
    unittest.main()
