"""The tables of stored logs, and a run over a kit that only plays one."""

import os
import subprocess
import sys
import unittest
from pathlib import Path
from typing import Dict, List

from balthiri_tools.gate_log import edits_in, read_log
from support import DATA, TOOLS, InFolder, run

BEFORE, AFTER = DATA / "gate_before.log", DATA / "gate_after.log"

# low: 15 + 1; 26 + 2; 12 + 0.5; 19 and 11.5 over the seed, 21.5 from nothing; 7.2. top: 28; 14.4 and 6. only: one edit, from nothing, 12.4.
TABLE = """
crate                 proof    tests     seed    edits  closing  program      all  edits tried
low                    16.0     28.0     12.5     52.0      7.2      0.0    115.7            3
top                    28.0      0.0      0.0      0.0      0.0     20.4     48.4            0
only                    0.0      0.0      0.0     12.4      0.0      0.0     12.4            1
minutes                 0.7      0.5      0.2      1.1      0.1      0.3      2.9            4

dearest edits
     21.5  low an edit from nothing
     19.0  low other_end
     12.4  only alone
     11.5  low one_more

dearest functions, in the check that the edits of their crate begin with
      1.5  low low::one_more
      0.2  low low::other_end
"""

# low: 115.7 becomes 13 + 12.5 + 18 + 7.2 = 50.7
COMPARED = """
crate                before    after   change    proof    tests     seed    edits  closing  program
low                   115.7     50.7    -65.0     -3.0    -28.0     +0.0    -34.0     +0.0     +0.0
cases                   0.0     29.0    +29.0    +29.0     +0.0     +0.0     +0.0     +0.0     +0.0 (new)
only                   12.4      0.0    -12.4     +0.0     +0.0     +0.0    -12.4     +0.0     +0.0 (gone)
top                    48.4     48.4     +0.0     +0.0     +0.0     +0.0     +0.0     +0.0     +0.0
minutes                 2.9      2.1     -0.8     +0.4     -0.5     +0.0     -0.8     +0.0     +0.0

edits that changed most
    -21.5  low an edit from nothing (gone)
    -19.0  low other_end (gone)
    -12.4  only alone (gone)
     +8.5  low third (new)
     -2.0  low one_more

functions that changed most
     -1.0  low low::one_more
     +0.8  low low::third (new)
     -0.2  low low::other_end (gone)
"""

# What stands for rt and for rattle: rt calls rattle once for a proof and three times for a crate of two edits, and ends with status 1.
RT = """#!/bin/sh
at=$(dirname "$(readlink -f "$0")")
cd crates/low && "$at/rattle" build --crate-name low src/lib.rt --jobs 1 --statements && cd .. || exit 9
mkdir rt-edit-1 && cd rt-edit-1
"$at/rattle" check --crate-name low src/lib.rt --jobs 1 --incremental ../seed | grep -v '^checked'
"$at/rattle" check --crate-name low src/lib.rt --jobs 1 --incremental ../1
"$at/rattle" check --crate-name low src/lib.rt --jobs 1 --incremental ../seed > /dev/null
exit 1
"""
RATTLE = """#!/bin/sh
echo "words $*"
case "$*" in
*../1*) kill -KILL $$ ;;
*--progress*) echo 'checked low::first, 1 of 2'; echo 'checked low::second, 2 of 2' ;;
esac
"""


def write_at(path: Path, text: str = "") -> None:
    """Writes a file that may be run, and the folders above it."""
    path.parent.mkdir(parents=True, exist_ok=True)
    path.write_text(text)
    path.chmod(0o755)


class Logs(InFolder):
    def lines(self, *words: object) -> "List[str]":
        return self.ran("gate_minutes", *words).stdout.decode().split("\n")

    def test_the_table_of_a_log(self) -> None:
        heading, *rest = self.lines("--table", BEFORE)
        self.assertEqual(heading, "rt ci, RT_JOBS=2, 4 processors; seconds of processor time, user and system")
        self.assertEqual("\n".join(["", *rest[1:]]), TABLE)

    def test_two_logs(self) -> None:
        before, after, *rest = self.lines("--compare", BEFORE, AFTER)
        self.assertEqual(before, "before: rt ci, RT_JOBS=2, 4 processors; seconds of processor time, user and system")
        self.assertEqual(after, "after:  rt ci, RT_JOBS not set, 4 processors; seconds of processor time, user and system")
        self.assertEqual("\n".join(["", *rest[1:]]), COMPARED)

    def test_a_log_that_tells_no_names(self) -> None:
        # names are then those in the folder in which the crate was proved, or the edits' numbers
        lines = [it.replace("/r/crates", str(self.folder)) for it in BEFORE.read_text().split("\n") if not it.startswith(("run ", "edits "))]
        self.assertEqual(set(read_log(lines).edits), {("low", "edit 1"), ("low", "edit 2"), ("low", "an edit from nothing"), ("only", "an edit from nothing")})
        for name in ("b.edit", "a.edit", "a.md"):
            write_at(self.folder / "low/must-fail" / name)
        self.assertEqual(edits_in(self.folder / "low"), ["a", "b"])
        self.assertEqual(set(read_log(lines).edits), {("low", "a"), ("low", "b"), ("low", "an edit from nothing"), ("only", "an edit from nothing")})

    def test_words_and_files(self) -> None:
        none = self.folder / "none"
        for words, expected in ((["--table", DATA / "plain_1.txt"], "no call"), (["--table", none], "No such file"), (["--table", BEFORE, "low"], "--help")):
            done = run("gate_minutes", *words)
            self.assertEqual((done.returncode, done.stdout), (2, b""))
            self.assertIn(expected, done.stderr.decode())


class Runs(InFolder):
    def started(self, *words: object) -> "subprocess.CompletedProcess[bytes]":
        for name, text in (("rt", RT), ("rtlib.py", ""), ("rattle", RATTLE), ("rattle-link", "")):
            write_at(self.folder / "played/bin" / name, text)
        write_at(self.folder / "played/rlibs/std")
        write_at(self.folder / "top/crates.txt", "low:\n")
        for name in ("first", "second"):
            write_at(self.folder / "top/crates/low/must-fail" / f"{name}.edit")
        environment: Dict[str, str] = {**os.environ, "PATH": f"{self.folder}/played/bin:{os.environ['PATH']}", "RT_JOBS": "3"}
        line = [sys.executable, str(TOOLS / "gate_minutes"), *map(str, words)]
        return subprocess.run(line, cwd=self.folder / "top", stdout=subprocess.PIPE, stderr=subprocess.PIPE, env=environment, check=False)

    def test_a_run(self) -> None:
        done = self.started("--at", self.folder / "at", "low")
        text = done.stdout.decode()
        self.assertEqual(done.returncode, 1, done.stderr)
        # what rattle prints goes on to rt, which prints it here; only the seed has a word more
        self.assertIn("words build --crate-name low src/lib.rt --jobs 1 --statements\n", text)
        self.assertIn("words check --crate-name low src/lib.rt --jobs 1 --incremental ../seed --progress\n", text)
        self.assertIn("rt ci low, RT_JOBS=3, ", text)
        self.assertRegex(text, r"\nlow( +[0-9.]+){7} +1\n")
        self.assertIn("low second\n", text)
        self.assertIn("low low::second\n", text)
        self.assertNotIn("low low::first\n", text)  # it has in it what the check loads
        log = next((self.folder / "at").glob("log-*")).read_text().splitlines()
        self.assertEqual([it.split(" ")[2] for it in log if " --crate-name " in it], ["0", "0", "137", "0"])
        self.assertTrue((self.folder / "at/kit/rlibs/std").exists())

    def test_it_runs_at_the_top_of_a_repository(self) -> None:
        words = [sys.executable, str(TOOLS / "gate_minutes"), "--at", str(self.folder / "at")]
        done = subprocess.run(words, cwd=self.folder, stdout=subprocess.PIPE, stderr=subprocess.PIPE, check=False)
        self.assertEqual((done.returncode, done.stdout, (self.folder / "at").exists()), (2, b"", False))
        self.assertIn("top of a repository", done.stderr.decode())
