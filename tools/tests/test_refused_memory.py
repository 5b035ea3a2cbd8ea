"""The refusal of memory, over a program that asks for it three times and ends in each way that is wrong, and over the built one."""

import os
import shutil
import subprocess
import sys
import tempfile
import unittest
from pathlib import Path
from typing import ClassVar, Dict, List, Tuple
from unittest import mock

from balthiri_tools import refusals
from balthiri_tools.memory_cases import CLI, Outcome, all_cases
from balthiri_tools.refusals import NO_MEMORY, WAYS, End, Runner, fault_of
from support import TOOLS, Quiet, has_command, run

# A program that asks for memory three times, and writes a text in two halves. Without the first or the second block it ends in the way that FAKE_WAY names; it
# does without the third.
FAKE = r"""
#include <signal.h>
#include <stdio.h>
#include <stdlib.h>
#include <string.h>
#include <unistd.h>

static void put(int file, const char *text) { if (write(file, text, strlen(text)) < 0) _exit(99); }
static int is(const char *way) { return strcmp(getenv("FAKE_WAY"), way) == 0; }

static int without(void)
{
    if (is("hangs")) for (;;) pause();
    if (is("killed")) raise(SIGSEGV);
    if (is("139")) _exit(139);
    if (is("half a text")) { put(1, "a te"); put(2, "echo: out of memory\n"); return 5; }
    if (is("a text and 5")) { put(1, "a text\n"); put(2, "echo: out of memory\n"); return 5; }
    if (is("half a text and 0")) { put(1, "a te"); return 0; }
    if (is("another text")) { put(1, "a tent\n"); return 0; }
    if (is("no text")) return 0;
    if (is("a line beside the text")) { put(1, "a text\n"); put(2, "echo: out of memory\n"); return 0; }
    if (is("another line")) { put(2, "echo: usage\n"); return 5; }
    if (is("half a line")) { put(2, "echo: out of mem"); return 5; }
    if (is("a line more")) { put(2, "echo: out of memory\nabort\n"); return 5; }
    if (is("no line")) return 5;
    if (is("another fault")) { put(2, "echo: read fault\n"); return 3; }
    put(2, "echo: out of memory\n");
    return 5;
}

int main(void)
{
    char *block, *grown, *spare;
    if (is("no request")) { put(1, "a text\n"); return 0; }
    if (is("never well")) { put(2, "echo: write fault\n"); return 4; }
    block = malloc(1);
    if (block == NULL) return without();
    *block = 'a';
    grown = realloc(block, 100);
    if (grown == NULL && *block == 'a') return without();
    spare = malloc(7);
    put(1, "a te");
    put(1, "xt\n");
    free(spare);
    return 0;
}
"""

CASE = "plain < examples/service_reject.txt"
LINE = f"echo_cli {CASE}"
(THE_CASE,) = (it for it in all_cases() if str(it) == LINE)

# What is told of places 1 and 2, by the way in which the fake program ends there; it does without the third.
FAULTS = {
    "hangs": ("did not end", "no end"),
    "killed": ("was killed by SIGSEGV", "killed by SIGSEGV"),
    "139": ("ended with status 139, and told nothing", "status 139"),
    "half a text": ("ended with status 5, and wrote 4 of the 7 octets of its text", "status 5"),
    "a text and 5": ("ended with status 5, and wrote its whole text", "status 5"),
    "half a text and 0": ("ended with status 0, and wrote 4 of the 7 octets of its text", "status 0"),
    "another text": ("ended with status 0, and wrote another text", "status 0"),
    "no text": ("ended with status 0, and wrote no text", "status 0"),
    "a line beside the text": ("ended with status 0, and told 'echo: out of memory\\n', not nothing", "status 0"),
    "another line": ("ended with status 5, and told 'echo: usage\\n', not 'echo: out of memory\\n'", "status 5"),
    "half a line": ("ended with status 5, and told 'echo: out of mem', not 'echo: out of memory\\n'", "status 5"),
    "a line more": ("ended with status 5, and told 'echo: out of memory\\nabort\\n', not 'echo: out of memory\\n'", "status 5"),
    "no line": ("ended with status 5, and told nothing, not 'echo: out of memory\\n'", "status 5"),
    "another fault": ("ended with status 3, and told 'echo: read fault\\n'", "status 3"),
}


def told_of(way: str) -> List[str]:
    """The lines over the fake program that ends in this way at its first two places, and at the third does without the block."""
    fault, end = FAULTS[way]
    ends = "3 status 0" if end == "status 0" else ", ".join(sorted(["1 status 0", f"2 {end}"], key=lambda it: it.split(" ", 1)[1]))
    lines = []
    for how, behind in (("once", ""), ("from there on", " and on")):
        lines += [f"FAILED: {LINE}, {how}: 3 places, {ends}", f"    place 1{behind}: {fault}", f"    place 2{behind}: {fault}"]
    return lines


@unittest.skipIf(shutil.which("cc") is None, "missing: cc")
class Fakes(unittest.TestCase):
    folder: "ClassVar[tempfile.TemporaryDirectory[str]]"
    fake: ClassVar[Path]

    @classmethod
    def setUpClass(cls) -> None:
        cls.folder = tempfile.TemporaryDirectory()
        cls.fake = Path(cls.folder.name) / "fake"
        subprocess.run(["cc", "-O0", "-x", "c", "-o", str(cls.fake), "-"], input=FAKE.encode(), check=True)

    @classmethod
    def tearDownClass(cls) -> None:
        cls.folder.cleanup()

    def ran(self, way: str, *words: str) -> "Tuple[int, List[str]]":
        line = [sys.executable, str(TOOLS / "refused_memory"), "--echo-cli", str(self.fake), "--only", CASE, *words]
        environment: Dict[str, str] = {**os.environ, "FAKE_WAY": way}
        done = subprocess.run(line, stdout=subprocess.PIPE, stderr=subprocess.PIPE, env=environment, check=False)
        return done.returncode, done.stdout.decode().splitlines()

    def tried(self, runner: Runner, way: str) -> List[str]:
        """What is told of the case over the fake program that ends in this way, of which three requests are seen."""
        runner.seconds = 3 if way == "hangs" else 60
        with mock.patch.dict(os.environ, FAKE_WAY=way):
            whole = runner.whole(THE_CASE)
            self.assertEqual(whole, End(Outcome(0, b"a text\n", b""), True, 3, 0))
            return [line for it in WAYS for line in runner.tried(THE_CASE, whole.outcome, it, 3, None).lines(THE_CASE, it)]

    def test_a_program_that_ends_well(self) -> None:
        ends = "3 places, 1 status 0, 2 status 5"
        self.assertEqual(self.ran("well"), (0, [f"{LINE}, once: {ends}", f"{LINE}, from there on: {ends}", "2 passed, 0 failed"]))

    def test_each_end_that_is_wrong(self) -> None:
        runner = Runner({CLI: str(self.fake)}, Path(self.folder.name), 0, 4, Quiet())
        for way in FAULTS:
            with self.subTest(way=way):
                self.assertEqual(self.tried(runner, way), told_of(way))

    def test_a_case_is_given_up_behind_runs_that_hang(self) -> None:
        runner = Runner({CLI: str(self.fake)}, Path(self.folder.name), 3, 1, Quiet())
        given_up = "was not tried, and none behind it, since too many did not end"
        with mock.patch.multiple(refusals, BLOCK=1, MOST_HANGS=1), mock.patch.dict(os.environ, FAKE_WAY="hangs"):
            whole = runner.whole(THE_CASE).outcome
            told = runner.tried(THE_CASE, whole, "once", 3, None).lines(THE_CASE, "once")
        self.assertEqual(told, [f"FAILED: {LINE}, once: 1 place, 1 no end", "    place 1: did not end", f"    place 2: {given_up}"])

    def test_one_place(self) -> None:
        fault = FAULTS["killed"][0]
        told = [f"FAILED: {LINE}, once: 1 place, 1 killed by SIGSEGV", f"    place 2: {fault}"]
        told += [f"FAILED: {LINE}, from there on: 1 place, 1 killed by SIGSEGV", f"    place 2 and on: {fault}", "0 passed, 2 failed"]
        self.assertEqual(self.ran("killed", "--place=2"), (1, told))
        fault = "is not there: the run asks for memory less often"
        told = [f"FAILED: {LINE}, once: 0 places", f"    place 4: {fault}", f"FAILED: {LINE}, from there on: 0 places", f"    place 4 and on: {fault}"]
        self.assertEqual(self.ran("well", "--place=4"), (1, [*told, "0 passed, 2 failed"]))

    def test_a_program_whose_requests_are_not_seen(self) -> None:
        self.assertEqual(self.ran("no request"), (1, [f"FAILED: {LINE}: no request for memory is seen, so none can be refused", "0 passed, 1 failed"]))

    def test_a_program_that_fails_with_all_its_memory(self) -> None:
        told = f"FAILED: {LINE}: with all its memory it is not to end with status 4, 0 octets of text and 'echo: write fault\\n'"
        self.assertEqual(self.ran("never well"), (1, [told, "0 passed, 1 failed"]))


class Ends(unittest.TestCase):
    def test_want_of_memory_needs_a_refusal(self) -> None:
        whole = Outcome(2, b"", b"echo: case refused 19 BadJson line 2\n")
        ends = [End(NO_MEMORY, True, 9, 1), End(NO_MEMORY, True, 9, 0), End(whole, True, 9, 1), End(whole, True, 9, 0), End(Outcome(2, b"", b""), True, 9, 1)]
        told = "ended with status 2, and told nothing, not 'echo: case refused 19 BadJson line 2\\n'"
        self.assertEqual([fault_of(it, whole) for it in ends], [None, "ended with status 5, though nothing was refused", None, None, told])


class Words(unittest.TestCase):
    def refused(self, expected: str, *words: str) -> None:
        done = run("refused_memory", *words)
        self.assertEqual((done.returncode, done.stdout), (2, b""))
        lines = done.stderr.decode().splitlines()
        self.assertEqual(len(lines), 1, lines)
        self.assertIn(expected, lines[0])

    def test_words(self) -> None:
        self.refused("no case has these words: plein", "--only", "plein")
        self.refused("no program at /none: `rt ci` builds it", "--only", CASE, "--echo-cli", "/none")
        self.refused("--help", "--place=0")

    def test_the_cases_have_each_command_once_and_more(self) -> None:
        lines = [str(it) for it in all_cases()]
        self.assertEqual(len(set(lines)), len(lines))
        commands = {" ".join(it.split(" ")[:2]) for it in lines}
        of_cli = {f"echo_cli {it}" for it in ("plain", "show", "s11", "s6a", "replay", "make", "epochs", "crash")}
        self.assertEqual(commands, of_cli | {"echo_threads run", "echo_threads load"})


@unittest.skipIf(shutil.which("cc") is None or not has_command("plain"), "missing: cc or the built program (`rt ci` makes it)")
class Built(unittest.TestCase):
    def test_a_case(self) -> None:
        done = run("refused_memory", "--only", CASE)
        *told, last = done.stdout.decode().splitlines()
        self.assertEqual((done.returncode, last, len(told)), (0, "2 passed, 0 failed", 2), done.stdout)
        once, behind = (line.replace(f"{LINE}, {way}: ", "").split(" places, ") for line, way in zip(told, ("once", "from there on")))
        # without one request it may do, as without room that it asks for ahead; without that and all behind it never
        self.assertRegex(once[1], r"\A([0-9]+ status 0, )?[0-9]+ status 5\Z")
        self.assertEqual(behind[1], f"{behind[0]} status 5")


if __name__ == "__main__":
    unittest.main()
