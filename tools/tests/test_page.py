"""Pages as files: what they hold of a case and its text, what tshark says, and what is refused."""

import json
import re
import subprocess
import sys
import unittest
from pathlib import Path
from typing import Dict, List, cast

from balthiri_tools.case_text import read_case
from balthiri_tools.command import Progress
from balthiri_tools.page import in_script, page_of
from balthiri_tools.page_data import Run, data_of, read_text
from balthiri_tools.page_tshark import told_of
from balthiri_tools.printed import Down
from balthiri_tools.turns import Call, Turn
from page_runs import MadeRun
from support import DATA, EXAMPLES, PLAIN, REPLAYS, TOOLS, InFolder, has_replay, needs, run, told, trace_of

Json = Dict[str, object]
FILES = [(DATA / f"{it}.txt", DATA / f"{it}_text.txt") for it in PLAIN + REPLAYS]
FILES += [(EXAMPLES / f"{it}.txt", EXAMPLES / f"{it}_text.txt") for it in ("attach", "paging", "second", "race", "stop", "replay")]


def run_of(case_file: Path, text_file: Path) -> Run:
    case, text = read_case(case_file.read_bytes()), text_file.read_bytes()
    return Run(case_file.name, "a stored text", case, text, read_text(case, text))


def data_in(page: str, name: str = "run") -> Json:
    """The data that a page carries, as a browser finds it: up to the first end of a script."""
    return cast(Json, json.loads(page.split(f'<script type="application/json" id="{name}">')[1].split("</script>")[0]))


def transcript_of(text: bytes) -> List[str]:
    return [it.split(": ", 1)[1] for it in text.decode().splitlines() if it.startswith("event ")]


class Contents(unittest.TestCase):
    def test_the_events_are_those_of_the_transcript(self) -> None:
        for files in FILES:
            data = data_of(run_of(*files))
            text = files[1].read_bytes()
            self.assertEqual(str(data["answers"]).split("\n") if data["answers"] else [], transcript_of(text))
            self.assertEqual(len(str(data["schedule"]).split("\n")) if data["schedule"] else 0, len(transcript_of(text)))

    def test_devices_are_as_printed(self) -> None:
        for files in FILES:
            lines = files[1].read_text().splitlines()
            devices = cast(List[Json], data_of(run_of(*files))["devices"])
            made = [f"device {it['imsi']} messages {it['messages']} steps {it['steps']}" for it in sorted(devices, key=lambda it: str(it["imsi"]))]
            self.assertEqual(made, [it for it in lines if it.startswith("device ")])
            sessions = ["session {} link {} area {} {} bearer {} radio {}".format(*cast(List[object], it["session"])) for it in devices]
            self.assertEqual(sorted(sessions), sorted(it for it in lines if it.startswith("session ")))
            self.assertEqual([f"second {it['second']}" for it in devices if it["second"]], [it for it in lines if it.startswith("second ")])
            for lane in ("gateway", "subscriber"):
                calls = sum(len(cast(List[str], it[lane])) for it in devices)
                self.assertEqual(calls, sum(it.startswith(f"{lane} ") for it in lines))

    def test_messages_and_refused_lines_are_as_printed(self) -> None:
        for case_file, text_file in FILES:
            data, lines = data_of(run_of(case_file, text_file)), text_file.read_text().splitlines()
            trace = cast(List[List[object]], data["trace"])
            self.assertEqual([f"{it[1] or 'data'} {it[2]}".lower() for it in trace], [it.lower() for it in trace_of(case_file.read_bytes())])
            self.assertEqual([f"refused {it[0]} {it[6]}" for it in trace if it[6]], [it for it in lines if it.startswith("refused ")])
            downs = cast(List[List[object]], data["downs"])
            self.assertEqual(sorted(f"down {it[1]} {it[2]} {it[3]}" for it in downs), sorted(it for it in lines if it.startswith("down ")))

    def test_what_each_message_made(self) -> None:
        made = run_of(EXAMPLES / "attach.txt", EXAMPLES / "attach_text.txt")
        first, last = made.messages()[4], made.messages()[9]
        turns = [Turn(first, [Call("subscriber", 1, "vectors")], [Down(1, 1, b"\0")]), Turn(last, [Call("subscriber", 2, "purge")])]
        data = data_of(Run(made.name, made.made_by, made.case, made.text, made.printed, turns))
        self.assertEqual(data["turns"], [[4, [["subscriber", 1, 1]], [1]], [9, [["subscriber", 2, 0]], []]])

    def test_any_text_is_data(self) -> None:
        for text in ("</script><script>alert(1)</script>", "<!--", "]]>", "&amp;", "\u2028", "\\", '"', "$data", "\udce4"):
            written = in_script([text])
            self.assertEqual(json.loads(written), [text])
            self.assertNotRegex(written, "[<>&\u2028]")

    def test_a_page_stands_alone(self) -> None:
        page = page_of(run_of(*FILES[-1]), None)
        self.assertEqual(page, page_of(run_of(*FILES[-1]), None))
        self.assertEqual(data_in(page)["name"], "replay.txt")
        self.assertEqual(re.findall(r"https?://[^\"']*", page), ["http://www.w3.org/2000/svg"])
        asks = r"\b(?:src|href)=|@import|url\(|\bimport\b|fetch\(|XMLHttpRequest|eval\(|innerHTML|outerHTML"
        self.assertEqual(re.findall(asks, page), [])


@needs("tshark")
class Dissections(unittest.TestCase):
    def test_lines_and_trees(self) -> None:
        frames = run_of(EXAMPLES / "attach.txt", EXAMPLES / "attach_text.txt").frames()
        found = told_of(frames, Progress("page", "messages"))
        assert found is not None
        self.assertEqual(len(frames), 9)  # six lines and three downs
        self.assertIn("Attach request", found.infos[0] or "")
        self.assertIn("Attach accept", found.infos[8] or "")
        tree = [found.lines[it].strip() for it in found.trees[0] or []]
        for line in ("S1 Application Protocol", "ENB-UE-S1AP-ID: 1", "NAS EPS Mobility Management Message Type: Attach request (0x41)", "IMSI: 208930000000001"):
            self.assertIn(line, tree)
        self.assertEqual(found.malformed, [4])  # the radio capability of the example is no message of RRC

    def test_a_line_without_octets_has_none_and_the_others_their_own(self) -> None:
        frames = run_of(EXAMPLES / "attach.txt", EXAMPLES / "attach_text.txt").frames()
        found = told_of([None, frames[8], None, frames[0]], Progress("page", "messages"), most_trees=1)
        assert found is not None
        self.assertEqual([it is None for it in found.infos], [True, False, True, False])
        self.assertEqual([it is None for it in found.trees], [True, False, True, True])
        self.assertIn("Attach accept", found.infos[1] or "")

    def test_a_page_of_no_messages(self) -> None:
        found = told_of([None], Progress("page", "messages"))
        assert found is not None
        self.assertEqual((found.infos, found.trees), ([None], [None]))


class Tool(InFolder):
    def test_a_stored_text_needs_no_program(self) -> None:
        for case_file, text_file in FILES[1::4]:
            self.ran("page", case_file, "--text", text_file, "--program", "/none", "-o", self.folder / "page")
            data = data_in((self.folder / "page").read_text())
            self.assertEqual((data["name"], data["madeBy"]), (case_file.name, f"a stored text, {text_file.name}"))

    def test_standard_input_and_output(self) -> None:
        done = self.ran("page", "-", "--text", EXAMPLES / "race_text.txt", given=(EXAMPLES / "race.txt").read_bytes())
        self.assertEqual(data_in(done.stdout.decode())["name"], "standard input")

    def test_where_tshark_is_missing(self) -> None:
        files = EXAMPLES / "race.txt", EXAMPLES / "race_text.txt"
        words = [sys.executable, str(TOOLS / "page"), str(files[0]), "--text", str(files[1]), "-o", str(self.folder / "page")]
        done = subprocess.run(words, stdout=subprocess.PIPE, stderr=subprocess.PIPE, env={"PATH": str(self.folder)}, check=False)
        self.assertEqual(done.returncode, 0)
        self.assertIn("tshark is not installed", done.stderr.decode())
        page = (self.folder / "page").read_text()
        self.assertEqual((data_in(page)["tshark"], data_in(page, "trees")), (None, None))

    def test_bad_input(self) -> None:
        case, text = EXAMPLES / "race.txt", EXAMPLES / "race_text.txt"
        self.refused("printed text", "page", case, "--text", DATA / "replay_2_text.txt")
        self.refused("breaks off", "page", case, "--text", self.file("text", text.read_bytes()[:-1]))
        self.refused("none that plain or replay prints", "page", case, "--text", self.file("text", text.read_bytes().replace(b"stale 0 1", b"<b>")))
        self.refused("no session", "page", case, "--text", self.file("text", text.read_bytes().replace(b"link 1/1", b"link <b>")))
        self.refused("standard input", "page", "-", "--text", "-")
        self.refused("--help", "page", case, "--replicas", "17")
        self.refused("none.txt", "page", self.folder / "none.txt", "--text", text)
        self.refused("none", "page", case, "--program", self.folder / "none")


@needs("program")
class WithProgram(InFolder):
    @unittest.skipUnless(has_replay(), "the built program has no command replay")
    def test_the_program_is_run(self) -> None:
        self.ran("page", EXAMPLES / "race.txt", "-o", self.folder / "page")
        data = data_in((self.folder / "page").read_text())
        self.assertEqual(str(data["answers"]).split("\n"), transcript_of((EXAMPLES / "race_text.txt").read_bytes()))
        self.assertEqual(data["madeBy"], "replay --replicas=2")

    @unittest.skipUnless(has_replay(), "the built program has no command replay")
    def test_a_case_without_a_schedule_has_what_each_message_made(self) -> None:
        self.ran("page", EXAMPLES / "attach.txt", "-o", self.folder / "page")
        subscriber, gateway = "subscriber", "gateway"
        expected = [
            [4, [[subscriber, 1, 1]], [1]],
            [5, [], [2]],
            [6, [[subscriber, 2, 1], [gateway, 1, 1]], [3]],
            [7, [], []],
            [8, [], []],
            [9, [[gateway, 2, 1]], []],
        ]
        self.assertEqual(data_in((self.folder / "page").read_text())["turns"], expected)

    def test_a_refused_case(self) -> None:
        self.refused("case refused 26 BadLine line 2", "page", self.file("case", b"[schedule]\nlose 1\n"))


class MadeRuns(InFolder):
    """The runs that tests in a browser are made of are runs by the documented formats."""

    def test_a_made_run_is_taken(self) -> None:
        case, text = MadeRun(3, 2, 100).texts()
        self.ran("page", self.file("case", case), "--text", self.file("text", text), "-o", self.folder / "page")
        self.assertEqual(str(data_in((self.folder / "page").read_text())["answers"]).split("\n"), transcript_of(text))

    @needs("program")
    def test_the_program_takes_its_case(self) -> None:
        case, _ = MadeRun(3, 2, 100).texts()
        done = run("page", self.file("case", case), "-o", self.folder / "page")
        self.assertEqual((done.returncode, [it for it in told(done) if "tshark" not in it]), (0, []))
