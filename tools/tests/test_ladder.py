"""Charts against the transcripts that they are made of."""

import re
import shutil
import subprocess
import sys
import unittest
from pathlib import Path
from typing import Dict, List, Tuple
from xml.etree import ElementTree

from balthiri_tools.case_text import CaseText, read_case
from balthiri_tools.chart import Chart, Form, Line, Mark
from balthiri_tools.ladder_lines import LEGEND_OF_REPLAY, Choice, lines_of_replay
from balthiri_tools.picture import MOST_PIXELS, ROWS_BETWEEN_TITLES, Picture, png_of
from balthiri_tools.printed import belongs, read_printed
from balthiri_tools.turns import messages_of
from support import DATA, EXAMPLES, REPLAYS, TOOLS, InFolder, has_replay, needs, run, run_program, told

ALL = Choice(None, 1, 10**9)
PARTS = "--from, --to and --device choose a part of it"
README_CHARTS = ["stop", "race"]
FILES = [(DATA / f"{it}.txt", DATA / f"{it}_text.txt") for it in REPLAYS] + [(EXAMPLES / f"{it}.txt", EXAMPLES / f"{it}_text.txt") for it in README_CHARTS]


def read_both(case_file: Path, text_file: Path) -> "Tuple[CaseText, List[str], List[str]]":
    """A case, the events of its schedule, and the lines of the transcript; the last two not by the tools' own reading."""
    case = case_file.read_bytes()
    schedule = [it for it in case.decode("latin-1").split("[schedule]\n")[1].split("\n") if it and not it.startswith("#")]
    transcript = [it[len("event ") :] for it in text_file.read_text().split("\n") if it.startswith("event ")]
    return read_case(case), schedule, transcript


def chart_of(case_file: Path, text_file: Path, choice: Choice = ALL) -> Chart:
    case, printed = read_case(case_file.read_bytes()), read_printed(text_file.read_bytes())
    return Chart(lines_of_replay(case, printed, messages_of(case, printed), choice), LEGEND_OF_REPLAY)


def drawn(chart: Chart) -> "List[Tuple[str, str, str]]":
    """Of each line of the chart's text what stands before its label, the first and the second line of the label; captions are no lines."""
    found = []
    for it in chart.text(None).splitlines()[3:-1]:
        if it.startswith("  ||| "):
            continue
        match = re.fullmatch(r'  (.*?) \[label="(?:\u00d7 )?([^"\\]*)(?:\\n([^"\\]*))?"(?:, textcolour="[a-z#0-9]+", linecolour="[a-z#0-9]+")?\];', it)
        assert match, it
        found.append((match[1], match[2], match[3] or ""))
    return found


class Transcripts(unittest.TestCase):
    def test_each_event_is_a_line_in_order(self) -> None:
        for files in FILES:
            _, _, transcript = read_both(*files)
            self.assertTrue(transcript)
            self.assertEqual([label for _, label, _ in drawn(chart_of(*files))], [it.replace(": ", " ") for it in transcript])

    def test_each_event_is_drawn_at_what_it_names(self) -> None:
        for files in FILES:
            _, schedule, transcript = read_both(*files)
            for event, answer, (ends, _, name) in zip(schedule, transcript, drawn(chart_of(*files))):
                word, *values = event.split(" ")
                if "void" in answer:
                    self.assertEqual(name, event)
                if "void replica" in answer:
                    self.assertEqual(ends, "---")
                elif word in ("take", "answer", "read", "write", "stop"):
                    self.assertIn(f"replica{values[0]}", ends.split(" "))
                elif word in ("effect", "settle", "push") and values[1] != "down" and "void" not in answer:
                    self.assertIn(values[1], ends.split(" "))

    def test_stops_stale_writes_repeats_and_void_events_are_marked(self) -> None:
        seen = set()
        for files in FILES:
            for line in chart_of(*files).lines:
                answer = line.label.replace("\u00d7 ", "").split(" ")[1]
                marks = {"stopped": Mark.STOP, "stale": Mark.STALE, "repeat": Mark.REPEAT, "void": Mark.VOID}
                if answer in marks:
                    self.assertIs(line.mark, marks[answer])
                    self.assertIn(f'textcolour="{line.mark.value}"', line.text())
                    seen.add(answer)
                if answer == "stopped":
                    self.assertTrue(line.label.startswith("\u00d7 "))
        self.assertEqual(seen, {"stopped", "stale", "repeat", "void"})

    def test_a_lost_reply(self) -> None:
        lines = drawn(chart_of(EXAMPLES / "stop.txt", EXAMPLES / "stop_text.txt"))
        expected = [
            ("station1 => agents", "1 sent", "Attach request 1"),
            ("agents => replica1", "2 taken", "Attach request 1"),
            ("store => replica1", "3 ready 0", "Attach request 1"),
            ("replica1 => store", "4 committed 1", "Attach request 1"),
            ("replica1 box replica1", "5 stopped", ""),
            ("agents => agents", "6 sent", "Attach request 1"),
            ("agents => replica2", "7 taken", "Attach request 1"),
            ("store => replica2", "8 repeat 1", "Attach request 1"),
            ("replica2 => agents", "9 acked 1", "stored reply to Attach request 1"),
            ("store >> subscriber", "10 pushed", "vectors 1"),
            ("store => subscriber", "11 accepted 1", "vectors 1"),
            ("subscriber => replica2", "12 taken", "answer to vectors 1"),
            ("store => replica2", "13 ready 1", "answer to vectors 1"),
            ("replica2 => store", "14 committed 2", "answer to vectors 1"),
            ("subscriber >> store", "15 settled 1", "vectors 1"),
            ("store >> agents", "16 pushed", "Authentication request 1"),
            ("agents => station1", "17 accepted 1", "Authentication request 1"),
            ("agents >> store", "18 settled 1", "Authentication request 1"),
        ]
        self.assertEqual(lines, expected)

    def test_the_stale_write_of_a_race(self) -> None:
        lines = drawn(chart_of(EXAMPLES / "race.txt", EXAMPLES / "race_text.txt"))
        self.assertEqual(lines[5:7], [("replica1 => store", "6 committed 1", "Attach request 1"), ("replica2 -x store", "7 stale 0 1", "Attach request 1")])

    def test_a_part_by_numbers(self) -> None:
        files = FILES[1]
        whole = chart_of(*files).lines
        self.assertEqual(chart_of(*files, choice=Choice(None, 7, 21)).lines, whole[6:21])

    def test_a_part_by_device(self) -> None:
        files = FILES[1]
        case, schedule, _ = read_both(*files)
        parts = {it.device: {line.label for line in chart_of(*files, choice=Choice(it.device, 1, 10**9)).lines} for it in case.subscribers}
        for number, (event, line) in enumerate(zip(schedule, chart_of(*files).lines), 1):
            word, *values = event.split(" ")
            names = {"send": 0, "reply": 0, "push": 0, "effect": 0, "settle": 0, "take": 1, "answer": 1}
            holders = [device for device, labels in parts.items() if line.label in labels]
            self.assertLessEqual(len(holders), 1, number)
            if word in names:
                self.assertEqual(holders, [int(values[names[word]])])

    def test_each_transcript_belongs_to_its_case(self) -> None:
        for case_file, text_file in FILES:
            self.assertTrue(belongs(read_case(case_file.read_bytes()), read_printed(text_file.read_bytes())))


class Widths(unittest.TestCase):
    def test_a_label_has_room_between_its_columns(self) -> None:
        lines = [Line("1 sent", "n" * 40, Form.ARRIVES, "station1", "agents"), Line("2 taken", "n" * 60, Form.ARRIVES, "agents", "replica2")]
        lines.append(Line("x", "", Form.BOX, "replica1", "replica1"))
        chart = Chart(lines)
        self.assertEqual(list(chart.columns()), ["station1", "agents", "replica1", "replica2"])
        # 40 letters of 7.5 pixels and 20 over one column; the other label reaches over two
        self.assertEqual(chart.width(), 4 * 320)
        self.assertIn('width="900"', chart.text(900))

    def test_columns_stand_in_order(self) -> None:
        ends = [("gateway", "replica10"), ("replica9", "station12"), ("station9", "subscriber"), ("store", "agents")]
        lines = [Line("1", "", Form.ARRIVES, source, target) for source, target in ends]
        self.assertEqual(list(Chart(lines).columns()), ["station9", "station12", "agents", "replica9", "replica10", "store", "gateway", "subscriber"])


Element = Dict[str, str]


def elements(svg: bytes, tag: str) -> List[Element]:
    """The elements of this kind, with what they say as `text`."""
    return [{**it.attrib, "text": it.text or ""} for it in ElementTree.fromstring(svg) if it.tag.endswith("}" + tag)]


def place(svg: bytes, text: str) -> "Tuple[float, float]":
    """Where the first text of these words stands."""
    found = [it for it in elements(svg, "text") if it["text"] == text]
    return float(found[0]["x"]), float(found[0]["y"])


class Pictures(unittest.TestCase):
    def svg(self, name: str) -> bytes:
        return Picture(chart_of(EXAMPLES / f"{name}.txt", EXAMPLES / f"{name}_text.txt")).svg(None)

    def test_the_pictures_of_the_readme_are_made_by_the_tool(self) -> None:
        for it in README_CHARTS:
            self.assertEqual(self.svg(it), (TOOLS.parent / "docs" / f"ladder_{it}.svg").read_bytes())

    def test_a_picture_has_each_label_name_and_caption(self) -> None:
        for files in FILES:
            chart = chart_of(*files)
            said = " ".join(it["text"] for it in elements(Picture(chart).svg(None), "text"))
            for line in chart.lines:
                self.assertTrue(line.label in said and line.name in said and line.caption in said)

    def test_no_line_runs_through_a_label(self) -> None:
        for files in FILES:
            svg = Picture(chart_of(*files)).svg(None)
            self.assertNotIn(b"crispEdges", svg)
            level = sorted(float(it["y1"]) for it in elements(svg, "line") if it["y1"] == it["y2"])
            texts = [float(it["y"]) for it in elements(svg, "text") if "font-style" not in it and it.get("text-anchor") == "middle"]
            self.assertTrue(level and texts)
            for y in texts:  # letters reach from 9 above to 3 below where a text stands
                self.assertEqual([it for it in level if y - 9 <= it <= y + 3], [])

    def test_a_stop_stands_on_its_replica(self) -> None:
        svg = self.svg("stop")
        x, y = place(svg, "\u00d7 5 stopped")
        self.assertEqual(x, place(svg, "replica 1")[0])
        boxes = [it for it in elements(svg, "rect") if it.get("stroke") == "red" and abs(float(it["y"]) + float(it["height"]) / 2 - y) < 8]
        self.assertEqual([float(it["x"]) + float(it["width"]) / 2 for it in boxes], [x])

    def test_a_message_to_the_device_goes_from_the_store_to_the_agent_and_on(self) -> None:
        svg, columns = self.svg("stop"), ("store", "agents", "base station 1")
        store, agents, station = (place(svg, it)[0] for it in columns)
        for label, ends in (("16 pushed", (store, agents)), ("17 accepted 1", (agents, station)), ("18 settled 1", (agents, store))):
            y = place(svg, label)[1]
            arrow = next(it for it in elements(svg, "line") if it["y1"] == it["y2"] and 0 < float(it["y1"]) - y < 10)
            self.assertEqual((float(arrow["x1"]), float(arrow["x2"])), ends)
            self.assertEqual("stroke-dasharray" in arrow, "accepted" not in label)

    def test_the_legend_says_what_each_form_is(self) -> None:
        for files in FILES:
            chart = chart_of(*files)
            used = {(it.form, it.mark) for it in chart.lines}
            said = {it["text"] for it in elements(Picture(chart).svg(None), "text")}
            self.assertEqual({it for it, text in LEGEND_OF_REPLAY.items() if text in said}, used)

    def test_titles_stand_again_in_a_long_picture(self) -> None:
        chart = chart_of(*FILES[1])
        titles = [it for it in elements(Picture(chart).svg(None), "text") if it["text"] == "store"]
        self.assertEqual(len(titles), -(-len(chart.lines) // ROWS_BETWEEN_TITLES))

    def test_a_width_scales_the_whole(self) -> None:
        picture = Picture(chart_of(*FILES[0]))
        root = ElementTree.fromstring(picture.svg(picture.whole_width // 2))
        self.assertEqual(root.attrib["width"], str(picture.whole_width // 2))
        self.assertAlmostEqual(int(root.attrib["height"]), picture.height / 2, delta=2)
        self.assertEqual(root.attrib["viewBox"], f"0 0 {picture.whole_width} {picture.height}")


@needs("mscgen")
class TextsOfMscgen(unittest.TestCase):
    def test_mscgen_draws_each_chart(self) -> None:
        for files in FILES:
            words = ["mscgen", "-T", "svg", "-i", "-", "-o", "-"]
            ran = subprocess.run(words, input=chart_of(*files).text(None).encode(), stdout=subprocess.PIPE, stderr=subprocess.PIPE, check=False)
            self.assertEqual(ran.returncode, 0, ran.stderr)
            self.assertIn(b"<svg", ran.stdout)


@needs("rsvg-convert")
class PicturesOfPoints(unittest.TestCase):
    def test_each_chart(self) -> None:
        for files in FILES:
            self.assertTrue(png_of(Picture(chart_of(*files)).svg(None)).startswith(b"\x89PNG"))


PLAIN_ATTACH = [
    ("station1 => mme", "line 4", "Attach request 1"),
    ("mme => subscriber", "vectors 1", ""),
    ("subscriber >> mme", "answer to vectors 1", ""),
    ("mme => station1", "Authentication request 1", ""),
    ("station1 => mme", "line 5", "Authentication response 2"),
    ("mme => station1", "Security mode command 2", ""),
    ("station1 => mme", "line 6", "Security mode complete 3"),
    ("mme => subscriber", "location 2", ""),
    ("subscriber >> mme", "answer to location 2", ""),
    ("mme => gateway", "create 1", ""),
    ("gateway >> mme", "answer to create 1", ""),
    ("mme => station1", "Attach accept 3", ""),
    ("station1 => mme", "line 7", "InitialContextSetupResponse 4"),
    ("station1 => mme", "line 8", "UECapabilityInfoIndication 5"),
    ("station1 => mme", "line 9", "Attach complete 6"),
    ("mme => gateway", "modify 2", ""),
    ("gateway >> mme", "answer to modify 2", ""),
]


@needs("program")
class Tool(InFolder):
    def lines(self, *words: object) -> "List[Tuple[str, str, str]]":
        text = self.ran("ladder", *words).stdout.decode()
        return [(it[1], it[2], it[3] or "") for it in re.finditer(r'^  (.*) \[label="([^"\\]*)(?:\\n([^"\\]*))?"[^\[]*\];$', text, re.M) if "," not in it[1]]

    def test_the_ladder_of_plain(self) -> None:
        files = EXAMPLES / "attach.txt", EXAMPLES / "attach_text.txt"
        self.assertEqual(self.lines(*files), PLAIN_ATTACH)
        self.assertEqual(self.lines(*files, "--from", "6", "--to", "8"), PLAIN_ATTACH[6:14])
        self.assertEqual(self.lines(*files, "--device", "208930000000001"), PLAIN_ATTACH)

    def test_a_refused_line_is_drawn(self) -> None:
        case, text = (DATA / "plain_2.txt").read_bytes(), (DATA / "plain_2_text.txt").read_text()
        refused = [it.split(" ", 2)[1:] for it in text.splitlines() if it.startswith("refused ")]
        found = [(label, name) for ends, label, name in self.lines(self.file("case", case), DATA / "plain_2_text.txt") if " -x mme" in ends]
        self.assertEqual(found, [(f"line {line}", f"refused {refusal}") for line, refusal in refused])
        self.assertTrue(found)

    def test_bad_words(self) -> None:
        files = EXAMPLES / "attach.txt", EXAMPLES / "attach_text.txt"
        self.refused("no subscriber", "ladder", *files, "--device", "208930000000002")
        self.refused("empty", "ladder", *files, "--from", "10")
        self.refused("--help", "ladder", *files, "--width", "0")

    @unittest.skipUnless(has_replay(), "the built program has no command replay")
    def test_the_ladders_of_the_examples(self) -> None:
        for it in README_CHARTS:
            files = EXAMPLES / f"{it}.txt", EXAMPLES / f"{it}_text.txt"
            self.assertEqual(self.ran("ladder", *files).stdout.decode(), chart_of(*files).text(None))
            changed = files[1].read_bytes().replace(b": ready 0", b": ready 1")
            self.refused("printed text", "ladder", files[0], self.file("text", changed))

    @unittest.skipUnless(has_replay(), "the built program has no command replay")
    def test_replays_of_other_numbers_of_replicas(self) -> None:
        for case_file, text_file in FILES:
            self.assertEqual(self.ran("ladder", case_file, text_file).stdout.decode(), chart_of(case_file, text_file).text(None))


@needs("program")
class ToolPictures(InFolder):
    files = EXAMPLES / "attach.txt", EXAMPLES / "attach_text.txt"

    def test_the_ending_of_the_file_says_what_it_is(self) -> None:
        for name, beginning in (("a.svg", b"<svg "), ("a.msc", b"msc {")):
            self.ran("ladder", *self.files, "-o", self.folder / name)
            self.assertTrue((self.folder / name).read_bytes().startswith(beginning))

    @needs("rsvg-convert")
    def test_a_picture_of_points(self) -> None:
        self.ran("ladder", *self.files, "-o", self.folder / "a.png")
        self.assertTrue((self.folder / "a.png").read_bytes().startswith(b"\x89PNG"))

    def test_where_rsvg_convert_is_missing(self) -> None:
        words = [sys.executable, str(TOOLS / "ladder"), *map(str, self.files), "-o", str(self.folder / "a.png")]
        for it in ("sh", "dirname", "readlink"):  # what the wrapper of the program needs
            (self.folder / it).symlink_to(shutil.which(it) or "")
        done = subprocess.run(words, stdout=subprocess.PIPE, stderr=subprocess.PIPE, env={"PATH": str(self.folder)}, check=False)
        self.assertEqual((done.returncode, done.stdout), (2, b""))
        self.assertIn("rsvg-convert is not installed", done.stderr.decode())
        self.assertFalse((self.folder / "a.png").exists())

    def test_a_long_chart(self) -> None:
        # events that come to nothing, one a line: a take of what is not on its link
        case = (EXAMPLES / "attach.txt").read_bytes() + b"[schedule]\n" + b"take 1 1 1\n" * 600
        files = self.file("case", case), self.file("text", run_program("replay", case))
        long = f"ladder: the chart has 600 lines: {PARTS}"
        self.assertEqual(told(self.ran("ladder", *files, "-o", self.folder / "a.svg")), [long])
        self.assertEqual(told(self.ran("ladder", *files, "-o", self.folder / "a.msc")), [long])
        self.assertEqual(told(self.ran("ladder", *files, "--to", "500", "-o", self.folder / "a.svg")), [])
        self.refused_high(*files, "--width", "400")
        self.assertEqual(told(self.ran("ladder", *files, "--width", "400", "--any-height", "-o", self.folder / "b.svg")), [long])
        high = int(ElementTree.fromstring((self.folder / "b.svg").read_bytes()).attrib["height"])
        self.assertGreater(high, MOST_PIXELS)

    def refused_high(self, *words: object) -> None:
        done = run("ladder", *words, "-o", self.folder / "none.svg")
        self.assertEqual((done.returncode, done.stdout, (self.folder / "none.svg").exists()), (2, b"", False))
        self.assertIn(PARTS, done.stderr.decode())
        self.assertIn("--any-height", done.stderr.decode())
