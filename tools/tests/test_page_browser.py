"""Pages as they are in a browser: their counts, search, filters, ladder, keys, print, colours, and how fast a large one opens."""

import json
import tempfile
import unittest
from pathlib import Path
from typing import ClassVar, Dict, List, Tuple, cast

from balthiri_tools.page import page_of
from browser import CHROMIUM, Browser
from page_runs import MadeRun, imsi_of
from machine_model import plain
from support import DATA, EXAMPLES, PLAIN, REPLAYS, TESTS, needs, run, trace_of
from test_page import FILES, run_of, transcript_of

SECONDS_TO_OPEN = 10.0  # where four processors and nothing else to do took 1.3
MOST_ROWS = 120
NEVER_SEEN = "device 208930000000001 messages 0 steps 0\nsession detached link off area 000000 0 bearer none radio 0\n"

# The rows of a list from its first to its last, each as the texts of its cells; scrolled through, as only those in view are there.
ROWS = """(async (id) => {
  const list = document.getElementById(id), found = new Map();
  const frame = () => new Promise((done) => requestAnimationFrame(() => requestAnimationFrame(done)));
  for (let top = 0; ; top += list.clientHeight) {
    list.scrollTop = top;
    await frame();
    for (const row of list.querySelectorAll("[data-at]:not([hidden])")) found.set(Number(row.dataset.at), [...row.children].map(CELL));
    if (top + list.clientHeight >= list.scrollHeight) break;
  }
  return [...found.keys()].sort((one, other) => one - other).map((at) => found.get(at));
})"""
TEXT = '(it) => [...it.querySelectorAll("span")].length ? [...it.querySelectorAll("span")].map((part) => part.textContent).join("|") : it.textContent'
# Of a row of the ladder: the form and mark of its drawing, the columns that it goes from and to, and its label.
DRAWN = """(row) => {
  const drawing = row.querySelector(".drawing"), line = [...drawing.querySelectorAll("line")].pop();
  const columns = [...document.getElementById("ladder-head").children].map((it) => it.textContent);
  const at = (x) => columns[Math.round((parseFloat(x) / 100) * columns.length - 0.5)];
  const [, form, mark] = drawing.getAttribute("class").split(" ");
  const x = (name) => line.getAttribute(name);
  const isAt = ["note", "stop", "again"].includes(form);
  const from = at(isAt ? drawing.querySelector(".end").getAttribute("x") : x("x1"));
  return [from, form + (mark ? " " + mark : ""), isAt ? "" : at(x("x2")), drawing.querySelector("text").textContent];
}"""


def counts_of(lines: List[str]) -> Dict[str, int]:
    counts: Dict[str, int] = {}
    for it in lines:
        counts[it.split(" ")[0]] = counts.get(it.split(" ")[0], 0) + 1
    return counts


def schedule_of(case_file: Path) -> List[str]:
    return [it for it in case_file.read_text("latin-1").split("[schedule]\n")[1].split("\n") if it and not it.startswith("#")]


def devices_of(events: List[str], answers: List[str]) -> List[int]:
    """Whose each event is: of the device that it names, or that its replica took something of last; 0 of none."""
    at = {"send": 1, "reply": 1, "push": 1, "effect": 1, "settle": 1, "take": 2, "answer": 2}
    hands: Dict[str, int] = {}
    whose = []
    for event, answer in zip(events, answers):
        words = event.split(" ")
        if words[0] in at:
            whose.append(int(words[at[words[0]]]))
            if answer == "taken":
                hands[words[1]] = whose[-1]
        else:
            whose.append(hands.get(words[1], 0))
    return whose


@needs(CHROMIUM)
class InBrowser(unittest.TestCase):
    """Tests of one browser and of one folder of pages, both made for their class."""

    browser: ClassVar[Browser]
    folder: ClassVar[Path]

    @classmethod
    def setUpClass(cls) -> None:
        folder = tempfile.TemporaryDirectory()
        cls.addClassCleanup(folder.cleanup)
        cls.folder = Path(folder.name)
        cls.browser = Browser()
        cls.addClassCleanup(cls.browser.close)

    def setUp(self) -> None:
        self.browser.call("Emulation.setDeviceMetricsOverride", width=1400, height=900, deviceScaleFactor=1, mobile=False)

    def tearDown(self) -> None:
        self.assertEqual(self.browser.errors, [])
        self.assertEqual([it for it in self.browser.asked if not it.startswith("file://")], [])
        self.assertLessEqual(len(self.browser.asked), 1)

    @classmethod
    def page(cls, case_file: Path, text_file: Path) -> Path:
        """The page of a run, which is made once for all tests of a class."""
        page = cls.folder / f"{case_file.stem}.html"
        if not page.exists():
            page.write_text(page_of(run_of(case_file, text_file), None))
        return page

    def open(self, case_file: Path, text_file: Path, address: str = "") -> None:
        self.browser.open(self.page(case_file, text_file), address)

    def open_example(self, name: str, address: str = "") -> None:
        folder = DATA if name in PLAIN + REPLAYS else EXAMPLES
        self.open(folder / f"{name}.txt", folder / f"{name}_text.txt", address)

    def value(self, expression: str) -> object:
        return self.browser.value(expression)

    def text(self, selector: str) -> str:
        return str(self.value(f"document.querySelector({json.dumps(selector)}).textContent"))

    def click(self, selector: str) -> None:
        self.value(f"document.querySelector({json.dumps(selector)}).click()")
        self.browser.frame()

    def rows(self, name: str) -> List[List[str]]:
        return cast(List[List[str]], self.value(ROWS.replace("CELL", TEXT) + f"({json.dumps(name)})"))

    def events(self) -> List[Tuple[int, str, str]]:
        """Of each event that is shown its number, answer and words."""
        return [(int(it[0]), it[1].split("|")[0], it[1].split("|")[1]) for it in self.rows("events")]

    def stats(self) -> Dict[str, int]:
        found = self.value('Object.fromEntries([...document.querySelectorAll("[data-stat]")].map((it) => [it.dataset.stat, it.querySelector("dd").textContent]))')
        return {name: int(number.replace(",", "")) for name, number in cast(Dict[str, str], found).items()}

    def focused(self) -> str:
        return str(self.value("document.activeElement.id"))


class Counts(InBrowser):
    def test_the_numbers_are_those_of_the_printed_text(self) -> None:
        for case_file, text_file in FILES:
            self.open(case_file, text_file)
            lines = text_file.read_text().splitlines()
            answers, finals = counts_of(transcript_of(text_file.read_bytes())), counts_of(lines)
            devices = [it.split(" ") for it in lines if it.startswith("device ")]
            expected = {"devices": len(devices), "messages": sum(int(it[3]) for it in devices), "refused": finals.get("refused", 0)}
            if answers:
                expected.update({"events": sum(answers.values()), "committed": answers.get("committed", 0), "stale": answers.get("stale", 0)})
            expected["steps"] = sum(int(it[5]) for it in devices)
            expected.update({it: finals.get(it, 0) for it in ("down", "gateway", "subscriber")})
            self.assertEqual(self.stats(), expected)
            self.assertEqual(self.browser.errors, [])

    def test_each_event_is_a_row(self) -> None:
        for name in REPLAYS + ["race", "stop", "replay"]:
            self.open_example(name)
            folder = DATA if name in REPLAYS else EXAMPLES
            answers = transcript_of((folder / f"{name}_text.txt").read_bytes())
            expected = [(number, answer, event) for number, (answer, event) in enumerate(zip(answers, schedule_of(folder / f"{name}.txt")), 1)]
            self.assertEqual(self.events(), expected)

    def test_messages_calls_and_refused_lines_are_rows(self) -> None:
        for name in PLAIN + REPLAYS:
            self.open_example(name, "#tab=messages")
            lines = (DATA / f"{name}_text.txt").read_text().splitlines()
            trace = trace_of((DATA / f"{name}.txt").read_bytes())
            messages = self.rows("messages")
            self.assertEqual([it[2] for it in messages[: len(trace)]], [it.split(" ")[0] for it in trace])
            self.assertEqual(len(messages), len(trace) + sum(it.startswith("down ") for it in lines))
            self.click("#tab-refused")
            self.assertEqual([f"refused {it[0][5:]} {it[2]}" for it in self.rows("refused")], [it for it in lines if it.startswith("refused ")])
            self.click("#tab-calls")
            calls = sorted(f"{it[1]} {it[2]} {it[3]}" for it in self.rows("calls"))
            self.assertEqual(calls, sorted(it for it in lines if it.startswith(("gateway ", "subscriber "))))


class SearchAndFilters(InBrowser):
    case, printed = DATA / "replay_2.txt", DATA / "replay_2_text.txt"

    def all_events(self) -> List[Tuple[int, str, str]]:
        answers = transcript_of(self.text_file())
        return [(number, answer, event) for number, (answer, event) in enumerate(zip(answers, schedule_of(self.case)), 1)]

    def text_file(self) -> bytes:
        return self.printed.read_bytes()

    def test_a_filter_shows_the_events_so_answered_and_no_others(self) -> None:
        self.open_example("replay_2")
        answers = counts_of(transcript_of(self.text_file()))
        kinds = cast(List[List[str]], self.value('[...document.querySelectorAll(".chip")].map((it) => [it.dataset.kind, it.querySelector("b").textContent])'))
        self.assertEqual({kind: int(number) for kind, number in kinds}, answers)
        for kind in answers:
            self.click(f'[data-kind="{kind}"]')
            self.assertEqual(self.events(), [it for it in self.all_events() if it[1].split(" ")[0] == kind])
            self.assertEqual(self.text("#events-found"), f"{answers[kind]} of {len(self.all_events())} events")
            self.click(f'[data-kind="{kind}"]')
        self.assertEqual(self.events(), self.all_events())

    def test_two_filters_show_the_events_of_both(self) -> None:
        self.open_example("replay_2", "#answers=stale,repeat")
        self.assertEqual(self.events(), [it for it in self.all_events() if it[1].split(" ")[0] in ("stale", "repeat")])
        self.assertEqual(self.value('document.querySelector(\'[data-kind="stale"]\').getAttribute("aria-pressed")'), "true")

    def test_find_shows_the_events_with_these_words(self) -> None:
        self.open_example("replay_2")
        self.value('document.getElementById("find").focus()')
        self.browser.write("void link")
        self.assertEqual(self.events(), [it for it in self.all_events() if it[1] == "void link"])
        self.open_example("replay_2", "#find=gateway")
        found = self.events()
        self.assertTrue(all(it in found for it in self.all_events() if "gateway" in it[2]))
        self.open_example("stop", "#find=vectors")  # the name of the call, which events of its replica do not say
        self.assertEqual([it[0] for it in self.events()], [10, 11, 12, 13, 14, 15])

    def test_a_number_goes_to_its_event(self) -> None:
        self.open_example("replay_2")
        self.value('document.getElementById("find").focus()')
        self.browser.write("#77")
        self.assertEqual(self.text("#details-title"), "Event 77")
        self.assertEqual(self.focused(), "find")
        self.assertEqual(self.text('#events [aria-selected="true"] .number'), "77")

    def test_a_search_by_imsi_lists_the_devices_that_have_it(self) -> None:
        self.open_example("replay_2")
        self.value('document.getElementById("search").focus()')
        self.browser.write("8139")
        self.assertEqual([it[0] for it in self.rows("devices")], ["001019798139177"])
        self.assertEqual(self.text("#devices-found"), "1 of 2 devices")
        self.browser.press("Enter")
        self.assertEqual(self.text("#card-imsi"), "001019798139177")

    def test_a_search_by_stage(self) -> None:
        self.open_example("replay_2")
        self.value('document.getElementById("search").focus()')
        self.browser.write("detached")
        self.assertEqual([it[0] for it in self.rows("devices")], ["000000000000007"])

    def test_a_device_has_its_events_and_no_others(self) -> None:
        whose = devices_of(schedule_of(self.case), transcript_of(self.text_file()))
        for device, imsi in ((1, "000000000000007"), (2, "001019798139177")):
            self.open_example("replay_2", f"#device={imsi}")
            self.assertEqual(self.events(), [it for it, its in zip(self.all_events(), whose) if its == device])
            lines = self.text_file().decode().split(f"device {imsi}")[1].split("device ")[0].splitlines()
            facts = self.text("#card-facts")
            self.assertIn(f"stage{lines[-1].split(' ')[1]}", facts)
            self.click("#tab-calls")
            self.assertEqual([f"{it[1]} {it[2]} {it[3]}" for it in self.rows("calls")], [it for it in lines if it.startswith(("gateway", "subscriber"))])
        self.click("#card-all")
        self.click("#tab-events")
        self.assertEqual(self.events(), self.all_events())

    def test_a_second_connection_is_told_where_there_is_one(self) -> None:
        for name, is_told in (("second", True), ("attach", False)):
            self.open_example(name, "#device=208930000000001")
            self.assertEqual("beareractivesecond connectionactiveradio2 octets" in self.text("#card-facts"), is_told)


class Ladder(InBrowser):
    def drawn(self) -> List[Tuple[str, str, str, str]]:
        row = "[...document.querySelectorAll('#events [data-at]:not([hidden])')].sort((one, other) => one.dataset.at - other.dataset.at)"
        return [cast(Tuple[str, str, str, str], tuple(it)) for it in cast(List[List[str]], self.value(f"{row}.map({DRAWN})"))]

    def test_the_stop_between_commit_and_reply(self) -> None:
        self.open_example("stop")
        attach, call, down = "Attach request 1", "vectors 1", "Authentication request 1"
        expected = [
            ("base station", "arrives", "agents", attach),
            ("agents", "arrives", "replica 1", attach),
            ("store", "arrives", "replica 1", attach),
            ("replica 1", "arrives", "store", attach),
            ("replica 1", "stop stale", "", "stops"),
            ("agents", "again", "", f"{attach} again"),
            ("agents", "arrives", "replica 2", attach),
            ("store", "arrives repeat", "replica 2", attach),
            ("replica 2", "arrives", "agents", f"reply to {attach}"),
            ("store", "onItsWay", "subscriber", call),
            ("store", "arrives", "subscriber", call),
            ("subscriber", "arrives", "replica 2", f"answer to {call}"),
            ("store", "arrives", "replica 2", call),
            ("replica 2", "arrives", "store", call),
            ("subscriber", "onItsWay", "store", call),
            ("store", "onItsWay", "agents", down),
            ("agents", "arrives", "base station", down),
            ("agents", "onItsWay", "store", down),
        ]
        self.assertEqual(self.drawn(), expected)

    def test_the_race(self) -> None:
        self.open_example("race")
        drawn = self.drawn()
        self.assertEqual(drawn[5], ("replica 1", "arrives", "store", "Attach request 1"))
        self.assertEqual((drawn[6][0], drawn[6][1], drawn[6][3]), ("replica 2", "fails stale", "Attach request 1"))
        self.assertEqual(drawn[14], ("store", "arrives repeat", "replica 1", "vectors 1"))

    def test_a_notice_comes_from_the_gateway_and_a_paging_goes_to_base_stations(self) -> None:
        case, text = ((EXAMPLES / it).read_bytes() for it in ("paging.txt", "paging_text.txt"))
        (self.folder / "paged.txt").write_bytes(case + b"[schedule]\nsend 1 9\neffect 1 down 5\n")
        (self.folder / "paged_text.txt").write_bytes(b"event 1: sent\nevent 2: accepted 5\n" + text)
        self.open(self.folder / "paged.txt", self.folder / "paged_text.txt")
        expected = [("gateway", "arrives", "agents", "Downlink data notification 9"), ("agents", "arrives", "base station", "Paging 5")]
        self.assertEqual(self.drawn(), expected)

    def test_a_replica_that_holds_something_is_thick(self) -> None:
        self.open_example("race")
        busy = "[...document.querySelectorAll('#events [data-at]:not([hidden])')].sort((one, other) => one.dataset.at - other.dataset.at)"
        found = self.value(f"{busy}.map((row) => row.parts.columns.filter((_, at) => row.parts.lifelines[at][1].classList.contains('busy')).join())")
        both, first, second = "replica 1,replica 2", "replica 1", "replica 2"
        # taken by 1, by 2, committed by 1, stale of 2; then the answer by 1, by 2, committed by 2, and 1 keeps it
        self.assertEqual(found, ["", first, both, both, both, second, "", "", "", "", first, both, both, first, first, first])

    def test_of_a_device_a_replica_is_thick_while_it_holds_what_is_of_it(self) -> None:
        case, text = MadeRun(devices=2, messages=1, events=24).texts()
        case = case.replace(b"take 1 2 1\n", b"take 3 2 1\n")  # replica 3 in place of 1 works for device 2
        (self.folder / "two.txt").write_bytes(case)
        (self.folder / "two_text.txt").write_bytes(text)
        self.open(self.folder / "two.txt", self.folder / "two_text.txt", f"#device={imsi_of(1)}")
        self.assertEqual(self.value("page.held[11]"), 0)  # behind the last event of device 1
        self.assertEqual(self.value("page.held[13]"), 0)  # device 2 has sent, and replica 3 taken
        self.value("page.setDevice(2)")
        self.assertEqual(self.value("page.held[13]"), 4)

    def test_void_events_are_marked_where_they_would_have_been(self) -> None:
        self.open_example("replay_2")
        self.assertEqual(self.drawn()[:2], [("replica 1", "note void", "", "Attach request 1"), ("replica 1", "note void", "", "")])
        self.open_example("replay_2", "#answers=void&find=void replica")
        self.assertEqual({it[1] for it in self.drawn()}, {"across void"})


class Details(InBrowser):
    def test_an_event_has_the_octets_of_its_message(self) -> None:
        self.open_example("race", "#event=7")
        octets = trace_of((EXAMPLES / "race.txt").read_bytes())[0].split(" ")[1]
        dump = self.text("#details .dump")
        self.assertEqual("".join("".join(line.split()[1:]) for line in dump.splitlines()), octets)
        self.assertIn("stale 0 1", self.text("#details .what"))
        self.assertIn("at version 0, and the row is at version 1", self.text("#details-body"))
        steps = cast(List[str], self.value('[...document.querySelectorAll("#details .step .number")].map((it) => it.textContent)'))
        self.assertEqual(steps, [str(it) for it in range(1, 9)])

    def test_each_answer_is_said_in_words(self) -> None:
        for name in REPLAYS + ["race", "stop", "replay"]:
            self.open_example(name)
            self.assertEqual(self.value("page.run.events.filter((it) => meaningOf(it).length < 10).map((it) => `${it.text}: ${it.answer}`)"), [])

    def test_the_octet_of_a_refusal_is_marked(self) -> None:
        case = (EXAMPLES / "refused.txt").read_bytes()
        line = case.split(b"[trace]\n")[1].split(b"\n")[0].decode().split(" ")[1]
        rows = case.count(b"\n{") + 3
        text = f"refused {rows} 9 OtherProcedure 17 at 1\n{NEVER_SEEN}"
        (self.folder / "refused_text.txt").write_text(text)
        self.open(EXAMPLES / "refused.txt", self.folder / "refused_text.txt", "#tab=refused")
        self.value('document.getElementById("refused").focus()')
        self.browser.press("ArrowDown")
        self.assertEqual(self.text("#details mark"), line[2:4])
        self.assertIn("9 OtherProcedure 17 at 1", self.text("#details .refusal"))

    def test_any_text_of_a_case_is_shown_as_text(self) -> None:
        name = "<img src=x onerror=alert(1)> & </script>"
        front = (EXAMPLES / "refused.txt").read_bytes().split(b"[trace]\n")[0]
        case = front + b"[trace]\n1 </script/><script>document.title='bad'</script>\n1 <!--<script/><img/src=x/onerror=alert(1)>\n"
        line = front.count(b"\n") + 2
        text = f"refused {line} 29 BadHex\nrefused {line + 1} 29 BadHex\n{NEVER_SEEN}"
        (self.folder / "hostile.txt").write_bytes(case)
        (self.folder / "hostile_text.txt").write_text(text)
        run = run_of(self.folder / "hostile.txt", self.folder / "hostile_text.txt")
        page = self.folder / "hostile.html"
        page.write_text(page_of(type(run)(name, name, run.case, run.text, run.printed), None))
        self.browser.open(page, "#tab=refused")
        self.assertEqual((self.text("h1"), self.text("#made-by"), self.value("document.title")), (name, name, name))
        self.assertEqual(len(self.rows("refused")), 2)
        self.value("page.refusedRows.choose(0)")
        self.assertEqual(self.text("#details .dump"), "</script/><script>document.title='bad'</script>")
        self.assertEqual(self.value('document.querySelectorAll("img").length'), 0)


@needs("tshark")
class BesideACapture(InBrowser):
    """The view of a capture's MME beside the machine, of the capture of three devices."""

    def setUp(self) -> None:
        super().setUp()
        networks, program, page = DATA / "networks", TESTS / "machine_model.py", self.folder / "beside.html"
        if not page.exists():
            report, text = self.folder / "report.json", self.folder / "text"
            text.write_text(plain((networks / "three_devices.txt").read_text()))
            run("beside", networks / "three_devices.pcap", "--json", "-o", report, "--program", program)
            run("page", networks / "three_devices.txt", "--text", text, "--beside", report, "-o", page)
        self.browser.open(page, "#tab=beside")

    def test_each_message_and_each_answer_is_a_row(self) -> None:
        lines = (DATA / "networks" / "three_devices_beside.txt").read_text().splitlines()
        heading, lines = lines[1], [it for it in lines if it.startswith("  ") and "the proved machine" not in it]
        columns = [heading.index(it) for it in ("frame", "time", "base station", "the capture's MME", "the proved machine")]
        columns.append(next(it.index("equal") for it in lines if it.endswith("equal")))
        cells = [[line[begin:end].strip() for begin, end in zip(columns, [*columns[1:], None])] for line in lines]
        found = [[it[0], *(cell.replace("–", "-") for cell in it[2:])] for it in self.rows("beside")]
        self.assertEqual(found, [[it[0], *it[2:]] for it in cells])

    def test_of_a_device_and_what_differs(self) -> None:
        self.assertEqual(self.text("#tab-beside b"), "3")
        self.assertIn("3 differences", self.text("#beside-summary"))
        self.value("page.setDevice(1)")
        self.assertEqual((self.text("#tab-beside b"), {it[1] for it in self.rows("beside")}), ("1", {"208930000000001"}))
        self.assertEqual(self.value('document.querySelector("#beside .differs .machine").textContent'), "Detach accept")

    def test_a_row_has_what_both_sent(self) -> None:
        self.value("page.details.beside(page.run.beside.find((it) => it.mme?.frame === 12))")
        told = self.text("#details-body")
        for it in ("The capture's MME", "The proved machine", "security header2 / 0 (no integrity)", "timer49 / e0 (no timers)"):
            self.assertIn(it, told)

    def test_it_is_reached_by_its_key(self) -> None:
        self.browser.press("1", "1")
        self.browser.press("5", "5")
        self.assertEqual(self.value("page.tab"), "beside")


class Keys(InBrowser):
    def test_a_page_works_by_keys(self) -> None:
        self.open_example("replay_2")
        self.browser.press("/", "/")
        self.assertEqual(self.focused(), "search")
        self.browser.write("007")
        self.browser.press("ArrowDown")
        self.assertEqual((self.focused(), self.text("#card-imsi")), ("devices", "000000000000007"))
        self.browser.press("Enter")
        self.assertEqual(self.focused(), "events")
        self.browser.press("ArrowDown")
        first = self.text("#details-title")
        self.browser.press("ArrowDown")
        self.assertNotEqual(self.text("#details-title"), first)
        self.assertIsNotNone(self.value('document.getElementById(document.getElementById("events").getAttribute("aria-activedescendant"))'))
        self.browser.press("Enter")
        self.assertEqual(self.focused(), "details-title")
        self.browser.press("Escape")
        self.assertEqual((self.focused(), self.value('document.getElementById("details").hidden')), ("events", True))
        self.browser.press("Escape")
        self.assertEqual(self.value('document.getElementById("card").hidden'), True)

    def test_ends_and_pages(self) -> None:
        self.open_example("replay_2")
        self.browser.press("e", "e")
        self.browser.press("End")
        self.assertEqual(self.text("#details-title"), "Event 151")
        self.browser.press("Home")
        self.assertEqual(self.text("#details-title"), "Event 1")
        self.browser.press("PageDown")
        self.assertGreater(int(self.text("#details-title").split(" ")[1]), 5)

    def test_tabs(self) -> None:
        self.open_example("replay_2")
        self.value('document.getElementById("tab-events").focus()')
        shown = []
        for _ in range(4):
            self.browser.press("ArrowRight")
            shown.append((self.focused(), self.value('[...document.querySelectorAll("[role=tabpanel]:not([hidden])")].map((it) => it.id).join()')))
        self.assertEqual(shown, [(f"tab-{it}", f"panel-{it}") for it in ("messages", "calls", "refused", "events")])
        self.browser.press("3", "3")
        self.assertEqual(self.value('document.getElementById("tab-calls").getAttribute("aria-selected")'), "true")

    def test_what_is_to_be_used_has_a_name(self) -> None:
        self.open_example("replay_2", "#event=7")
        nameless = """[...document.querySelectorAll("button, input, [role=listbox], [role=grid], [role=tabpanel], [role=tablist], nav, aside")].filter((it) =>
          !(it.textContent.trim() && it.matches("button")) && !it.getAttribute("aria-label") && !it.labels?.length
          && !document.getElementById(it.getAttribute("aria-labelledby"))?.textContent).map((it) => it.outerHTML)"""
        self.assertEqual(self.value(nameless), [])
        self.assertEqual(self.value('[...document.querySelectorAll("[id]")].length - new Set([...document.querySelectorAll("[id]")].map((it) => it.id)).size'), 0)

    def test_the_focus_can_be_seen(self) -> None:
        self.open_example("replay_2")
        for _ in range(8):
            self.browser.press("Tab")
            self.assertNotEqual(self.value("getComputedStyle(document.activeElement).outlineStyle"), "none", self.focused())


class Looks(InBrowser):
    def tearDown(self) -> None:
        self.browser.call("Emulation.setEmulatedMedia", media="", features=[])
        super().tearDown()

    def test_dark_and_light_can_be_read(self) -> None:
        contrast = """(() => {
          const canvas = document.createElement("canvas").getContext("2d"), style = getComputedStyle(document.documentElement);
          const light = (colour) => {
            canvas.fillStyle = colour;
            canvas.fillRect(0, 0, 1, 1);
            const [r, g, b] = [...canvas.getImageData(0, 0, 1, 1).data].map((it) => (it / 255 <= 0.03928 ? it / 255 / 12.92 : ((it / 255 + 0.055) / 1.055) ** 2.4));
            return 0.2126 * r + 0.7152 * g + 0.0722 * b;
          };
          const ratio = (one, other) => (Math.max(light(one), light(other)) + 0.05) / (Math.min(light(one), light(other)) + 0.05);
          const named = (name) => style.getPropertyValue(name), papers = ["--paper", "--panel", "--picked"];
          const pairs = ["--ink", "--dim", "--stale", "--repeat", "--accent"].flatMap((ink) => papers.map((paper) => [ink, paper]));
          const chip = document.querySelector('[data-kind="stale"]'), pressed = getComputedStyle(chip);
          return [...pairs.map(([ink, paper]) => [`${ink} on ${paper}`, ratio(named(ink), named(paper))]), ["a pressed button", ratio(pressed.color, pressed.backgroundColor)]];
        })()"""
        papers = set()
        for scheme in ("light", "dark"):
            media = [{"name": "prefers-color-scheme", "value": scheme}, {"name": "prefers-reduced-motion", "value": "reduce"}]
            self.browser.call("Emulation.setEmulatedMedia", features=media)
            self.open_example("race", "#answers=stale")
            papers.add(self.value("getComputedStyle(document.body).backgroundColor"))
            for pair, ratio in cast(List[Tuple[str, float]], self.value(contrast)):
                self.assertGreaterEqual(ratio, 4.5, f"{scheme}: {pair}")  # WCAG 2.2, 1.4.3
        self.assertEqual(len(papers), 2)

    def test_a_narrow_page_is_not_wider_than_its_window(self) -> None:
        for width in (360, 420, 800, 1100):
            self.browser.call("Emulation.setDeviceMetricsOverride", width=width, height=800, deviceScaleFactor=1, mobile=False)
            self.open_example("replay_2")
            self.assertLessEqual(cast(int, self.value("document.documentElement.scrollWidth")), width)
            self.assertGreater(cast(int, self.value('document.getElementById("events").clientHeight')), 200)
            self.open_example("replay_2", "#event=84")
            self.assertLessEqual(cast(int, self.value("document.documentElement.scrollWidth")), width)
            self.assertGreater(cast(int, self.value('document.getElementById("events").clientHeight')), 100)

    def test_all_rows_are_printed(self) -> None:
        self.open_example("replay_2")
        self.value('document.getElementById("events").scrollTop = 2000')
        self.browser.frame()
        self.browser.call("Emulation.setEmulatedMedia", media="print")
        self.value('dispatchEvent(new Event("beforeprint"))')
        numbers = '[...document.querySelectorAll("#events [data-at]:not([hidden]) > .number")].map((it) => it.textContent).join()'
        self.assertEqual(self.value(numbers), ",".join(str(it) for it in range(1, 152)))
        tops = '[...document.querySelectorAll("#events [data-at]:not([hidden])")].map((it) => it.getBoundingClientRect().top)'
        places = cast(List[float], self.value(tops))
        self.assertEqual(places, sorted(set(places)))
        self.value('dispatchEvent(new Event("afterprint"))')
        self.browser.call("Emulation.setEmulatedMedia", media="")
        self.browser.frame()
        self.assertLess(cast(int, self.value('document.querySelectorAll("#events [data-at]:not([hidden])").length')), 60)


class Large(InBrowser):
    """100,000 events, as many as a case text takes."""

    measures_seconds = True  # so it runs alone
    run_made: ClassVar[MadeRun]
    large: ClassVar[Path]

    @classmethod
    def setUpClass(cls) -> None:
        super().setUpClass()
        cls.run_made = MadeRun(devices=800, messages=10, events=100000)
        case, text = cls.run_made.texts()
        (cls.folder / "large.txt").write_bytes(case)
        (cls.folder / "large_text.txt").write_bytes(text)
        cls.large = cls.page(cls.folder / "large.txt", cls.folder / "large_text.txt")

    def opened(self) -> None:
        """Opens the page, unless a test before left it open."""
        if self.value("location.href") != self.large.as_uri():
            self.browser.open(self.large)

    def test_it_opens_in_time(self) -> None:
        seconds = min(self.browser.open(self.large) for _ in range(3))
        self.assertLess(seconds, SECONDS_TO_OPEN)
        counts = self.run_made.counts
        expected = {"devices": 800, "messages": 8000, "refused": 0, "events": 100000, "committed": 8000, "stale": 8000}
        expected.update({"steps": 8000, "down": 8000, "gateway": 0, "subscriber": 0})
        self.assertEqual(self.stats(), expected)
        chips = cast(List[List[str]], self.value('[...document.querySelectorAll(".chip")].map((it) => [it.dataset.kind, it.querySelector("b").textContent])'))
        self.assertEqual({kind: int(number.replace(",", "")) for kind, number in chips}, counts)

    def test_rows_are_drawn_as_they_come_into_view(self) -> None:
        self.opened()
        self.value('document.getElementById("events").scrollTop = 36 * 50000')
        self.browser.frame()
        there = '[...document.querySelectorAll("#events [data-at]:not([hidden]) > .number")].map((it) => Number(it.textContent))'
        numbers = cast(List[int], self.value(there))
        self.assertIn(50001, numbers)
        self.assertLess(max(numbers) - min(numbers), MOST_ROWS)
        self.assertLess(cast(int, self.value('document.querySelectorAll("#events .row").length')), MOST_ROWS)

    def test_scrolling_takes_no_longer_than_in_a_small_page(self) -> None:
        case, text = MadeRun(devices=20, messages=10, events=2000).texts()
        (self.folder / "small.txt").write_bytes(case)
        (self.folder / "small_text.txt").write_bytes(text)
        self.open(self.folder / "small.txt", self.folder / "small_text.txt")
        small = self.seconds_of_ten_steps()
        self.opened()
        large = self.seconds_of_ten_steps()
        self.assertLess(large, 2 * small)  # of processor time, so no machine is too slow for it

    def seconds_of_ten_steps(self) -> float:
        """The quickest processor time of ten steps down the list, of twenty times: what else runs slows the others."""
        return min(self.seconds_of_steps(first, first + 10) for _ in range(4) for first in range(0, 50, 10))

    def seconds_of_steps(self, first: int, behind: int) -> float:
        """The processor time of the steps from the first to the one behind them."""
        began = self.browser.busy()
        self.value(f"""(() => {{
          const list = document.getElementById("events");
          for (let step = {first}; step < {behind}; step += 1) {{
            list.scrollTop = step * 700;
            page.eventRows.draw();
            list.getBoundingClientRect();
          }}
        }})()""")
        return self.browser.busy() - began

    def test_a_device_and_a_filter(self) -> None:
        self.browser.open(self.large, f"#device={imsi_of(799)}&answers=stale")
        self.assertEqual([it[1] for it in self.events()], [f"stale {it} {it + 1}" for it in range(10)])
        self.value('document.getElementById("search").focus()')
        self.browser.write("0080")
        self.assertEqual([it[0] for it in self.rows("devices")], [it for it in map(imsi_of, range(1, 801)) if "0080" in it])
