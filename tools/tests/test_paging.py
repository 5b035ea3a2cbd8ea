"""Notices of the gateway in case texts, and PAGING in captures and ladders: each base station of an area gets it."""

import subprocess
import unittest
from pathlib import Path
from typing import List, Tuple

from balthiri_tools.areas import Areas
from balthiri_tools.beside import Report, report_of, told as told_of
from balthiri_tools.case_text import CaseText, TraceLine, read_case, read_event
from balthiri_tools.chart import Line
from balthiri_tools.command import BadInput
from balthiri_tools.frames import frames_of
from balthiri_tools.ladder_lines import Choice, lines_of_plain, lines_of_replay
from balthiri_tools.messages import kind_of, name_of, name_of_line
from balthiri_tools.notices import Rounds, paged_by
from balthiri_tools.packets import Frame, pcap_of
from balthiri_tools.per import Broken
from balthiri_tools.printed import Down, Printed, read_printed
from balthiri_tools.program import Program
from balthiri_tools.turns import Call, Message, Turn, messages_of, turns_of
from balthiri_tools.values import areas_of, paged_of
from machine_model import plain
from other_mme import FIRST, FIRST_MME_ID, Ids, Story, attach_request, context_done, context_setup, imsi, s1ap, ue
from support import EXAMPLES, TESTS, InFolder, Quiet, needs, subscribers_of, told, trace_of
from test_learn import learnt_of

MODEL = TESTS / "machine_model.py"
CASE, TEXT = EXAMPLES / "paging.txt", EXAMPLES / "paging_text.txt"
ALL = Choice(None, 1, 10**9)
# Worked by hand: index 1, S-TMSI 01 00000001, ps, and one area or two.
PAGING = bytes.fromhex("000a4027000004005040020040002b4006001000000001006d400100002e400b00002f40060002f8390001")
OF_TWO_AREAS = bytes.fromhex("000a4031000004005040020040002b4006001000000001006d400100002e401501002f40060002f8390001002f40060002f8390002")
SERVICE = "000c4037000006000800020001001a000504c7000000004300060002f839{:04x}006440080002f83900000010008640014000600006004000000001"


def service(line: int, station: int, area: int) -> TraceLine:
    """A SERVICE REQUEST in an area."""
    return TraceLine(line, station, SERVICE.format(area))


class Lines(unittest.TestCase):
    text = b'[subscribers]\n{"imsi":"208930000000001","tmsi":7}\n[trace]\n1 00\ndata 208930000000001\r\n'

    def test_a_notice_is_a_line_of_no_base_station(self) -> None:
        case = read_case(self.text)
        self.assertEqual([(it.line, it.station, it.text, it.is_notice, it.octets()) for it in case.trace[1:]], [(5, 0, "208930000000001", True, None)])
        self.assertEqual(name_of_line(case.trace[1]), "Downlink data notification")
        self.assertEqual(name_of_line(case.trace[0]), "unknown message")
        self.assertEqual(case.with_trace(case.trace), self.text.replace(b"\r", b""))

    def test_other_forms_are_no_line(self) -> None:
        for it in ("data", "data ", "data 20893000000001", "data 2089300000000012", "data 20893000000000a", "data  208930000000001", "Data 208930000000001"):
            with self.assertRaises(BadInput):
                read_case(f"[trace]\n{it}\n".encode())
        for it in ("0 00", "01 00", "+1 00", "1", "1 "):
            with self.assertRaises(BadInput):
                read_case(f"[trace]\n{it}\n".encode())

    def test_its_device_is_that_of_its_imsi(self) -> None:
        case = read_case(self.text.replace(b"1 00\n", b"data 208930000000002\n"))
        printed = read_printed(b"refused 4 30 UnknownDevice imsi 208930000000002\ndevice 208930000000001 messages 1 steps 1\nsession\x20detached\n")
        self.assertEqual(messages_of(case, printed), [Message(1, 1, case.trace[1])])


class Values(unittest.TestCase):
    def test_paging_is_a_message_of_the_mme(self) -> None:
        kind = kind_of(PAGING)
        self.assertEqual((kind and kind.is_up, name_of(PAGING)), (False, "Paging"))

    def test_whom_a_paging_is_for(self) -> None:
        self.assertEqual(paged_of(bytes.fromhex("001000000001")), (1, 1))
        self.assertEqual(paged_of(bytes.fromhex("0fe0c0000005")), (254, 0xC0000005))
        # an IMSI of 15 digits: the choice 01, a count of five above three in three bits, and the digits, of each octet the low half first
        self.assertEqual(paged_of(bytes.fromhex("68" + "02983900000000f1")), "208993000000001")

    def test_areas(self) -> None:
        self.assertEqual(areas_of(bytes.fromhex("00002f40060002f8390001")), [(b"\x02\xf8\x39", 1)])
        self.assertEqual(areas_of(bytes.fromhex("01002f40060002f8390001002f40060002f8390102")), [(b"\x02\xf8\x39", 1), (b"\x02\xf8\x39", 258)])

    def test_values_that_break_off(self) -> None:
        for value in (bytes.fromhex("001000000001"), bytes.fromhex("6802983900000000f1")):
            for length in range(len(value)):
                with self.assertRaises(Broken):
                    paged_of(value[:length])
        value = bytes.fromhex("01002f40060002f8390001002f40060002f8390102")
        for length in range(len(value)):
            with self.assertRaises(Broken):
                areas_of(value[:length])


class AreasOfStations(unittest.TestCase):
    # base stations 3 and 1 are of area 1, 2 and 1 of area 2; a notice and what is no message are of none
    areas = Areas([service(4, 3, 1), service(5, 1, 1), service(6, 2, 2), service(7, 1, 2), TraceLine(8, 0, "208930000000001"), TraceLine(9, 4, "000c")])

    def test_a_paging_goes_to_each_station_of_its_areas_once(self) -> None:
        self.assertEqual(self.areas.stations_of(Down(1, 0, PAGING)), [1, 3])
        self.assertEqual(self.areas.stations_of(Down(1, 0, OF_TWO_AREAS)), [1, 2, 3])

    def test_any_other_message_goes_to_its_station(self) -> None:
        self.assertEqual(self.areas.stations_of(Down(1, 7, b"\x00\x0b")), [7])

    def test_an_area_of_no_station(self) -> None:
        self.assertEqual(Areas([]).stations_of(Down(1, 0, PAGING)), [])
        self.assertEqual(self.areas.stations_of(Down(1, 0, PAGING[:20])), [])


class Order(unittest.TestCase):
    """A message of device 1 at base station 1 and one of device 2 at base station 3, then a notice for device 1, which is paged at both."""

    def order(self, events: str) -> List[str]:
        first, other, notice = service(4, 1, 1), service(5, 3, 1), TraceLine(6, 0, "208930000000001")
        case = CaseText(trace=[first, other, notice])
        case.schedule = [read_event(number, it.split(": ")[0]) for number, it in enumerate(events.splitlines(), 1)]
        printed = Printed(answers=[it.split(": ")[1] for it in events.splitlines()])
        messages = Message(1, 1, first), Message(2, 1, other), Message(1, 2, notice)
        turns = [Turn(it, [], made) for it, made in zip(messages, ([Down(1, 1, b"\x01")], [], [Down(2, 0, PAGING)]))]
        return [f"{'up' if it.is_up else 'down'} {it.station} {it.message[:2].hex()}" for it in frames_of(case, printed, turns)]

    def test_it_goes_to_each_station_and_the_notice_nowhere(self) -> None:
        self.assertEqual(self.order(""), ["up 1 000c", "down 1 01", "up 3 000c", "down 1 000a", "down 3 000a"])

    def test_it_goes_where_it_is_accepted_once(self) -> None:
        events = "send 1 2: sent\neffect 1 down 2: accepted 2\neffect 1 down 2: repeat 2\n"
        self.assertEqual(self.order(events), ["up 1 000c", "up 3 000c", "down 1 000a", "down 3 000a", "down 1 01"])


def shown(lines: List[Line]) -> List[Tuple[str, str, str]]:
    return [(f"{it.source} {it.form.value} {it.target}", it.label, it.name) for it in lines]


class Ladders(unittest.TestCase):
    def test_of_the_machine_that_never_fails(self) -> None:
        case, printed = read_case(CASE.read_bytes()), read_printed(TEXT.read_bytes())
        messages, final = messages_of(case, printed), printed.finals[0]
        made = {9: ([], final.downs[4:5]), 10: ([], final.downs[5:6]), 11: ([Call("gateway", 4, final.gateway[3])], [])}
        turns = [Turn(it, *made.get(it.number, ([], []))) for it in messages]
        expected = [
            ("gateway => mme", "line 14", "Downlink data notification 9"),
            ("mme => station1", "Paging 5", ""),
            ("mme => station2", "Paging 5", ""),
            ("station2 => mme", "line 16", "Service request 10"),
            ("mme => station2", "InitialContextSetupRequest 6", ""),
            ("station2 => mme", "line 17", "InitialContextSetupResponse 11"),
            ("mme => gateway", "modify 4", ""),
            ("gateway >> mme", "answer to modify 4", ""),
        ]
        self.assertEqual(shown(lines_of_plain(case, printed, turns, Choice(None, 14, 17))), expected)

    def test_a_refused_notice(self) -> None:
        case = read_case(b"[trace]\ndata 208930000000002\n")
        printed = Printed(refused={2: "30 UnknownDevice imsi 208930000000002"})
        expected = [("gateway -x mme", "line 2", "refused 30 UnknownDevice imsi 208930000000002")]
        self.assertEqual(shown(lines_of_plain(case, printed, [], ALL)), expected)

    def test_of_a_schedule(self) -> None:
        events = ["send 1 9", "send 1 9", "effect 1 down 5", "effect 1 down 5", "settle 1 down 5"]
        case, printed = read_case(CASE.read_bytes() + "\n".join(["[schedule]", "# data waits", *events, ""]).encode()), read_printed(TEXT.read_bytes())
        printed.answers = ["sent", "sent", "accepted 5", "repeat 5", "settled 5"]
        lines = lines_of_replay(case, printed, messages_of(case, printed), ALL)
        expected = [
            ("gateway => agents", "1 sent", "Downlink data notification 9"),
            ("agents => agents", "2 sent", "Downlink data notification 9"),
            ("agents => station1", "3 accepted 5", "Paging 5"),
            ("agents => station2", "3 accepted 5", "Paging 5"),
            ("store => agents", "4 repeat 5", "Paging 5"),
            ("agents >> store", "5 settled 5", "Paging 5"),
        ]
        self.assertEqual(shown(lines), expected)
        self.assertEqual([it.caption for it in lines], ["data waits", "", "", "", "", ""])


class Example(unittest.TestCase):
    def test_the_model_prints_the_text(self) -> None:
        self.assertEqual(plain(CASE.read_text()), TEXT.read_text())


class Tools(InFolder):
    """The tools over the example, with a model in place of the program."""

    def captured(self) -> Path:
        capture = self.folder / "paging.pcap"
        done = self.ran("case2pcap", CASE, TEXT, "--program", MODEL, "-o", capture)
        left_out = "left out: 0 lines of the trace that are no message of a base station, 1 notice of the gateway"
        self.assertEqual(told(done), [f"case2pcap: 10 messages up, 7 down; {left_out}"])
        return capture

    def test_a_capture(self) -> None:
        octets = self.captured().read_bytes()
        self.assertEqual(octets.count(PAGING), 2)

    def test_a_ladder(self) -> None:
        text = self.ran("ladder", CASE, TEXT, "--program", MODEL, "--from", "14", "--to", "14").stdout.decode()
        lines = [it.strip() for it in text.splitlines() if "=>" in it]
        expected = ['gateway => mme [label="line 14\\nDownlink data notification 9"];']
        expected += [f'mme => {it} [label="Paging 5"];' for it in ("station1", "station2")]
        self.assertEqual(lines, expected)


@needs("tshark")
class RoundTrip(InFolder):
    def test_a_capture_and_back(self) -> None:
        capture = self.folder / "paging.pcap"
        self.ran("case2pcap", CASE, TEXT, "--program", MODEL, "-o", capture)
        rows = self.file("rows", subscribers_of(CASE.read_bytes()))
        back = self.ran("pcap2case", capture, rows, "--program", MODEL)
        self.assertEqual(trace_of(back.stdout), trace_of(CASE.read_bytes()))
        self.assertIn(b"# frame 13 at ", back.stdout)
        self.assertIn(b"; the MME pages the device\ndata 208930000000001\n", back.stdout)
        self.assertEqual(told(back), ["pcap2case: 10 lines and 1 notice of a trace; left out: 7 of the MME, 0 of other procedures"])
        # of a device that is no subscriber it tells nothing
        others = self.file("others", subscribers_of(CASE.read_bytes()).replace(b'"tmsi":1', b'"tmsi":2').replace(b"0000001", b"0000002"))
        self.assertNotIn(b"data", self.ran("pcap2case", capture, others, "--program", MODEL).stdout)

    def test_with_what_is_learnt(self) -> None:
        # the machine gives no GUTI, so a row has to tell the M-TMSI
        capture = self.folder / "paging.pcap"
        self.ran("case2pcap", CASE, TEXT, "--program", MODEL, "-o", capture)
        rows = self.file("rows", subscribers_of(CASE.read_bytes()))
        back = self.ran("pcap2case", capture, rows, "--learn", "--program", MODEL)
        self.assertEqual(trace_of(back.stdout), trace_of(CASE.read_bytes()))


class RoundsOfPagings(unittest.TestCase):
    one, two = (36412, 36412, 1), (36412, 36412, 2)

    def test_each_base_station_gets_it_once_in_a_round(self) -> None:
        rounds = Rounds()
        found = [rounds.begins("1", it) for it in (self.one, self.two, self.one, self.two, self.two)]
        self.assertEqual(found, [True, False, True, False, True])

    def test_devices_have_rounds_of_their_own(self) -> None:
        rounds = Rounds()
        self.assertEqual([rounds.begins(it, self.one) for it in ("1", "2", "1")], [True, True, True])

    def test_a_message_of_the_device_ends_its_round(self) -> None:
        rounds = Rounds()
        found = [rounds.begins("1", self.one)]
        rounds.ends("2")
        rounds.ends(None)
        found.append(rounds.begins("1", self.two))
        rounds.ends("1")
        found.append(rounds.begins("1", (36412, 36412, 3)))
        self.assertEqual(found, [True, False, True])

    def test_whom_a_message_pages(self) -> None:
        self.assertEqual(paged_by(PAGING), (1, 1))
        for it in (PAGING[:8], PAGING[:18], b"", bytes.fromhex(SERVICE.format(1))):
            self.assertIsNone(paged_by(it))


def paging(ids: Ids, index: str = "0040", paged: str = "", areas: str = "00002f40060002f8390001") -> bytes:
    return s1ap("000a40", (80, index), (43, paged or f"0010{ids.tmsi:08x}"), (109, "00"), (46, areas))


def rested() -> "Tuple[Story, Ids]":
    """A network in which a device has attached at base station 1 and rests; base station 2 is of its area too."""
    story = Story()
    one = ue(story, FIRST, 1, 0xC0000001)
    one.connects(1, FIRST_MME_ID, 1)
    one.begins(attach_request(imsi(FIRST.imsi)))
    one.authenticates()
    one.is_accepted(0xC0000001)
    one.rests()
    return story, one.network


def beside(story: Story) -> Report:
    learnt = learnt_of(story)
    octets = learnt.case()
    case, printed = read_case(octets), read_printed(plain(octets.decode()).encode())
    return report_of(learnt, case, printed, turns_of(Program(str(MODEL)), case, printed, Quiet()))


class Networks(unittest.TestCase):
    """PAGINGs of an MME that is another one: what is learnt of them, and what stands beside them."""

    def test_a_round_is_a_notice_of_the_row(self) -> None:
        story, ids = rested()
        for station in (1, 2):
            story.hears(station, paging(ids))
        story.hears(1, paging(Ids(0, 0, 0xDDDDDDDD)))  # of a device that has not come
        learnt = learnt_of(story)
        self.assertEqual([it for it in learnt.trace.lines if it.startswith("data")], [f"data {FIRST.imsi}"])
        self.assertEqual(learnt.trace.told_lines(), f"{learnt.trace.pdus} lines and 1 notice of a trace")
        self.assertEqual(len(learnt.lines), learnt.trace.pdus + 1)

    def test_the_machine_pages_too(self) -> None:
        story, ids = rested()
        for station in (1, 2):
            story.hears(station, paging(ids))
        report = beside(story)
        last = report.devices[0].exchanges[-1]
        self.assertEqual((last.name, last.station, last.is_notice, [told_of(it) for it in last.answers]), ("Downlink data notification", 0, True, ["equal"]))
        self.assertIn(" of base stations, 1 notice of the gateway, ", report.summary())
        self.assertFalse(report.differs(False))
        self.assertEqual(report.strangers, 0)

    def test_a_paging_of_another_form(self) -> None:
        digits = "".join(f"{FIRST.imsi[at + 1]}{FIRST.imsi[at]}" for at in range(0, 14, 2)) + f"f{FIRST.imsi[14]}"
        cases = {
            "explained: paging by S-TMSI alone": paging(Ids(0, 0, 0), paged="68" + digits),
            "explained: one area in a paging": paging(Ids(0, 0, 0xC0000001), areas="01002f40060002f8390001002f40060002f8390002"),
            "other fields: index 2 / 1": paging(Ids(0, 0, 0xC0000001), index="0080"),
        }
        for told_so, message in cases.items():
            story, _ = rested()
            story.hears(1, message)
            self.assertEqual([told_of(it) for it in beside(story).devices[0].exchanges[-1].answers], [told_so])

    def test_of_a_device_that_is_connected_the_mme_alone_pages(self) -> None:
        story, ids = rested()
        one = ue(story, FIRST, 1, 0xC0000001)
        one.given(ids.tmsi)
        one.connects(1, FIRST_MME_ID + 1, 2)
        one.asks_for_service()
        one.is_asked(context_setup, FIRST)
        one.tells(context_done)
        story.hears(1, paging(ids))
        self.assertEqual([told_of(it) for it in beside(story).devices[0].exchanges[-1].answers], ["only the MME's"])


@needs("tshark")
class Dissected(InFolder):
    def fields(self, messages: List[bytes], *names: str) -> List[str]:
        """What tshark says of each message, one of the names' fields behind another; and that nothing is malformed or remarked on."""
        capture = self.file("pagings", pcap_of([Frame(False, 1, it) for it in messages]))
        words = ["tshark", "-n", "-r", str(capture), "-T", "fields", "-E", "separator=|"]
        for it in ("_ws.malformed", "_ws.expert.message", *names):
            words += ["-e", it]
        return subprocess.run(words, stdout=subprocess.PIPE, stderr=subprocess.DEVNULL, check=True).stdout.decode().splitlines()

    def test_worked_pagings(self) -> None:
        # the index is ten bits with six that fill them up
        names = ("s1ap.procedureCode", "s1ap.UEIdentityIndexValue", "s1ap.m_TMSI", "s1ap.CNDomain", "s1ap.TAIList", "s1ap.tAC")
        self.assertEqual(self.fields([PAGING, OF_TWO_AREAS], *names), ["||10|0040|1|0|1|1", "||10|0040|1|0|2|1,2"])
