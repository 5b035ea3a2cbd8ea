"""Captures of networks whose MME is another one, to case texts of the capture alone."""

import json
import re
import resource
import subprocess
import unittest
from pathlib import Path
from typing import List, Tuple

from balthiri_tools.capture import Capture
from balthiri_tools.learnt import Learnt, learn
from balthiri_tools.nas import options_of
from balthiri_tools.packets import Frame, pcap_of
from balthiri_tools.per import Broken, length_octets, number_octets
from balthiri_tools.sctp import Captured
from balthiri_tools.stations import stations_by_way
from balthiri_tools.values import Bearer, bearers_of, joined, s_tmsi_of, split
from machine_model import plain
from other_mme import (
    CELL,
    FIRST,
    FIRST_MME_ID,
    NETWORKS,
    Ids,
    Row,
    Story,
    attach_request,
    capability,
    context_setup,
    down,
    first,
    imsi,
    nas_pdu,
    protected,
    released,
    s1ap,
    tai,
    ue,
    up,
)
from support import DATA, ECHO, IS_BUILT, TESTS, InFolder, Quiet, needs, run, run_program, told

MODEL = TESTS / "machine_model.py"
PROGRAM = ECHO if IS_BUILT else MODEL


def learnt_of(story: Story, given: bytes = b"") -> Learnt:
    """What is learnt of a story, whose messages need no tshark."""
    messages = []
    for at, (is_up, station, message) in enumerate(story.frames, 1):
        ends = (f"192.0.2.{station}", "10.0.0.1")
        source, target = ends if is_up else ends[::-1]
        messages.append(Captured(str(at), str(at - 1), (36412, 36412, station + (0 if is_up else 256)), source, message, target))
    return learn(Capture(messages), given, Quiet())


def left_out(it: Learnt) -> "dict[str, int]":
    return {what: number for what, number in it.trace.left_out.items() if number and what not in ("of the MME", "of other procedures")}


@needs("tshark")
class Networks(InFolder):
    """The captures of other_mme.py, each with the case text that is worked there."""

    def learnt(self, name: str, *words: object) -> Tuple[int, str, List[str]]:
        done = run("pcap2case", DATA / "networks" / f"{name}.pcap", "--learn", "--program", PROGRAM, *words)
        return done.returncode, done.stdout.decode(), told(done)

    def case(self, name: str) -> str:
        return (DATA / "networks" / f"{name}.txt").read_text()

    def test_three_devices_at_two_base_stations(self) -> None:
        lines = ["3 subscribers learnt, of which 0 with an IMSI of the test network 001/01, since the capture tells none"]
        lines.append("33 lines of a trace; left out: 24 of the MME, 0 of other procedures, 1 of NAS messages that the profile has not")
        self.assertEqual(self.learnt("three_devices"), (0, self.case("three_devices"), [f"pcap2case: {it}" for it in lines]))

    def test_devices_whose_guti_is_not_known_and_an_old_connection(self) -> None:
        lines = ["2 subscribers learnt, of which 1 with an IMSI of the test network 001/01, since the capture tells none"]
        what = "15 of the MME, 0 of other procedures, 2 of connections whose begin is not in the capture, 1 of NAS messages that the profile has not"
        lines.append(f"20 lines of a trace; left out: {what}")
        self.assertEqual(self.learnt("strangers"), (1, self.case("strangers"), [f"pcap2case: {it}" for it in lines]))

    def test_a_device_whose_messages_are_ciphered(self) -> None:
        lines = ["1 subscriber learnt, of which 0 with an IMSI of the test network 001/01, since the capture tells none"]
        lines.append("device 208930000000006: EEA2, 3 ciphered messages of either way cannot be read")
        lines.append("5 lines of a trace; left out: 4 of the MME, 0 of other procedures, 2 of ciphered NAS")
        self.assertEqual(self.learnt("ciphered"), (1, self.case("ciphered"), [f"pcap2case: {it}" for it in lines]))

    def test_with_a_schedule_the_case_text_stands_before_it(self) -> None:
        status, text, _ = self.learnt("ciphered", "--schedule", "stops")
        before, _, schedule = text.partition("[schedule]\n")
        self.assertEqual((status, before, schedule.startswith("send 1 1\n")), (1, self.case("ciphered"), True))

    def test_rows_of_a_file_win(self) -> None:
        row = self.case("ciphered").split("\n")[2].replace('"key":"f0', '"key":"00')
        given = self.file("given", f"{row}\n".encode())
        status, text, lines = self.learnt("ciphered", given)
        trace = self.case("ciphered").partition("[trace]\n")[2]
        self.assertEqual((status, text), (1, f"[subscribers]\n{row}\n[trace]\n{trace}"))
        self.assertTrue(lines[0].startswith("pcap2case: 0 subscribers learnt"), lines)

    def test_without_a_file_of_subscribers_it_has_to_learn(self) -> None:
        self.refused("SUBSCRIBERS, or --learn", "pcap2case", DATA / "networks" / "ciphered.pcap")

    def test_help_has_an_example(self) -> None:
        self.assertIn(b"Example:", run("pcap2case", "--help").stdout)


class Made(unittest.TestCase):
    def test_the_stored_captures_and_texts_are_those_of_the_script(self) -> None:
        for name, tells in NETWORKS.items():
            story = tells()
            self.assertEqual((DATA / "networks" / f"{name}.pcap").read_bytes(), story.pcap(), name)
            self.assertEqual((DATA / "networks" / f"{name}.txt").read_text(), story.case(), name)

    def test_no_line_of_them_is_refused(self) -> None:
        for name in NETWORKS:
            text = (DATA / "networks" / f"{name}.txt").read_bytes()
            printed = plain(text.decode())
            self.assertNotIn("refused", printed)
            if IS_BUILT:
                self.assertEqual(run_program("plain", text).decode(), printed)


class LeftOut(unittest.TestCase):
    """Messages of which it cannot be known whose they are, and messages that the profile has not."""

    def setUp(self) -> None:
        self.story = Story()
        self.one = ue(self.story, FIRST, 1, 1)
        self.one.connects(1, 300, 1)
        self.one.begins(attach_request(imsi(FIRST.imsi)))
        self.one.hears("0754")

    def check(self, what: str, number: int, lines: int) -> Learnt:
        it = learnt_of(self.story)
        self.assertEqual((left_out(it), it.trace.pdus), ({what: number}, lines))
        return it

    def test_a_connection_behind_its_release(self) -> None:
        self.one.tells(released)
        self.one.tells(released)
        self.check("on connections behind their release", 1, 2)

    def test_another_number_of_the_mme(self) -> None:
        self.story.sends(1, released(Ids(301, 1, 0)))
        self.check("with another MME-UE-S1AP-ID than their connection's", 1, 1)

    def test_a_connection_that_its_device_has_left(self) -> None:
        self.story.sends(2, first(Ids(0, 7, 0), attach_request(imsi(FIRST.imsi))))
        self.one.tells(released)
        self.check("on connections that their device has left", 1, 2)

    def test_a_device_that_is_named_by_its_imei(self) -> None:
        self.story.sends(1, first(Ids(0, 8, 0), attach_request("083a" + "55" * 7)))
        self.story.sends(1, capability(Ids(5, 8, 0), 3))
        self.check("of connections whose device is named by no IMSI, GUTI or S-TMSI", 2, 1)

    def test_messages_of_session_management_and_others_that_the_profile_has_not(self) -> None:
        for nas in ("075c15", protected(2, "0201d9"), "0760"):
            self.one.says(nas)
        self.check("of NAS messages that the profile has not", 3, 1)

    def test_what_breaks_off_stays_as_it_is_and_is_told_to_be_refused(self) -> None:
        self.story.sends(1, bytes.fromhex("000d4040000005"))
        it = learnt_of(self.story)
        self.assertEqual(it.trace.lines[-1], "1 000d4040000005")
        it.tell_refused({len(it.case().splitlines()): "1 Truncated at 3"})
        self.assertEqual(it.trace.lines[-2:], ["# frame 3 at 2; refused: 1 Truncated at 3", "1 000d4040000005"])
        self.assertIn("of the lines the program refuses 1, as the comments before them tell: 1 Truncated", it.told({9: "1 Truncated at 3"}))

    def test_devices_above_those_that_a_table_takes(self) -> None:
        story = Story()
        for at in range(1, 4099):
            story.sends(1, first(Ids(0, at, 0), attach_request(imsi(f"20893{at:010d}"))))
        self.story = story
        it = self.check("of devices above the 4096 that a table takes", 2, 4096)
        self.assertEqual(len(it.table.rows), 4096)


class Identities(unittest.TestCase):
    def learnt_rows(self, it: Learnt) -> List[dict]:
        return [json.loads(line) for line in it.table.octets().decode().splitlines() if line.startswith("{")]

    def test_a_response_that_the_mme_rejected_stays_and_is_not_learnt(self) -> None:
        story = Story()
        one = ue(story, FIRST, 1, 1)
        one.connects(1, 300, 1)
        one.begins(attach_request(imsi(FIRST.imsi)))
        one.hears(f"075200{FIRST.rand}10{'22' * 16}")
        one.says("075304deadbeef")
        one.hears("0754")
        it = learnt_of(story)
        self.assertEqual(self.learnt_rows(it)[0]["res"], "0000000000000001")
        self.assertIn("075304deadbeef", it.trace.lines[-1])

    def test_two_devices_with_one_m_tmsi_have_two(self) -> None:
        story = Story()
        for at, code in ((1, "01"), (2, "02")):  # two MMEs, which gave the same M-TMSI
            story.sends(1, first(Ids(0, at, 0), attach_request(f"0bf602f8398001{code}00000005")))
        rows = self.learnt_rows(learnt_of(story))
        self.assertEqual([it["tmsi"] for it in rows], [5, 2])

    def test_a_row_that_is_given_is_found_by_its_m_tmsi(self) -> None:
        story = Story()
        story.sends(1, first(Ids(0, 1, 5), attach_request("0bf602f839800101" + "00000005")))
        given = (DATA / "networks" / "ciphered.txt").read_bytes().split(b"\n")[2].replace(b'"tmsi":1', b'"tmsi":5')
        it = learnt_of(story, given)
        self.assertEqual((it.table.octets(), it.table.learnt(), it.trace.pdus), (given, [], 1))

    def test_values_that_a_row_does_not_take_are_made_up(self) -> None:
        story = Story()
        row = Row(FIRST.imsi, "a1" * 16, "a1a2a3a4", "a0" * 32, "ims-1.net", "0a2d0001", teid=0xFFFFFF00)
        one = ue(story, row, 1, 1)
        one.connects(1, 300, 1)
        one.begins(attach_request(imsi(row.imsi)))
        one.is_asked(context_setup, row, row.accept(7))
        it = learnt_of(story)
        found = self.learnt_rows(it)[0]
        self.assertEqual((found["apn"], found["teid"], found["tmsi"], found["ip"]), ("internet", 1, 7, "0a2d0001"))
        self.assertIn("made up: rand autn res apn teid", it.table.octets().decode())

    def test_ways_of_the_mme_behind_one_address_are_told_apart_by_their_pairs(self) -> None:
        one, two, to_one, to_two = (36412, 36412, 1), (36412, 36412, 2), (36412, 36412, 3), (36412, 36412, 4)
        messages = [Captured("1", "0", key, "192.0.2.1", released(Ids(mme, 1, 0)), "10.0.0.1") for key, mme in ((one, 5), (two, 6))]
        messages += [Captured("2", "0", key, "10.0.0.1", down(Ids(mme, 1, 0), "0754"), "192.0.2.1") for key, mme in ((to_two, 6), (to_one, 5))]
        self.assertEqual(stations_by_way(messages, {one: 1, two: 2}), {one: 1, two: 2, to_one: 1, to_two: 2})


def trees_of(messages: List[bytes], folder: Path) -> List[List[str]]:
    """What tshark says of each message, without what it says of the packet round it."""
    capture = folder / "messages"
    capture.write_bytes(pcap_of([Frame(True, 1, it) for it in messages]))
    words = ["tshark", "-n", "-r", str(capture), "-O", "s1ap,nas-eps", "-T", "text"]
    text = subprocess.run(words, stdout=subprocess.PIPE, stderr=subprocess.DEVNULL, check=True).stdout.decode()
    frames = re.split(r"^Frame [0-9]+: .*$", text, flags=re.M)[1:]
    return [[line for line in it[it.index("S1 Application Protocol") :].splitlines() if line.strip()] for it in frames]


@needs("tshark")
class Rewritten(InFolder):
    """A message that is changed dissects as before, but for what was changed."""

    def changed(self, nas: str, mme_id: int, rows: int, radio: int = 0) -> Tuple[bytes, bytes, List[str]]:
        """A message of the last of so many devices with another number of the MME: before, after, and the lines that tshark says otherwise."""
        story = Story()
        for at in range(1, rows + 1):
            story.sends(1, first(Ids(0, at, 0), attach_request(imsi(f"20893{at:010d}"))))
        ids = Ids(mme_id, rows, 0)
        before = capability(ids, radio) if radio else up(ids, nas)
        story.sends(1, before)
        after = bytes.fromhex(learnt_of(story).trace.lines[-1].split(" ")[1])
        trees = trees_of([before, after], self.folder)
        self.assertEqual(len(trees[0]), len(trees[1]))
        return before, after, [re.sub(r"[0-9]+", "N", new.strip()) for old, new in zip(*trees) if old != new]

    def test_lengths_from_two_octets_to_one_and_back(self) -> None:
        said = ["MME-UE-SNAP-ID: N"]
        before, after, lines = self.changed("", 2**32 - 1, 3, radio=105)
        self.assertEqual((before[3:5], after[3]), (b"\x80\x80", 125))
        self.assertEqual([it for it in lines if "length" not in it.lower()], said)
        before, after, lines = self.changed("", 1, 300, radio=106)
        self.assertEqual((before[3], after[3:5]), (127, b"\x80\x80"))
        self.assertEqual([it for it in lines if "length" not in it.lower()], said)

    def test_a_nas_message_and_ies_that_the_profile_passes_over_stay(self) -> None:
        _, after, lines = self.changed(protected(2, "074300035200c2"), FIRST_MME_ID, 2)
        self.assertEqual(lines, ["MME-UE-SNAP-ID: N"])
        self.assertTrue(after.endswith(bytes.fromhex("009b40060f80c0a80101")))

    def test_each_message_of_the_networks(self) -> None:
        # numbers, a GUTI, an S-TMSI or a response, whose octets may be more or fewer, and the lengths round them
        changed = re.compile(r"(MME-UE-SNAP-ID|MME-UE-S1AP-ID|M-TMSI|m-TMSI|RES|Length|NAS-PDU)\b.*")
        for name, tells in NETWORKS.items():
            story = tells()
            lines = learnt_of(story).trace.lines
            frames = [int(it.split(" ")[2].rstrip(";")) for it in lines[::2]]
            before = trees_of([story.frames[it - 1][2] for it in frames], self.folder)
            after = trees_of([bytes.fromhex(it.split(" ")[1]) for it in lines[1::2]], self.folder)
            self.assertEqual([len(it) for it in before], [len(it) for it in after], name)
            others = [(old, new) for one, other in zip(before, after) for old, new in zip(one, other) if old != new and not changed.match(new.strip())]
            self.assertEqual(others, [], name)

    def test_capabilities_of_several_hundred_octets(self) -> None:
        before, after, lines = self.changed("", FIRST_MME_ID, 2, radio=900)
        self.assertEqual((lines, len(before) - len(after)), (["MME-UE-SNAP-ID: N"], 3))


@needs("tshark")
class Large(InFolder):
    """A capture of 100,000 frames, told by processor time, which other processes leave as it is."""

    measures_seconds = True
    most_seconds = 60.0

    def test_a_hundred_thousand_frames_in_a_minute(self) -> None:
        story = Story()
        for at in range(1, 51):
            one = ue(story, FIRST, at, 0)
            one.connects(at % 5 + 1, FIRST_MME_ID + at, at)
            one.begins(attach_request(imsi(f"20893{at:010d}")))
            one.authenticates()
            one.is_accepted(0xC0000000 + at)
            one.rests()
        story.frames *= 100000 // len(story.frames) + 1  # the devices attach again and again
        capture, made = self.file("large.pcap", story.pcap()), self.folder / "made"
        before = resource.getrusage(resource.RUSAGE_CHILDREN)
        done = self.ran("pcap2case", capture, "--learn", "--program", PROGRAM, "-o", made)
        after = resource.getrusage(resource.RUSAGE_CHILDREN)
        ups = sum(is_up for is_up, _, _ in story.frames)
        self.assertIn(f"pcap2case: {ups} lines of a trace; left out: {len(story.frames) - ups} of the MME, 0 of other procedures", told(done))
        self.assertLess(after.ru_utime + after.ru_stime - before.ru_utime - before.ru_stime, self.most_seconds)


class Values(unittest.TestCase):
    def test_numbers_and_lengths_as_they_are_written(self) -> None:
        for number, octets in ((0, "0000"), (255, "00ff"), (256, "400100"), (2**16, "80010000"), (2**32 - 1, "c0ffffffff")):
            self.assertEqual(number_octets(number).hex(), octets)
        for number, octets in ((0, "00"), (127, "7f"), (128, "8080"), (16383, "bfff")):
            self.assertEqual(length_octets(number).hex(), octets)
        self.assertRaises(Broken, length_octets, 16384)

    def test_an_s_tmsi(self) -> None:
        self.assertEqual(s_tmsi_of(bytes.fromhex("3fc001020304")), (255, 0x01020304))

    def test_a_message_keeps_the_octets_of_what_is_not_changed(self) -> None:
        whole = s1ap("000d40", *Ids(1, 2, 0).pair(), nas_pdu("0754"), CELL, tai(3))
        self.assertEqual(joined(whole, split(whole)), whole)
        self.assertRaises(Broken, split, whole[:-1])
        self.assertRaises(Broken, split, whole + b"\0")

    def test_bearers_of_other_vendors(self) -> None:
        # by hand: E-RAB 6 with a NAS message; QCI 1 with guaranteed rates, four numbers of an octet; priority 2; an IPv4 and an IPv6 address; TEID; 07 54
        quality, addresses = "400108" + "0001" + "0002" + "0003" + "0004", "4f80c0a80001" + "20" * 16
        item = bytes.fromhex("46" + quality + addresses + "00000101" + "020754")
        found = bearers_of(bytes.fromhex("00003400") + bytes([len(item)]) + item)
        self.assertEqual(found, [Bearer(6, 1, 2, bytes.fromhex("c0a80001" + "20" * 16), 0x101, bytes.fromhex("0754"))])

    def test_options_of_each_form(self) -> None:
        octets = bytes.fromhex("500101" + "1302f8390001" + "1721" + "d1" + "78000201ff" + "5e0149")
        found = [(number, value.hex()) for number, value in options_of(octets)]
        self.assertEqual(found, [(0x50, "01"), (0x13, "02f8390001"), (0x17, "21"), (0xD0, "d1"), (0x78, "01ff"), (0x5E, "49")])
