"""What the MMEs of the captures of other_mme.py did beside what the proved machine does, as a user runs the tool."""

import json
import unittest
from pathlib import Path
from typing import Any, Dict, List, Tuple

from balthiri_tools.compare import Answer, Exchange, Sent, compare
from balthiri_tools.fields import fields_of
from balthiri_tools.learnt import CIPHERED, NOT_IN_PROFILE
from balthiri_tools.messages import name_of
from balthiri_tools.trials import end_of, told as told_of_runs
from other_mme import FIRST, RADIO_INACTIVITY, Ids, context_setup, down, protected, release_command
from support import DATA, ECHO, IS_BUILT, TESTS, InFolder, needs, run

MODEL = TESTS / "machine_model.py"
PROGRAM = ECHO if IS_BUILT else MODEL
NETWORKS = DATA / "networks"
IDS = Ids(1, 1, 0)


# What is beside each answer, worked by hand from what `other_mme.py` sends, frame by frame, and from the step table (docs/DEFINITIONS.md): the device's last
# digit, the frame of the MME's answer, it and the machine's, and whether the profile explains the difference. Of a message, what only the machine sends stands last.
VERDICTS = {
    "three_devices": """\
1 3 Authentication request / Authentication request: equal
1 5 Security mode command / Security mode command: explained
1 12 Attach accept / Attach accept: explained
1 16 EMM information / -: explained
1 37 UEContextReleaseCommand / UEContextReleaseCommand: equal
1 43 InitialContextSetupRequest / InitialContextSetupRequest: equal
1 46 UEContextReleaseCommand / UEContextReleaseCommand: equal
1 - - / Detach accept: only the machine's
2 7 Authentication request / Authentication request: equal
2 8 Authentication request / -: explained
2 10 Security mode command / Security mode command: explained
2 17 Attach accept / Attach accept: explained
2 21 EMM information / -: explained
2 40 UEContextReleaseCommand / UEContextReleaseCommand: equal
2 49 Service reject / InitialContextSetupRequest: another message
2 50 UEContextReleaseCommand / UEContextReleaseCommand: another order
2 53 Tracking area update accept / Tracking area update accept: explained
2 55 UEContextReleaseCommand / UEContextReleaseCommand: explained
2 58 InitialContextSetupRequest / InitialContextSetupRequest: equal
3 23 Attach reject / Attach reject: equal
3 24 UEContextReleaseCommand / UEContextReleaseCommand: equal
3 27 Authentication request / Authentication request: equal
3 29 Security mode command / Security mode command: explained
3 31 Attach accept / Attach accept: explained
3 35 EMM information / -: explained
""",
    "strangers": """\
4 5 Identity request / -: explained
4 7 Authentication request / Authentication request: explained
4 9 Security mode command / Security mode command: explained
4 11 Attach accept / Attach accept: explained
4 15 EMM information / -: explained
4 27 UEContextReleaseCommand / UEContextReleaseCommand: equal
4 30 Authentication request / Authentication request: explained
4 32 Security mode command / Security mode command: explained
4 34 Attach accept / Attach accept: explained
4 38 EMM information / -: explained
2 17 Authentication request / Authentication request: equal
2 19 Security mode command / Security mode command: explained
2 21 Attach accept / Attach accept: explained
2 25 EMM information / -: explained
""",
    "ciphered": """\
6 2 Authentication request / Authentication request: equal
6 4 Security mode command / Security mode command: explained
6 6 InitialContextSetupRequest / -: explained
6 10 UEContextReleaseCommand / UEContextReleaseCommand: equal
""",
}


def beside_each_answer(report: Dict[str, Any]) -> str:
    """A report in the words of those tables."""
    lines = ""
    for device in report["devices"]:
        for it in [answer for message in device["messages"] for answer in message["answers"]]:
            mme, machine = it["mme"] or {}, it["machine"] or {}
            word = it["verdict"] if it["differs"] else "explained" if it["explained"] else "equal"
            lines += f"{device['imsi'][-1]} {mme.get('frame', '-')} {mme.get('name', '-')} / {machine.get('name', '-')}: {word}\n"
    return lines


@needs("tshark")
class Reports(InFolder):
    """Each capture with what is beside each answer by hand, and with its report, which the tool wrote and a reader compared line by line with the step table."""

    def test_what_is_beside_each_answer(self) -> None:
        for name, verdicts in VERDICTS.items():
            done = run("beside", NETWORKS / f"{name}.pcap", "--program", PROGRAM, "--json")
            self.assertEqual(beside_each_answer(json.loads(done.stdout)), verdicts, name)

    def check(self, name: str, status: int, *words: object) -> None:
        done = run("beside", NETWORKS / f"{name}.pcap", "--program", PROGRAM, *words)
        self.assertEqual((done.returncode, done.stdout.decode()), (status, (NETWORKS / f"{name}_beside.txt").read_text()))

    def test_three_devices(self) -> None:
        # it differs in the Detach accept that the MME forgot, in its Service reject, and in the release behind that
        self.check("three_devices", 1)

    def test_strangers(self) -> None:
        self.check("strangers", 0)

    def test_a_ciphered_device(self) -> None:
        self.check("ciphered", 0)

    def test_what_the_profile_explains_counts_where_it_is_to(self) -> None:
        self.check("strangers", 1, "--strict")

    def test_as_json(self) -> None:
        done = run("beside", NETWORKS / "three_devices.pcap", "--program", PROGRAM, "--json")
        report = json.loads(done.stdout)
        self.assertEqual((done.returncode, report["differs"], [it["imsi"][-1] for it in report["devices"]]), (1, True, ["1", "2", "3"]))
        first = report["devices"][0]["messages"][0]
        self.assertEqual({it: first[it] for it in ("frame", "station", "name", "left_out")}, {"frame": 1, "station": 1, "name": "Attach request", "left_out": ""})
        answers = [(it["frame"], answer) for device in report["devices"] for it in device["messages"] for answer in it["answers"]]
        verdicts = [(frame, it["verdict"], (it["mme"] or {}).get("name"), (it["machine"] or {}).get("name")) for frame, it in answers if it["differs"]]
        rejected = (48, "another message", "Service reject", "InitialContextSetupRequest")
        released = (48, "another order", "UEContextReleaseCommand", "UEContextReleaseCommand")
        self.assertEqual(verdicts, [(45, "only the machine's", None, "Detach accept"), rejected, released])

    def test_rows_of_a_file_have_other_values(self) -> None:
        row = (NETWORKS / "ciphered.txt").read_text().split("\n")[2].replace("f1f1f1", "000000")
        done = run("beside", NETWORKS / "ciphered.pcap", self.file("given", row.encode()), "--program", PROGRAM)
        self.assertEqual(done.returncode, 1)
        self.assertIn(f"other fields: RAND {'f1' * 16} / {'00' * 15}f1", done.stdout.decode())


@needs("tshark")
class Runs(InFolder):
    def program(self, text: str) -> Path:
        path = self.file("program", f'#!/bin/sh\n[ "$1" = plain ] && exec {MODEL} plain\n{text}\n'.encode())
        path.chmod(0o755)
        return path

    def runs(self, kind: str, number: int, program: Path) -> Tuple[int, str]:
        words = ["--schedule", kind, "--seed", 7, "--runs", number, "--program", program]
        done = run("beside", NETWORKS / "ciphered.pcap", *words)
        return done.returncode, done.stdout.decode()

    def test_runs_that_come_to_the_same_end(self) -> None:
        for kind in ("stops", "lossy"):
            self.assertEqual(self.runs(kind, 5, PROGRAM), (0, f"5 runs of `{kind}`, seeds 7 to 11: all came to the end of `plain`\n"))

    def test_runs_that_do_not(self) -> None:
        wrong = self.program("echo 'event 1: sent'; echo 'device 208930000000006 messages 0 steps 0'")
        self.assertEqual(self.runs("stops", 2, wrong), (1, "2 runs of `stops`, seeds 7 to 8: another end than that of `plain` with seeds 7, 8\n"))

    def test_in_words(self) -> None:
        self.assertEqual(told_of_runs("lossy", range(3, 4), []), "1 run of `lossy`, seed 3: all came to the end of `plain`")
        self.assertEqual(told_of_runs("lossy", range(1, 9), [5]), "8 runs of `lossy`, seeds 1 to 8: another end than that of `plain` with seed 5")
        self.assertEqual(end_of(b"event 1: sent\nrefused 3 9 x\ndevice 1\n"), b"refused 3 9 x\ndevice 1\n")


@needs("tshark", "program")
class ByTheProgram(InFolder):
    """The built program, whose runs under schedules come to the end of the machine that never fails."""

    def test_each_capture_under_stops_and_losses(self) -> None:
        for name in ("three_devices", "strangers"):
            for kind in ("stops", "lossy"):
                done = run("beside", NETWORKS / f"{name}.pcap", "--schedule", kind, "--runs", 4, "--replicas", 3)
                self.assertEqual((done.returncode, done.stdout), (0, f"4 runs of `{kind}`, seeds 1 to 4: all came to the end of `plain`\n".encode()))


class Words(InFolder):
    def test_help_has_an_example(self) -> None:
        self.assertIn(b"Example: beside network.pcap", run("beside", "--help").stdout)

    def test_bad_input(self) -> None:
        self.refused("runs are 1 or more", "beside", NETWORKS / "ciphered.pcap", "--runs", "0")
        self.refused("no capture", "beside", NETWORKS / "ciphered.txt")
        self.refused("standard input", "beside", "-", "-")


def exchange(name: str, mme: List[bytes], machine: List[bytes], out: str = "") -> Exchange:
    sent = [Sent(1, name_of(it), it, str(at), str(at)) for at, it in enumerate(mme, 1)]
    return Exchange("1", "0", 1, name, out, mme=sent, machine=[Sent(1, name_of(it), it) for it in machine])


class Compared(unittest.TestCase):
    """Each verdict, of exchanges made by hand."""

    def verdicts(self, *exchanges: Exchange, is_learnt: bool = True) -> List[List[Tuple[str, str]]]:
        compare(list(exchanges), is_learnt)
        return [[(answer.verdict, answer.explained) for answer in it.answers] for it in exchanges]

    def one(self, mme: bytes, machine: bytes, is_learnt: bool = True) -> Answer:
        it = exchange("Attach request", [mme], [machine])
        compare([it], is_learnt)
        return it.answers[0]

    def test_equal(self) -> None:
        self.assertEqual(self.verdicts(exchange("Attach request", [down(IDS, "0754")], [down(IDS, "0754")])), [[("equal", "")]])

    def test_numbers_of_the_mme_are_no_difference(self) -> None:
        self.assertTrue(self.one(down(Ids(2**24, 1, 0), "0754"), down(IDS, "0754")).is_equal)

    def test_another_cause(self) -> None:
        it = self.one(down(IDS, "074e09"), down(IDS, "074e0a"))
        self.assertEqual((it.verdict, [(one.name, one.mme, one.machine) for one in it.fields]), ("another cause", [("cause", "9", "10")]))
        self.assertEqual(self.one(release_command(IDS, "24"), release_command(IDS, "20")).verdict, "another cause")

    def test_values_of_a_row_differ_where_it_was_given(self) -> None:
        messages = context_setup(IDS, FIRST), context_setup(IDS, FIRST).replace(b"\xa0" * 32, b"\x01" * 32)
        self.assertEqual((self.one(*messages).differs, self.one(*messages, is_learnt=False).differs), (False, True))
        self.assertEqual(self.one(*messages).explained, "one value a subscriber")

    def test_another_message(self) -> None:
        self.assertEqual(self.verdicts(exchange("Attach request", [down(IDS, "074407")], [down(IDS, "0754")])), [[("another message", "")]])

    def test_another_connection(self) -> None:
        it = self.one(down(Ids(1, 2, 0), "0754"), down(IDS, "0754"))
        self.assertEqual([(one.name, one.mme, one.machine) for one in it.fields], [("eNB-UE-S1AP-ID", "2", "1")])
        self.assertTrue(it.differs)

    def test_only_one_of_them(self) -> None:
        information, reject = down(IDS, "0761"), down(IDS, "0754")
        found = self.verdicts(exchange("Attach request", [information, reject, reject], [reject, down(IDS, "0746")]))
        profile = "the profile has no EMM information"
        self.assertEqual(found, [[("only the MME's", profile), ("equal", ""), ("only the MME's", "no timers: it is a repeat"), ("only the machine's", "")]])

    def test_the_order_in_one_exchange_and_behind_another(self) -> None:
        reject, accept = down(IDS, "0754"), down(IDS, "0746")
        self.assertEqual(self.verdicts(exchange("Attach request", [reject, accept], [accept, reject])), [[("another order", ""), ("equal", "")]])
        first, second = exchange("Attach request", [], [reject]), exchange("Attach complete", [reject], [])
        self.assertEqual(self.verdicts(first, second), [[], [("another order", "")]])

    def test_an_answer_behind_a_message_that_the_profile_has_not(self) -> None:
        reject = down(IDS, "0754")
        first, second = exchange("Attach request", [], [reject]), exchange("Identity response", [reject], [], NOT_IN_PROFILE)
        self.assertEqual(self.verdicts(first, second), [[], [("another order", "the profile has no Identity response")]])

    def test_a_device_whose_attach_is_not_in_the_capture(self) -> None:
        found = self.verdicts(exchange("Service request", [context_setup(IDS, FIRST)], [down(IDS, "074e0a")]))
        self.assertEqual(found, [[("another message", "its attach is not in the capture")]])

    def test_behind_a_message_that_was_left_out_until_the_next_attach(self) -> None:
        sent = [release_command(IDS, RADIO_INACTIVITY)]
        left = exchange("Security mode complete", [], [], CIPHERED)
        found = self.verdicts(exchange("Attach request", [], []), left, exchange("x", sent, []), exchange("Attach request", sent, []))
        self.assertEqual(found, [[], [], [("only the MME's", "behind a message of ciphered NAS")], [("only the MME's", "")]])


class Fields(unittest.TestCase):
    def test_an_attach_accept_with_all_that_a_network_may_send(self) -> None:
        found = fields_of(context_setup(IDS, FIRST, protected(2, FIRST.accept(5, areas=f"0102f8390001{'0002'}")), bearers=2))
        expected = {"bearers": "5 6", "TEID": str(0x101), "rate down": "50000000", "security header": "2", "result": "1", "timer": "49", "GUTI": "f602f83980010100000005"}
        expected.update({"TAI list": "0102f83900010002", "access point name": "internet", "address": "0a2d0001", "options": "17", "quality of NAS": "09"})
        self.assertEqual({it: found[it] for it in expected}, expected)

    def test_what_cannot_be_read_is_its_octets(self) -> None:
        self.assertEqual(fields_of(down(IDS, "0752"))["octets"], "0752")
        self.assertEqual(fields_of(down(IDS, "0799aa"))["octets"], "0799aa")
