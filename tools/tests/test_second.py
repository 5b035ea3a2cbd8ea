"""A second PDN connection in case texts, printed texts and captures: E-RAB SETUP REQUEST and RESPONSE, the messages of session management, the two columns."""

import json
import subprocess
import unittest
from pathlib import Path
from typing import Dict, List, Tuple

from balthiri_tools.beside import Report, report_of, told as told_of
from balthiri_tools.case_text import CaseText, TraceLine, read_case
from balthiri_tools.command import BadInput
from balthiri_tools.fields import fields_of
from balthiri_tools.frames import frames_of
from balthiri_tools.ladder_lines import Choice, lines_of_plain
from balthiri_tools.messages import Identity, elements_of, identity_of, kind_of, name_of, nas_pdu_of
from balthiri_tools.nas import BearerAsked, bearer_asked, nas_read
from balthiri_tools.packets import Frame, pcap_of
from balthiri_tools.page_data import Run, data_of
from balthiri_tools.per import Broken
from balthiri_tools.printed import Down, Printed, read_printed
from balthiri_tools.program import Program
from balthiri_tools.rows import rows_given
from balthiri_tools.turns import Call, Message, Turn, turns_of
from balthiri_tools.values import Bearer, asked_bearers, bearers_of
from machine_model import plain
from other_mme import FIRST, FIRST_MME_ID, Ids, Story, Ue, attach_request, context_done, context_setup, imsi, opened, protected, s1ap, ue
from support import EXAMPLES, IS_BUILT, NO_HEADER, TESTS, InFolder, Quiet, needs, run_program, subscribers_of, told, trace_of
from test_learn import learnt_of

MODEL = TESTS / "machine_model.py"
CASE, TEXT = EXAMPLES / "second.txt", EXAMPLES / "second_text.txt"
# Worked by hand: the device asks with transaction 2, bearer 6 is added for "ims" and 10.45.128.1, and is accepted; or cause 27 rejects it.
ASKS = bytes.fromhex("000d4034000005000000020001000800020001001a000b0a2700000000030202d011006440080002f83900000010004340060002f8390001")
ACTIVATE = "6202c101090403696d7305010a2d8001"
REQUEST = bytes.fromhex("00050037" "000003" "000000020001" "000800020001" "0010002400" "0011001f" "0c0009200f80c0a8000100000002" "10" + ACTIVATE)
RESPONSE = bytes.fromhex("20050022000003000040020001000840020001001c400f000027400a0c1fc0a8000200000003")
ACCEPTS = bytes.fromhex("000d4033000005000000020001000800020001001a000a092700000000046200c2006440080002f83900000010004340060002f8390001")
REJECT = bytes.fromhex("000b4018000003000000020001000800020001001a0005040202d11b")
# The same request behind a header of protection, with bit rates of 1 Gbit/s; and a response by which E-RAB 6 failed, for an unspecified cause of the radio
# network.
PROTECTED = bytes.fromhex(
    "0005004b" "000004" "000000020001" "000800020001" "0042000a183b9aca00603b9aca00"
    "0010002a00" "00110025" "0c0009200f80c0a8000100000002" "16270000000005" + ACTIVATE
)
FAILED = bytes.fromhex("2005001b" "000003" "000040020001" "000840020001" "001d4008" "0000234003" "0c0000")
RELEASE = bytes.fromhex("00124015000003000000020001000800020001000240020280")
BOTH = {"apn2": "ims", "ip2": "0a2d8001"}
# The six messages of the attach again; and a detach of a device that is switched off.
ATTACHES = [bytes.fromhex(it.split(" ")[1]) for it in trace_of((EXAMPLES / "attach.txt").read_bytes())]
DETACHES = s1ap("000d40", (0, "0001"), (8, "0001"), (26, "0c" "074509" "08" "2908390000000010"), (100, "0002f83900000010"), (67, "0002f8390001"))


def example(columns: Dict[str, str], *messages: bytes, lines_of_attach: int = 6) -> bytes:
    """The attach of examples/attach.txt by a row with these columns too, or its first lines, and behind it these messages of base station 1."""
    octets = (EXAMPLES / "attach.txt").read_bytes()
    row = {**json.loads(subscribers_of(octets)), **columns}
    lines = ["[subscribers]", json.dumps(row, separators=(",", ":")), "[trace]", *trace_of(octets)[:lines_of_attach], *(f"1 {it.hex()}" for it in messages), ""]
    return "\n".join(lines).encode()


class Messages(unittest.TestCase):
    def test_names_and_who_sends(self) -> None:
        found = [(name_of(it), kind.name, kind.is_up) for it in (ASKS, REQUEST, RESPONSE, ACCEPTS, REJECT, FAILED) if (kind := kind_of(it))]
        expected = [("PDN connectivity request", "UplinkNASTransport", True)]
        expected += [("Activate default EPS bearer context request", "ErabSetupRequest", False), ("ErabSetupResponse", "ErabSetupResponse", True)]
        expected += [("Activate default EPS bearer context accept", "UplinkNASTransport", True), ("PDN connectivity reject", "DownlinkNASTransport", False)]
        self.assertEqual(found, [*expected, ("ErabSetupResponse", "ErabSetupResponse", True)])

    def test_session_management_that_has_no_name_or_breaks_off(self) -> None:
        for nas in ("02", "0202", "0202ff"):
            self.assertEqual(name_of(s1ap("000b40", (0, "0001"), (8, "0001"), (26, opened(bytes.fromhex(nas)).hex()))), "DownlinkNASTransport")

    def test_whose_they_are(self) -> None:
        for it in (ASKS, REQUEST, RESPONSE, ACCEPTS, REJECT, FAILED):
            self.assertEqual(identity_of(it), Identity(mme_id=1))

    def test_a_transaction_is_no_type_of_mobility_management(self) -> None:
        # a PDN CONNECTIVITY REQUEST of transaction 65, behind which eight octets look like an IMSI
        nas = bytes.fromhex("0241d008" "2908390000000010")
        self.assertEqual(identity_of(s1ap("000c40", (8, "0001"), (26, opened(nas).hex()))), Identity())

    def test_every_front_is_taken(self) -> None:
        for message in (ASKS, REQUEST, RESPONSE, ACCEPTS, REJECT, PROTECTED, FAILED):
            for length in range(len(message)):
                identity_of(message[:length])
                name_of(message[:length])
                fields_of(message[:length])

    def test_bearer_and_type(self) -> None:
        nas = {it: nas_read(nas_pdu_of(elements_of(it)), 0) for it in (ASKS, REQUEST, PROTECTED, ACCEPTS, REJECT)}
        self.assertEqual([it.session_kind for it in nas.values()], [(0, 0xD0), (6, 0xC1), (6, 0xC1), (6, 0xC2), (0, 0xD1)])
        self.assertEqual([it.kind for it in nas.values()], [None] * 5)
        for octets in ("6202", "0753c1", "c7a0b1c2", ""):
            self.assertIsNone(nas_read(bytes.fromhex(octets), 0).session_kind)


class Values(unittest.TestCase):
    bearer = Bearer(6, 9, 8, bytes.fromhex("c0a80001"), 2, bytes.fromhex(ACTIVATE))

    def test_an_added_bearer_always_has_a_nas_message(self) -> None:
        value = elements_of(REQUEST)[16]
        self.assertEqual(bearers_of(value, is_added=True), [self.bearer])
        for length in range(len(value)):
            with self.assertRaises(Broken):
                bearers_of(value[:length], is_added=True)

    def test_bearers_that_are_asked_for(self) -> None:
        item = bytes.fromhex("0011001f0e0009200f80c0a8000100000003" "10" + ACTIVATE)
        two = elements_of(REQUEST)[16].replace(b"\0\0\x11", b"\1\0\x11", 1) + item
        self.assertEqual([(it.number, it.teid) for it in asked_bearers({16: two})], [(6, 2), (7, 3)])
        self.assertEqual(asked_bearers(elements_of(RESPONSE)), [])

    def test_what_is_asked_of_the_device(self) -> None:
        for it in (REQUEST, PROTECTED):
            asked = bearer_asked(nas_read(nas_pdu_of(elements_of(it)), 0).plain)
            self.assertEqual(asked, BearerAsked(6, 2, b"\x09", "ims", bytes.fromhex("0a2d8001"), False))

    def test_fields(self) -> None:
        bearer = {"bearers": "6", "bearer": "6", "quality": "QCI 9 priority 8", "gateway": "c0a80001", "TEID": "2", "other IEs": ""}
        asked = {"bearer of NAS": "6", "transaction": "2", "quality of NAS": "09", "access point name": "ims", "access point labels": "", "address": "0a2d8001"}
        asked["options of the bearer"] = ""
        expected = {"message": "ErabSetupRequest", **bearer, "security header": "6", **asked}
        self.assertEqual(fields_of(REQUEST), expected)
        rates = {"rate down": "1000000000", "rate up": "1000000000"}
        self.assertEqual(fields_of(PROTECTED), {**expected, **rates, "security header": "2"})
        expected = {"message": "DownlinkNASTransport", "other IEs": "", "security header": "0", "transaction": "2", "cause": "27", "options": ""}
        self.assertEqual(fields_of(REJECT), expected)


SESSION = "session {} link 1/1 area 02f839 1 bearer active radio 2\n"
CALLS = "gateway 1 create\ngateway 2 modify c0a80002 2\ngateway 3 second-create\ngateway 4 second-modify c0a80002 3\n"
FINAL = "device 208930000000001 messages 9 steps 15\n" + CALLS + SESSION


class PrintedTexts(unittest.TestCase):
    def test_calls(self) -> None:
        final = read_printed(FINAL.format("connected").encode()).finals[0]
        self.assertEqual(final.gateway, ["create", "modify c0a80002 2", "second-create", "second-modify c0a80002 3"])
        for it in ("second-modify c0a80002", "second_create", "second-create-", "5"):
            with self.assertRaises(BadInput):
                read_printed(FINAL.format("connected").replace("4 second-modify c0a80002 3", f"5 {it}").encode())

    def test_stages(self) -> None:
        case = read_case(example(BOTH))
        for it in ("await-second", "await-second-modify"):
            text = FINAL.format(it).replace("messages 9 steps 15", "messages 6 steps 10").encode()
            shown = data_of(Run("", "", case, text, read_printed(text)))
            self.assertEqual(shown["devices"][0]["session"], [it, "1/1", "02f839", 1, "active", 2])  # type: ignore[index]


class Answers:
    """A program whose device makes one call with each message, but two with the last one."""

    calls = ("create", "second-create", "modify c0a80002 2", "second-modify c0a80002 3")

    def plain(self, case: bytes) -> Printed:
        messages = len(trace_of(case))
        made = self.calls if messages == 3 else self.calls[:messages]
        gateway = "".join(f"gateway {number} {it}\n" for number, it in enumerate(made, 1))
        text = f"device 208930000000001 messages {messages} steps 9\n{gateway}{SESSION.format('connected')}"
        return read_printed(text.encode())


class Calls(unittest.TestCase):
    def test_each_is_awaited_and_stands_behind_its_first(self) -> None:
        octets = example(BOTH, lines_of_attach=3)
        case, program = read_case(octets), Answers()
        turns = turns_of(program, case, program.plain(octets), Quiet())  # type: ignore[arg-type]
        found = [[(it.words.split(" ")[0], it.is_awaited) for it in turn.calls] for turn in turns]
        self.assertEqual(found, [[("create", True)], [("second-create", True)], [("modify", True), ("second-modify", True)]])

    def test_a_ladder(self) -> None:
        case, printed = read_case(example(BOTH, ASKS)), read_printed(FINAL.format("connected").encode())
        message = Message(1, 7, case.trace[-1])
        turn = Turn(message, [Call("gateway", 3, "second-create")], [])
        lines = lines_of_plain(case, printed, [turn], Choice(None, message.line.line, message.line.line))
        expected = ["station1 PDN connectivity request 7", "mme ", "gateway "]
        self.assertEqual([f"{it.source} {it.name}" for it in lines], expected)
        self.assertEqual([it.label for it in lines][1:], ["second-create 3", "answer to second-create 3"])


class Rows(unittest.TestCase):
    # a row may have both columns, one of the two, or none: what becomes of it the program says
    columns = ({}, BOTH, {"apn2": "ims"}, {"ip2": "0a2d8001"})

    def test_columns_may_be_there_or_not(self) -> None:
        for it in self.columns:
            given = subscribers_of(example(it))
            self.assertEqual([(row.imsi, row.tmsi) for row in rows_given(given)], [("208930000000001", 1)])
            case = read_case(example(it))
            self.assertEqual(subscribers_of(case.with_trace(case.trace)), given)


class Frames(unittest.TestCase):
    def test_a_request_goes_down_and_the_others_up(self) -> None:
        lines = [TraceLine(at, 1, it.hex()) for at, it in enumerate((ASKS, RESPONSE, REQUEST, ACCEPTS), 4)]
        turns = [Turn(Message(1, 1, lines[0]), [], [Down(1, 1, REQUEST)]), Turn(Message(1, 2, lines[1])), Turn(Message(1, 3, lines[3]))]
        frames = frames_of(CaseText(trace=lines), Printed(), turns)
        self.assertEqual(frames, [Frame(True, 1, ASKS), Frame(False, 1, REQUEST), Frame(True, 1, RESPONSE), Frame(True, 1, ACCEPTS)])


# Worked by hand: the messages of a base station behind the attach, by a row with both columns, and what is printed behind the two calls of the attach.
COURSES = {
    (ASKS,): (7, 12, "gateway 3 second-create", "second made"),
    (ASKS, RESPONSE): (8, 13, "gateway 3 second-create", "second made"),
    (ASKS, ACCEPTS): (8, 13, "gateway 3 second-create", "second made"),
    (ASKS, FAILED): (8, 13, "gateway 3 second-create", "second made"),
    (ASKS, RESPONSE, ACCEPTS): (9, 15, "gateway 3 second-create", "gateway 4 second-modify c0a80002 3", "second active"),
    (ASKS, ACCEPTS, RESPONSE): (9, 15, "gateway 3 second-create", "gateway 4 second-modify c0a80002 3", "second active"),
    # what comes twice changes nothing, and so does a request for a third connection
    (ASKS, ASKS, RESPONSE, RESPONSE, ACCEPTS, ACCEPTS, ASKS): (13, 19, "gateway 3 second-create", "gateway 4 second-modify c0a80002 3", "second active"),
    (RESPONSE, ACCEPTS): (8, 12),
    # it is kept where the radio bearers are released, and is gone with a detach and with an attach
    (ASKS, RESPONSE, ACCEPTS, RELEASE): (10, 17, "gateway 3 second-create", "gateway 4 second-modify c0a80002 3", "gateway 5 release", "second made"),
    (ASKS, RESPONSE, DETACHES): (9, 15, "gateway 3 second-create", "gateway 4 delete"),
    (ASKS, *ATTACHES): (13, 22, "gateway 3 second-create", "gateway 4 create", "gateway 5 modify c0a80002 2"),
}


class Machine(unittest.TestCase):
    """What a machine makes of a second connection: a model, and the program where it is built."""

    attached = (EXAMPLES / "attach_text.txt").read_text()

    def makes(self, case: str) -> str:
        made = plain(case)
        if IS_BUILT:
            self.assertEqual(run_program("plain", case.encode()).decode(), made)
        return made

    def test_the_example(self) -> None:
        self.assertEqual(self.makes(CASE.read_text()), TEXT.read_text())

    def test_a_device_that_asks_and_accepts(self) -> None:
        expected = self.attached.replace("messages 6 steps 10", "messages 9 steps 15").replace("gateway 1", f"down 4 1 {REQUEST.hex()}\ngateway 1")
        expected = expected.replace("subscriber 1", "gateway 3 second-create\ngateway 4 second-modify c0a80002 3\nsubscriber 1") + "second active\n"
        self.assertEqual(self.makes(example(BOTH, ASKS, RESPONSE, ACCEPTS).decode()), expected)

    def test_a_row_without_both_columns_is_rejected(self) -> None:
        expected = self.attached.replace("messages 6 steps 10", "messages 9 steps 13").replace("gateway 1", f"down 4 1 {REJECT.hex()}\ngateway 1")
        for columns in ({}, {"apn2": "ims"}, {"ip2": "0a2d8001"}):
            self.assertEqual(self.makes(example(columns, ASKS, RESPONSE, ACCEPTS).decode()), expected)

    def test_courses(self) -> None:
        for messages, (count, steps, *behind) in COURSES.items():
            lines = self.makes(example(BOTH, *messages).decode()).splitlines()
            self.assertEqual(lines[0], f"device 208930000000001 messages {count} steps {steps}")
            found = [it for it in lines if it.startswith(("gateway ", "second ")) and it not in ("gateway 1 create", "gateway 2 modify c0a80002 2")]
            self.assertEqual(found, behind)

    def test_a_session_that_is_created_anew_has_another_end(self) -> None:
        text = self.makes(example(BOTH, ASKS, *ATTACHES).decode())
        self.assertEqual(text.count("450009200f80c0a8000100000001"), 1)
        self.assertEqual(text.count("450009200f80c0a8000100000003"), 1)


@needs("tshark")
class Tools(InFolder):
    """The tools over a device that asks, with a model in place of the program."""

    case = example(BOTH, ASKS, RESPONSE, ACCEPTS, FAILED)

    def captured(self) -> Path:
        case, text = self.file("case", self.case), self.file("text", plain(self.case.decode()).encode())
        capture = self.folder / "second.pcap"
        done = self.ran("case2pcap", case, text, "--program", MODEL, "-o", capture)
        self.assertEqual(told(done), ["case2pcap: 10 messages up, 4 down; left out: 0 lines of the trace that are no message of a base station"])
        self.assertEqual(capture.read_bytes().count(REQUEST), 1)
        return capture

    def test_a_capture_and_back(self) -> None:
        capture = self.captured()
        for it in self.case, example({"apn2": "ims"}):
            rows = self.file("rows", subscribers_of(it))
            back = self.ran("pcap2case", capture, rows, "--program", MODEL)
            self.assertEqual((trace_of(back.stdout), subscribers_of(back.stdout)), (trace_of(self.case), subscribers_of(it)))

    def test_with_what_is_learnt(self) -> None:
        rows = self.file("rows", subscribers_of(self.case))
        back = self.ran("pcap2case", self.captured(), rows, "--learn", "--program", MODEL)
        self.assertEqual(trace_of(back.stdout), trace_of(self.case))


def added(ids: Ids, nas: str, bearer: int = 6) -> bytes:
    item = bytes([bearer << 1]) + bytes.fromhex("0009200f80c0a8000100000102") + opened(bytes.fromhex(nas))
    return s1ap("000500", *ids.pair(), (16, "00001100" + opened(item).hex()))


def was_added(ids: Ids) -> bytes:
    return s1ap("200500", *ids.pair(), (28, "000027400a0c1fc0a8000200000003"))


def asked() -> "Tuple[Story, Ue]":
    """A network in which a device has attached at base station 1, and asks for a second connection."""
    story = Story()
    one = ue(story, FIRST, 1, 0xC0000001)
    one.connects(1, FIRST_MME_ID, 1)
    one.begins(attach_request(imsi(FIRST.imsi)))
    one.authenticates()
    one.is_accepted(0xC0000001)
    one.says(protected(2, "0202d011"))
    return story, one


def activate(name: str, address: str, bearer: int = 6) -> str:
    """With two labels and a session-AMBR."""
    labels = "".join(f"{len(it):02x}{it.encode().hex()}" for it in name.split("."))
    return protected(2, f"{bearer}202c10109{len(labels) // 2:02x}{labels}{len(address) // 2:02x}{address}5e04fefe4a4a")


def beside(story: Story) -> Report:
    learnt = learnt_of(story)
    octets = learnt.case()
    case, printed = read_case(octets), read_printed(plain(octets.decode()).encode())
    return report_of(learnt, case, printed, turns_of(Program(str(MODEL)), case, printed, Quiet()))


class Networks(unittest.TestCase):
    """A second connection by an MME that is another one: what is learnt of it, and what stands beside it."""

    def row(self, story: Story) -> "Tuple[Dict[str, object], str]":
        table = learnt_of(story).table.octets().decode()
        return json.loads(table.splitlines()[1]), table.splitlines()[0]

    def test_both_columns_are_learnt(self) -> None:
        story, one = asked()
        one.is_asked(added, activate("IMS.mnc093", "010a2d8001"))
        one.tells(was_added)
        one.says(protected(2, "6200c2"))
        one.is_asked(added, activate("other", "010a2d8002", 7), 7)  # a third one is not looked at
        row, origin = self.row(story)
        self.assertEqual(list(row.items())[-2:], [("apn2", "ims"), ("ip2", "0a2d8001")])
        self.assertTrue(origin.endswith(", apn2 ip2 from frame 12; made up: nothing"), origin)
        self.assertEqual(trace_of(learnt_of(story).case())[-3:], trace_of(story.case().encode())[-3:])

    def test_none_is_made_up(self) -> None:
        story, _ = asked()
        row, origin = self.row(story)
        self.assertEqual(list(row)[-1], "forbidden")
        self.assertTrue(origin.endswith("made up: nothing"))

    def test_one_of_both(self) -> None:
        for name, address, expected in (("ims", "0220010db800000000", ["apn2"]), ("i-m-s", "010a2d8001", ["ip2"])):
            story, one = asked()
            one.is_asked(added, activate(name, address))
            self.assertEqual([it for it in self.row(story)[0] if it in BOTH], expected)

    def answers(self, story: Story, back: int = 1) -> List[str]:
        """What stands beside what the MME sent behind the last message of the device, or one before it."""
        return [told_of(it) for it in beside(story).devices[0].exchanges[-back].answers]

    def test_the_machine_grants_one_too(self) -> None:
        story, one = asked()
        one.is_asked(added, activate("ims.mnc093", "010a2d8001"))
        self.assertEqual(self.answers(story), ["explained: no integrity, an access point name of one label, mandatory fields alone"])
        one.tells(was_added)
        one.says(protected(2, "6200c2"))
        report = beside(story)
        behind = report.devices[0].exchanges[-2:]
        self.assertEqual([(it.name, it.answers) for it in behind], [("ErabSetupResponse", []), ("Activate default EPS bearer context accept", [])])
        self.assertFalse(report.differs(False))

    def test_a_bearer_of_another_number(self) -> None:
        story, one = asked()
        one.is_asked(added, activate("ims", "010a2d8001", 7), 7)
        explained = "no dedicated bearers, E-RABs 5 and 6 alone, no integrity, mandatory fields alone"
        self.assertEqual(self.answers(story), [f"explained: {explained}"])

    def test_a_reject(self) -> None:
        for nas, expected in (("0202d11b", "explained: no integrity"), ("0202d121", "another cause: cause 33 / 27")):
            story, one = asked()
            one.hears(protected(2, nas))
            self.assertEqual(self.answers(story), [expected])

    def test_what_a_row_does_not_take_is_rejected(self) -> None:
        story, one = asked()
        one.is_asked(added, activate("ims", "0220010db800000000"))
        self.assertEqual(self.answers(story), ["another message (the capture tells no name and address of it that a row takes)"])

    def test_a_third_connection(self) -> None:
        for sends in (lambda one: one.is_asked(added, activate("other", "010a2d8002", 7), 7), lambda one: one.hears(protected(2, "0203d141"))):
            story, one = asked()
            one.is_asked(added, activate("ims", "010a2d8001"))
            one.tells(was_added)
            one.says(protected(2, "6200c2"))
            one.says(protected(2, "0203d011"))
            sends(one)
            self.assertEqual(self.answers(story), ["only the MME's (the profile has no third connection)"])

    def test_a_service_request_sets_up_both_bearers(self) -> None:
        for bearers, expected in ((2, "equal"), (1, "other fields: bearers 5 / 5 6"), (3, "explained: no dedicated bearers")):
            story, one = asked()
            one.is_asked(added, activate("ims", "010a2d8001"))
            one.tells(was_added)
            one.says(protected(2, "6200c2"))
            one.rests()
            one.connects(1, FIRST_MME_ID + 1, 2)
            one.asks_for_service()
            one.is_asked(context_setup, FIRST, "", bearers)
            self.assertEqual(self.answers(story), [expected])
            one.tells(context_done, bearers)
            report = beside(story)
            self.assertEqual(report.devices[0].exchanges[-1].answers, [])

    def test_other_session_management_is_of_another_profile(self) -> None:
        story, one = asked()
        for nas in ("7200c2", "6200c3", "0202d2", "5200c6"):
            one.says(protected(2, nas), is_line=False)
        learnt = learnt_of(story)
        self.assertEqual(learnt.trace.left_out["of NAS messages that the profile has not"], 4)
        self.assertEqual(trace_of(learnt.case()), trace_of(story.case().encode()))


@needs("tshark")
class Dissected(InFolder):
    names = ("s1ap.procedureCode", "s1ap.E_RABToBeSetupListBearerSUReq", "s1ap.E_RABSetupListBearerSURes", "s1ap.e_RAB_ID", "s1ap.gTP_TEID")
    names += ("nas_eps.nas_msg_esm_type", "nas_eps.bearer_id", "gsm_a.gm.sm.apn", "nas_eps.esm.pdn_ipv4", "nas_eps.esm.cause")

    def fields(self, *messages: bytes) -> List[str]:
        """What tshark says of each message: whether it is malformed, what it remarks, and the fields, one behind another."""
        capture = self.file("messages", pcap_of([Frame(kind_of(it).is_up, 1, it) for it in messages]))  # type: ignore[union-attr]
        words = ["tshark", "-n", "-r", str(capture), "-T", "fields", "-E", "separator=|"]
        for it in ("_ws.malformed", "_ws.expert.message", *self.names):
            words += ["-e", it]
        return subprocess.run(words, stdout=subprocess.PIPE, stderr=subprocess.DEVNULL, check=True).stdout.decode().splitlines()

    def test_worked_messages(self) -> None:
        expected = ["||13|||||0xd0|0|||", "||5||1|6|00000003|||||", "||13|||||0xc2|6|||", "||11|||||0xd1|0|||27", "||5|||6||||||"]
        self.assertEqual(self.fields(ASKS, RESPONSE, ACCEPTS, REJECT, FAILED), expected)

    def test_an_added_bearer(self) -> None:
        self.assertEqual(self.fields(PROTECTED), ["||5|1||6|00000002|0xc1|6|ims|10.45.128.1|"])
        # Behind no header of protection tshark looks for one in the bearer identity of the worked message, 62, and reads no further. So octet 62 is as TS
        # 24.301, 9.2 and 9.3.2, have it, and what is behind it is as above; S1AP round it is whole.
        self.assertEqual(self.fields(REQUEST), [f"|{NO_HEADER}|5|1||6|00000002|||||"])
