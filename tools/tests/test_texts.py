"""Case texts, printed texts and messages, read as their forms say."""

import unittest

from balthiri_tools.case_text import Event, read_case
from balthiri_tools.command import BadInput
from balthiri_tools.messages import Identity, identity_of, kind_of, name_of
from balthiri_tools.printed import belongs, read_printed

CASE = b"""# a comment
[subscribers]

{"imsi":"208930000000001","tmsi":7}\r
[trace]
1 00zz
# [schedule]
65535 000C\r
[schedule]
send 1 1
answer 2 1 subscriber 3
"""

ATTACH = "000c403e000005000800020001001a00161507417108298039000000001002e0e000040201d011004300060002f8390001006440080002f839000000100086400130"
RESPONSE = "000d4035000005000000020001000800020001001a000c0b075308a0a1a2a3a4a5a6a7006440080002f83900000010004340060002f8390001"
SECURED = "000d4032000005000000020001000800020001001a000908470000000000075e006440080002f83900000010004340060002f8390001"
SERVICE = "000c4037000006000800020001001a000504c7000000004300060002f8390001006440080002f83900000010008640014000600006004000000001"
AREA = "000c4038000005000800020002001a00100f0748700bf602f83900010100000001004300060002f8390009006440080002f839000000100086400130"
SETUP = (
    "00090080840000060000000200010008000200010042000a183b9aca00603b9aca00001800360000340031450009200f80c0a800010000000122074201e0060002f839000100155201c101090908"
    "696e7465726e657405010a2d0001006b000518000c0000004900201111111111111111111111111111111111111111111111111111111111111111"
)


class CaseTexts(unittest.TestCase):
    def test_sections_lines_and_comments(self) -> None:
        case = read_case(CASE)
        self.assertEqual([(it.device, it.imsi, it.tmsi) for it in case.subscribers], [(1, "208930000000001", 7)])
        self.assertEqual([(it.line, it.station, it.text, it.octets()) for it in case.trace], [(6, 1, "00zz", None), (8, 65535, "000C", b"\0\x0c")])
        self.assertEqual(case.schedule[0], Event(1, "send 1 1", "send", device=1, message=1))
        self.assertEqual(case.schedule[1], Event(2, "answer 2 1 subscriber 3", "answer", replica=2, device=1, lane="subscriber", call=3))

    def test_a_case_with_another_trace(self) -> None:
        case = read_case(CASE)
        self.assertEqual(case.with_trace(case.trace[1:]), b'[subscribers]\n{"imsi":"208930000000001","tmsi":7}\n[trace]\n65535 000C\n')

    def test_octets_are_hexadecimal_alone(self) -> None:
        for text in (b"0", b"0\t0", b"+0", b"0_00"):
            self.assertIsNone(read_case(b"[trace]\n1 " + text + b"\n").trace[0].octets())


class Messages(unittest.TestCase):
    def test_names(self) -> None:
        names = {ATTACH: "Attach request", RESPONSE: "Authentication response", SECURED: "Security mode complete"}
        names.update({SERVICE: "Service request", SETUP: "Attach accept"})
        for message, name in names.items():
            self.assertEqual(name_of(bytes.fromhex(message)), name)
        self.assertEqual(name_of(bytes.fromhex("2017000f000002000040020001000840020001")), "UEContextReleaseComplete")
        self.assertEqual(name_of(bytes.fromhex("0012400f000002000000020001000800020001")), "UEContextReleaseRequest")
        self.assertEqual(name_of(b"\x00\x11\x00\x00"), "unknown message")

    def test_whose_a_message_is(self) -> None:
        self.assertEqual(identity_of(bytes.fromhex(ATTACH)), Identity(imsi="208930000000001"))
        self.assertEqual(identity_of(bytes.fromhex(RESPONSE)), Identity(mme_id=1))
        self.assertEqual(identity_of(bytes.fromhex(SERVICE)), Identity(tmsi=1))
        self.assertEqual(identity_of(bytes.fromhex(AREA)), Identity(tmsi=1))
        self.assertEqual(identity_of(bytes.fromhex("000d40")), Identity())

    def test_every_front_of_a_message_is_taken(self) -> None:
        for message in (ATTACH, RESPONSE, SERVICE, AREA, SETUP):
            octets = bytes.fromhex(message)
            for length in range(len(octets)):
                identity_of(octets[:length])
                name_of(octets[:length])

    def test_who_sends_a_message(self) -> None:
        kinds = {it: kind_of(bytes.fromhex(it)) for it in ("000c", "000d", "000b", "0009", "2009", "4009", "0012", "0017", "2017", "0016", "000a", "0005", "2005")}
        self.assertEqual([it for it, kind in kinds.items() if kind and not kind.is_up], ["000b", "0009", "0017", "000a", "0005"])
        self.assertNotIn(None, kinds.values())
        for it in ("0011", "4005", "200c", "800c", "010c", "00", ""):
            self.assertIsNone(kind_of(bytes.fromhex(it)))


FINAL = b"""refused 7 29 BadHex
device 208930000000001 messages 1 steps 2
down 1 1 00ff
gateway 1 create
gateway 2 modify c0a80002 2
subscriber 1 vectors
session detached link off area 000000 0 bearer none radio 0
"""


class PrintedTexts(unittest.TestCase):
    def test_a_final_text(self) -> None:
        printed = read_printed(FINAL)
        self.assertEqual(printed.refused, {7: "29 BadHex"})
        final = printed.finals[0]
        self.assertEqual((final.imsi, final.messages, final.gateway, final.subscriber), ("208930000000001", 1, ["create", "modify c0a80002 2"], ["vectors"]))
        self.assertEqual([(it.number, it.station, it.octets) for it in final.downs], [(1, 1, b"\0\xff")])

    def test_a_second_connection(self) -> None:
        calls = b"gateway 3 second-create\ngateway 4 second-modify c0a80002 3\n"
        with_calls = FINAL.replace(b"subscriber 1", calls + b"subscriber 1")
        final = read_printed(with_calls + b"second active\n").finals[0]
        self.assertEqual((final.gateway[2:], final.second), (["second-create", "second-modify c0a80002 3"], "active"))
        self.assertEqual(read_printed(FINAL + b"second made\n").finals[0].second, "made")
        self.assertEqual(read_printed(FINAL).finals[0].second, "")
        for text in (FINAL + b"second\n", FINAL + b"second radio\n", FINAL + 2 * b"second made\n", FINAL.replace(b"session", b"second made\nsession")):
            with self.assertRaises(BadInput):
                read_printed(text)

    def test_each_answer_of_a_transcript(self) -> None:
        answers = "sent|taken|stopped|pushed|void replica|void window|void link|void hand|void outbox|ready 0|committed 1|stale 0 1"
        answers += "|waiting gateway 1|old subscriber 2|repeat 1|settled 1|ahead 0|acked 1|accepted 1|old 1"
        text = "".join(f"event {number}: {it}\n" for number, it in enumerate(answers.split("|"), 1))
        self.assertEqual(read_printed(text.encode()).answers, answers.split("|"))

    def test_other_texts_are_refused(self) -> None:
        session = b"session detached link off area 000000 0 bearer none radio 0\n"
        bad = [FINAL[:-1], FINAL + b"\n", FINAL + session, FINAL.replace(session, b"")]
        bad += [FINAL.replace(b"gateway 2", b"gateway 3"), FINAL.replace(b"down 1", b"down 2")]
        bad += [FINAL.replace(b"00ff", b"00f"), b"event 2: sent\n", FINAL + b"event 1: sent\n", FINAL + FINAL, b"event 1: lost\n", b"hello\n", b"down 1 1 00\n"]
        for text in bad:
            with self.assertRaises(BadInput):
                read_printed(text)

    def test_whether_a_text_belongs_to_a_case(self) -> None:
        case = read_case(CASE)
        final = FINAL.replace(b"refused 7", b"refused 6")
        self.assertTrue(belongs(case, read_printed(final)))
        self.assertTrue(belongs(case, read_printed(b"event 1: sent\nevent 2: void link\n" + final)))
        for text in (FINAL, final.replace(b"000001 ", b"000002 "), b"event 1: sent\n" + final, b"event 1: taken\nevent 2: taken\n" + final, b""):
            self.assertFalse(belongs(case, read_printed(text)))
