"""Calls of peers as captures: what `s11` and `s6a` print as GTPv2-C over UDP and as Diameter over SCTP."""

import json
import re
import shutil
import struct
import subprocess
import unittest
from ipaddress import IPv4Address
from pathlib import Path
from typing import Dict, List, Tuple

from balthiri_tools.calls import GATEWAY, SUBSCRIBER, CallFrames, Lane, check_calls, frames_of_calls, read_calls
from balthiri_tools.capture import read_capture
from balthiri_tools.case_text import CaseText, TraceLine, read_case, read_event
from balthiri_tools.command import BadInput
from balthiri_tools.frames import frames_of
from balthiri_tools.packets import S6A, S11, SUBSCRIBER_SERVER_ADDRESS, CallFrame, pcap_of
from balthiri_tools.printed import Down, Printed, read_printed
from balthiri_tools.trace import trace_of as trace_of_capture
from balthiri_tools.turns import Call, Message, Turn
from machine_model import plain
from support import DATA, EXAMPLES, TESTS, InFolder, Quiet, has_command, needs, run_program, told, trace_of

MODEL = TESTS / "machine_model.py"
ATTACH, ATTACH_TEXT = EXAMPLES / "attach.txt", EXAMPLES / "attach_text.txt"
NAMES = {GATEWAY: ["s11_1", "s11_2"], SUBSCRIBER: ["s6a_1", "s6a_2"]}

# Worked by hand, IE by IE (TS 29.274, 8): the calls of examples/attach.txt to the gateway, and their answers.
CREATE = "4820007000000000" "00000100" "0100080002980300000000f1" "5200010006" "570009008a000000010a000001" "4700090008696e7465726e6574" "6300010001"
CREATE += "4f0005000100000000" "48000800000f4240000f4240" "5d001f00" "4900010005" "500016002009" + "00" * 20
CREATED = "4821004000000001" "00000100" "020002001000" "570009008b00000001c0a80001" "4f000500010a2d0001"
CREATED += "5d001800" "4900010005" "020002001000" "570009008100000001c0a80001"
MODIFY = "4822001e00000001" "00000200" "5d001200" "4900010005" "570009008000000002c0a80002"
MODIFIED = "4823001d00000001" "00000200" "020002001000" "5d000b00" "4900010005" "020002001000"
# The calls to the subscriber server and their answers, AVP by AVP (RFC 6733, 4; TS 29.272, 7).
SESSION, OK, STATE = "0000010740000014" "6d6d652e6563686f3b313b", "0000010c4000000c" "000007d1", "000001154000000c" "00000001"
ORIGIN, HOME = "0000010840000010" "6d6d652e6563686f", "0000010840000010" "6873732e6563686f"
REALM, TO_REALM = "000001284000000c" "6563686f", "0000011b4000000c" "6563686f"
IMSI, NETWORK = "0000000140000017" "323038393330303030303030303031" "00", "0000057fc000000f000028af" "02f839" "00"
ASK_VECTORS = "010000a0c000013e01000023" "0000000100000001" + SESSION + "31" + STATE + ORIGIN + REALM + TO_REALM + IMSI + NETWORK
ASK_VECTORS += "00000580c000001c000028af" "00000582c0000010000028af" "00000001"
VECTORS = "010000ec4000013e01000023" "0000000100000001" + SESSION + "31" + OK + STATE + HOME + REALM + "00000585c0000090000028af" "00000586c0000084000028af"
VECTORS += "000005a7c000001c000028af" "000102030405060708090a0b0c0d0e0f" "000005a8c0000014000028af" "a0a1a2a3a4a5a6a7"
VECTORS += "000005a9c000001c000028af" "101112131415161718191a1b1c1d1e1f" "000005aac000002c000028af" + "11" * 32
ASK_LOCATION = "01000094c000013c01000023" "0000000200000002" + SESSION + "32" + STATE + ORIGIN + REALM + TO_REALM + IMSI + NETWORK
ASK_LOCATION += "0000057dc0000010000028af" "00000022"
LOCATED = "010000944000013c01000023" "0000000200000002" + SESSION + "32" + OK + STATE + HOME + REALM + "00000578c0000038000028af" "0000059bc000002c000028af"
LOCATED += "00000204c0000010000028af" "3b9aca00" "00000203c0000010000028af" "3b9aca00"


def text_of(*messages: str) -> bytes:
    """What a command prints for examples/attach.txt that has these messages: a call, its answer, the next call."""
    lines = [f"{'answer' if at % 2 else 'call'} {at // 2 + 1} {it}\n" for at, it in enumerate(messages)]
    return "".join(["device 208930000000001\n", *lines]).encode()


ATTACH_S11, ATTACH_S6A = text_of(CREATE, CREATED, MODIFY, MODIFIED), text_of(ASK_VECTORS, VECTORS, ASK_LOCATION, LOCATED)


def seen(capture: bytes) -> List[str]:
    """The frames of a capture, in words; nothing of this is the tools' own reading. Whatever is in SCTP is a whole message, one a packet."""
    frames, at = [], 24
    while at < len(capture):
        length = struct.unpack("<I", capture[at + 8 : at + 12])[0]
        packet, at = capture[at + 16 : at + 16 + length], at + 16 + length
        way = f"{IPv4Address(packet[12:16])} > {IPv4Address(packet[16:20])}"
        source, target, size = struct.unpack(">HHH", packet[20:26])
        if packet[9] == 17:
            assert size == len(packet) - 20
            frames.append(f"{way} udp {source} {target} {packet[28:].hex()}")
        else:
            size, payload = struct.unpack(">H", packet[34:36])[0], struct.unpack(">I", packet[44:48])[0]
            assert (packet[9], packet[32:34], (size + 3) // 4 * 4) == (132, b"\0\x03", len(packet) - 32)
            frames.append(f"{way} sctp {source} {target} {payload} {packet[48 : 32 + size].hex()}")
    return frames


def s11(way: str, message: str, gateway: str = "192.168.0.1") -> str:
    return (f"10.0.0.1 > {gateway}" if way == "call" else f"{gateway} > 10.0.0.1") + f" udp 2123 2123 {message}"


def s6a(way: str, message: str) -> str:
    return ("10.0.0.1 > 10.0.0.2" if way == "call" else "10.0.0.2 > 10.0.0.1") + f" sctp 3868 3868 46 {message}"


# Between which messages of S1 the calls of the attach stand: each behind the message that made it, before the message that it lets go down.
UPS, DOWNS = trace_of(ATTACH.read_bytes()), [it.split(" ")[3] for it in ATTACH_TEXT.read_text().splitlines() if it.startswith("down ")]
S1_UP, S1_DOWN = [f"10.1.0.1 > 10.0.0.1 sctp 36412 36412 18 {it[2:]}" for it in UPS], [f"10.0.0.1 > 10.1.0.1 sctp 36412 36412 18 {it}" for it in DOWNS]
ORDER = [S1_UP[0], s6a("call", ASK_VECTORS), s6a("answer", VECTORS), S1_DOWN[0], S1_UP[1], S1_DOWN[1], S1_UP[2]]
ORDER += [s6a("call", ASK_LOCATION), s6a("answer", LOCATED), s11("call", CREATE), s11("answer", CREATED), S1_DOWN[2]]
ORDER += [*S1_UP[3:], s11("call", MODIFY), s11("answer", MODIFIED)]


class Packets(unittest.TestCase):
    gateway = IPv4Address("192.168.0.1")
    release, released = bytes.fromhex("48aa00080000000100000300"), bytes.fromhex("48ab000e0000000100000300020002001000")

    def test_a_datagram(self) -> None:
        octets = pcap_of([CallFrame(False, S11, self.gateway, self.release), CallFrame(True, S11, self.gateway, self.released)])
        first, second = octets[24:][: 16 + 40], octets[24 + 16 + 40 :]
        self.assertEqual(first[:16].hex(), "00000000" "00000000" "28000000" "28000000")
        # an IPv4 header with UDP; ports 2123, 20 octets; both checksums added up by hand
        self.assertEqual(first[16:36].hex(), "45000028" "00004000" "4011701b" "0a000001" "c0a80001")
        self.assertEqual(first[36:].hex(), "084b084b" "0014d8d2" + self.release.hex())
        self.assertEqual(second[28:36].hex() + second[36:42].hex(), "c0a80001" "0a000001" "084b084b" "001a")

    def test_the_checksum_of_a_datagram(self) -> None:
        # of one octet, which counts as two; and where the sum is 0, which is written ffff
        for message, expected in (("01", "239c"), ("249a", "ffff")):
            octets = pcap_of([CallFrame(False, S11, self.gateway, bytes.fromhex(message))])
            self.assertEqual(octets[24 + 16 + 26 :].hex(), expected + message)

    def test_a_chunk_of_diameter(self) -> None:
        octets = pcap_of([CallFrame(it, S6A, SUBSCRIBER_SERVER_ADDRESS, b"\x01\x02\x03\x04") for it in (False, True, False)])
        packets = [octets[24 + 16 + at * (16 + 52) :][:52] for at in range(3)]
        self.assertEqual([it[12:20].hex() for it in packets], ["0a0000010a000002", "0a0000020a000001", "0a0000010a000002"])
        # ports 3868; a DATA chunk that is a whole message, 20 octets, TSN, stream 1, number, payload 46
        self.assertEqual(packets[0][20:24].hex() + packets[0][32:].hex(), "0f1c0f1c" "00030014" "00000001" "0001" "0000" "0000002e" "01020304")
        self.assertEqual([it[36:44].hex() for it in packets], ["0000000100010000", "0000000100010000", "0000000200010001"])
        self.assertEqual([it[24:28].hex() for it in packets], ["20000000", "10000000", "20000000"])


class Texts(unittest.TestCase):
    def test_the_frames_of_the_worked_calls(self) -> None:
        case = read_case(ATTACH.read_bytes())
        gateway, subscriber = frames_of_calls(case, GATEWAY, ATTACH_S11), frames_of_calls(case, SUBSCRIBER, ATTACH_S6A)
        self.assertEqual(list(gateway), [(1, "gateway", 1), (1, "gateway", 2)])
        self.assertEqual(list(subscriber), [(1, "subscriber", 1), (1, "subscriber", 2)])
        frames = [frame for it in (gateway, subscriber) for pair in it.values() for frame in pair]
        expected = [s11("call", CREATE), s11("answer", CREATED), s11("call", MODIFY), s11("answer", MODIFIED)]
        expected += [s6a("call", ASK_VECTORS), s6a("answer", VECTORS), s6a("call", ASK_LOCATION), s6a("answer", LOCATED)]
        self.assertEqual(seen(pcap_of(frames)), expected)

    def test_devices_in_order_of_their_imsis_each_with_its_gateway(self) -> None:
        rows = [f'{{"imsi":"{it:015}","tmsi":{it},"sgw":"0A00{it:02x}ff"}}' for it in (7, 5, 6)]
        case = read_case("\n".join(["[subscribers]", *rows, ""]).encode())
        lines = ["device 000000000000005", "call 1 01", "answer 1 02", "device 000000000000006"]
        lines += ["device 000000000000007", "call 1 03", "answer 1 04", "call 2 05", "answer 2 06", ""]
        frames = frames_of_calls(case, GATEWAY, "\n".join(lines).encode())
        found = [(key[0], key[2], str(call.peer), call.message, answer.message) for key, (call, answer) in frames.items()]
        self.assertEqual(found, [(2, 1, "10.0.5.255", b"\1", b"\2"), (1, 1, "10.0.7.255", b"\3", b"\4"), (1, 2, "10.0.7.255", b"\5", b"\6")])
        self.assertEqual([(call.is_up, answer.is_up) for call, answer in frames.values()], [(False, True)] * 3)

    def test_a_row_without_the_address_of_a_gateway(self) -> None:
        for column in ("", ',"sgw":""', ',"sgw":"0a00"', ',"sgw":"gateway."', ',"sgw":1'):
            case = read_case(f'[subscribers]\n{{"imsi":"000000000000005","tmsi":5{column}}}\n'.encode())
            text = b"device 000000000000005\ncall 1 01\nanswer 1 02\n"
            with self.assertRaisesRegex(BadInput, "device 000000000000005: no address of a gateway"):
                frames_of_calls(case, GATEWAY, text)
            self.assertEqual(len(frames_of_calls(case, SUBSCRIBER, text)), 1)

    def test_each_text_of_the_model_has_the_calls_that_plain_tells_of(self) -> None:
        for lane, names in NAMES.items():
            for it in names:
                octets = (DATA / f"{it}.txt").read_bytes()
                case, text = read_case(octets), (DATA / f"{it}_text.txt").read_bytes()
                frames = frames_of_calls(case, lane, text)
                self.assertEqual(len(frames), text.count(b"\ncall "))
                check_calls(case, read_printed(plain(octets.decode()).encode()), lane, frames)

    def test_other_calls_than_plain_tells_of(self) -> None:
        case, printed = read_case(ATTACH.read_bytes()), read_printed(ATTACH_TEXT.read_bytes())
        for messages in ((), (CREATE, CREATED), (CREATE, CREATED) * 3):
            with self.assertRaisesRegex(BadInput, "other calls"):
                check_calls(case, printed, GATEWAY, frames_of_calls(case, GATEWAY, text_of(*messages)))

    def test_a_text_of_another_case(self) -> None:
        for text in (b"", ATTACH_S11.replace(b"0001\n", b"0002\n", 1), ATTACH_S11 + b"device 208930000000002\n"):
            with self.assertRaisesRegex(BadInput, "the text of `s11` is not of this case text"):
                frames_of_calls(read_case(ATTACH.read_bytes()), GATEWAY, text)

    def test_lines_out_of_form(self) -> None:
        device, other = "device 208930000000001", "device 208930000000002"
        wrong = ["call 1 00", "device 1", "refused 3 1 Truncated at 3", ATTACH_TEXT.read_text().splitlines()[0]]
        begins = (device, "call 2 00", "answer 1 00", "call 1 ", "call 1 0", "call 1 AB", "call 01 00", "call 1 00 ", "gateway 1 create", "")
        wrong += [f"{device}\n{it}" for it in begins]
        wrong += [f"{device}\ncall 1 00\n{it}" for it in (device, other, "call 2 00", "answer 2 00", "call 1 00")]
        for it in wrong:
            line = it.count("\n") + 1
            with self.assertRaisesRegex(BadInput, f"line {line} of the text of `s6a` is none that it prints there"):
                read_calls("s6a", f"{it}\nanswer 1 00\n".encode())

    def test_a_text_that_breaks_off(self) -> None:
        whole = b"device 208930000000001\ncall 1 00\nanswer 1 00\n"
        for cut in (whole[:-1], whole[: whole.index(b"answer")], whole[: whole.index(b"call") - 1]):
            with self.assertRaisesRegex(BadInput, "the text of `s11` breaks off"):
                read_calls("s11", cut)


class Order(unittest.TestCase):
    """Device 1 attaches, by a call to each peer, and is purged; between its lines is one of device 2, which has a call too."""

    def order(self, events: str = "", lanes: Tuple[Lane, ...] = (GATEWAY, SUBSCRIBER)) -> List[str]:
        first, other, last = (TraceLine(line, 1, f"000d{line:02x}") for line in (4, 5, 6))
        asked = [Call("subscriber", 1, "vectors"), Call("gateway", 1, "create")], [Call("subscriber", 1, "vectors")], [Call("subscriber", 2, "purge")]
        downs = [Down(1, 1, b"\x01")], [Down(1, 1, b"\x02")], [Down(2, 1, b"\x03")]
        turns = [Turn(Message(*it), calls, made) for it, calls, made in zip(((1, 1, first), (2, 1, other), (1, 2, last)), asked, downs)]
        case = CaseText(trace=[first, other, last], schedule=[read_event(at, it.split(": ")[0]) for at, it in enumerate(events.splitlines(), 1)])
        frames: CallFrames = {}
        for device, lane, number in ((1, SUBSCRIBER, 1), (1, GATEWAY, 1), (1, SUBSCRIBER, 2), (2, SUBSCRIBER, 1)):
            call, answer = (CallFrame(is_up, lane.interface, SUBSCRIBER_SERVER_ADDRESS, bytes([16 * device + number])) for is_up in (False, True))
            if lane in lanes:
                frames[device, lane.name, number] = call, answer
        found = frames_of(case, Printed(answers=[it.split(": ")[1] for it in events.splitlines()]), turns, frames)
        return [f"{it.interface.name}{'<' if it.is_up else '>'}{it.message[-1:].hex()}" for it in found]

    def test_without_a_transcript_calls_and_answers_are_behind_their_message(self) -> None:
        expected = ["S1<04", "S6a>11", "S6a<11", "S11>11", "S11<11", "S1>01", "S1<05", "S6a>21", "S6a<21", "S1>02", "S1<06", "S6a>12", "S6a<12", "S1>03"]
        self.assertEqual(self.order(), expected)

    def test_only_the_interfaces_that_are_wanted(self) -> None:
        self.assertEqual(self.order(lanes=(GATEWAY,)), ["S1<04", "S11>11", "S11<11", "S1>01", "S1<05", "S1>02", "S1<06", "S1>03"])
        self.assertEqual(self.order(lanes=()), ["S1<04", "S1>01", "S1<05", "S1>02", "S1<06", "S1>03"])

    def test_with_one_a_call_is_where_it_was_accepted_and_its_answer_where_it_was_taken(self) -> None:
        events = ["send 1 1: sent", "send 2 1: sent", "push 2 subscriber 1: pushed", "push 1 subscriber 1: pushed", "effect 2 subscriber 1: accepted 1"]
        events += ["effect 1 subscriber 1: void link", "effect 1 subscriber 1: accepted 1", "effect 1 subscriber 1: repeat 1"]
        events += ["answer 1 1 subscriber 1: void replica", "answer 1 1 subscriber 1: taken", "answer 2 1 subscriber 1: taken"]
        events += ["answer 1 2 subscriber 1: taken", "effect 2 down 1: accepted 1"]
        # the call to the gateway, which no event accepted, and all behind it come at the end
        expected = ["S1<04", "S1<05", "S6a>21", "S6a>11", "S6a<11", "S6a<21", "S1>02", "S11>11", "S11<11", "S1>01", "S1<06", "S6a>12", "S6a<12", "S1>03"]
        self.assertEqual(self.order("\n".join(events)), expected)

    def test_an_answer_that_was_not_taken_comes_at_the_end(self) -> None:
        expected = ["S1<04", "S11>11", "S6a>11", "S6a<11", "S11<11", "S1>01", "S1<05", "S6a>21", "S6a<21", "S1>02", "S1<06", "S6a>12", "S6a<12", "S1>03"]
        self.assertEqual(self.order("send 1 1: sent\neffect 1 gateway 1: accepted 1"), expected)

    def test_the_answer_to_a_purge_which_no_step_awaits_is_right_behind_it(self) -> None:
        events = "send 1 1: sent\nsend 1 2: sent\neffect 1 subscriber 2: accepted 2\nsend 2 1: sent\nanswer 1 1 subscriber 2: taken"
        expected = ["S1<04", "S1<05", "S1<06", "S6a>12", "S6a<12", "S6a>11", "S6a<11", "S11>11", "S11<11", "S1>01", "S6a>21", "S6a<21", "S1>02", "S1>03"]
        self.assertEqual(self.order(events), expected)


class WithProgram(InFolder):
    """A program that prints these texts by `s11` and `s6a`, and whatever else the model of the definitions prints."""

    def program(self, texts: Dict[str, bytes]) -> Path:
        cases = "".join(f"[ $1 = {word} ] && exec cat {self.file(word, text)}\n" for word, text in texts.items())
        refused = 'case $1 in s11 | s6a) echo "echo: usage" >&2; exit 64;; esac\n'
        path = self.file("program", f"#!/bin/sh\n{cases}{refused}exec {MODEL}\n".encode())
        path.chmod(0o755)
        return path


class Made(WithProgram):
    def setUp(self) -> None:
        super().setUp()
        self.attach = self.program({"s11": ATTACH_S11, "s6a": ATTACH_S6A})

    def test_the_messages_of_the_attach_in_their_order(self) -> None:
        done = self.ran("case2pcap", ATTACH, ATTACH_TEXT, "--s11", "--s6a", "--program", self.attach)
        self.assertEqual(seen(done.stdout), ORDER)
        expected = "case2pcap: 6 messages up, 3 down, 2 calls on S11, 2 calls on S6a; left out: 0 lines of the trace that are no message of a base station"
        self.assertEqual(told(done), [expected])

    def test_texts_in_place_of_a_run_of_the_command(self) -> None:
        run = self.ran("case2pcap", ATTACH, ATTACH_TEXT, "--s11", "--s6a", "--program", self.attach).stdout
        given = ["--s11", self.file("s11_text", ATTACH_S11), "--s6a", "-"]
        self.assertEqual(self.ran("case2pcap", *given, "--program", self.attach, ATTACH, ATTACH_TEXT, given=ATTACH_S6A).stdout, run)

    def test_one_interface_and_none(self) -> None:
        done = self.ran("case2pcap", ATTACH, ATTACH_TEXT, "--program", self.attach, "--s6a")
        self.assertEqual(seen(done.stdout), [it for it in ORDER if "udp" not in it])
        self.assertIn("3 down, 2 calls on S6a; left out", told(done)[0])
        self.assertEqual(self.ran("case2pcap", ATTACH, ATTACH_TEXT, "--program", self.attach).stdout, (EXAMPLES / "attach.pcap").read_bytes())

    def test_the_calls_alone(self) -> None:
        done = self.ran("case2pcap", ATTACH, "--s11", "--program", self.attach)
        self.assertEqual(seen(done.stdout), [it for it in ORDER if "udp" in it])
        self.assertEqual(told(done), ["case2pcap: 2 calls on S11"])
        both = self.ran("case2pcap", ATTACH, "--s6a", self.file("text", ATTACH_S6A), "--s11", "--program", self.attach)
        self.assertEqual(seen(both.stdout), [it for port in (" 2123 ", " 3868 ") for it in ORDER if port in it])
        self.assertEqual(told(both), ["case2pcap: 2 calls on S11, 2 calls on S6a"])

    def test_of_a_transcript_the_answer_is_where_it_was_taken(self) -> None:
        case, text = EXAMPLES / "replay.txt", EXAMPLES / "replay_text.txt"
        program = self.program({"replay": text.read_bytes(), "s6a": text_of(ASK_VECTORS, VECTORS)})
        self.assertEqual(seen(self.ran("case2pcap", case, text, "--s6a", "--program", program).stdout), ORDER[:4])

    def test_each_text_of_the_model_in_a_run(self) -> None:
        for lane, names in NAMES.items():
            for it in names:
                case, text = (DATA / f"{it}.txt").read_bytes(), (DATA / f"{it}_text.txt").read_bytes()
                words = [self.file("case", case), self.file("printed", plain(case.decode()).encode()), f"--{lane.command}"]
                found = seen(self.ran("case2pcap", *words, "--program", self.program({lane.command: text})).stdout)
                calls = [line for line in found if f" {lane.interface.port} " in line]
                # each answer is right behind its call, and each is there once
                self.assertEqual(sorted(zip(calls[::2], calls[1::2])), sorted(self.expected(lane, case, text)))

    def expected(self, lane: Lane, case: bytes, text: bytes) -> "List[Tuple[str, ...]]":
        """The frames of each call of a text with its answer."""
        gateways = {it["imsi"]: str(IPv4Address(int(it["sgw"], 16))) for it in map(json.loads, re.findall(r"^\s*\{.*$", case.decode(), re.M))}
        pairs, gateway = [], ""
        for line in text.decode().splitlines():
            way, *words = line.split(" ")
            if way == "device":
                gateway = gateways[words[0]]
                continue
            pairs.append(s11(way, words[1], gateway) if lane is GATEWAY else s6a(way, words[1]))
        return list(zip(pairs[::2], pairs[1::2]))


class Refused(WithProgram):
    def test_a_text_that_the_program_does_not_print(self) -> None:
        program = self.program({"s11": ATTACH_S11, "s6a": ATTACH_S6A})
        for text in (b"", ATTACH_S6A, ATTACH_S11[:-1], ATTACH_S11.replace(b"4823001d", b"4823001e")):
            words = [ATTACH, "--s11", "-", "--program", program]
            self.refused("not what the program prints for the case text (`s11`)", "case2pcap", *words, given=text)
        self.refused("(`s6a`)", "case2pcap", ATTACH, ATTACH_TEXT, "--s6a", "-", "--program", program, given=ATTACH_S11)

    def test_a_program_that_prints_what_does_not_belong_together(self) -> None:
        program = self.program({"s11": text_of(CREATE, CREATED), "s6a": b"device 208930000000001\ncall 1 01\n"})
        self.refused("other calls than the printed text", "case2pcap", ATTACH, ATTACH_TEXT, "--s11", "--program", program)
        self.refused("the text of `s6a` breaks off", "case2pcap", ATTACH, "--s6a", "--program", program)

    def test_a_program_that_has_not_the_command(self) -> None:
        program = self.program({"s11": ATTACH_S11})
        self.refused("has no command s6a", "case2pcap", ATTACH, ATTACH_TEXT, "--s11", "--s6a", "--program", program)

    def test_words_out_of_form(self) -> None:
        self.refused("PRINTED, or --s11 or --s6a", "case2pcap", ATTACH)
        for words in ((ATTACH, "-", "--s11", "-"), ("-", "--s6a", "-"), (ATTACH, "--s6a", "-", "--s11", "-"), ("-", "-")):
            self.refused("one file alone may be standard input", "case2pcap", *words)
        self.refused("No such file", "case2pcap", ATTACH, "--s11", self.folder / "none", "--program", MODEL)


def fields(capture: Path, chosen: str, *names: str) -> List[List[str]]:
    """What tshark says of these fields, of each frame that the filter chooses. The checksums of IP, UDP and SCTP are checked."""
    words = ["tshark", "-n", "-r", str(capture), "-o", "ip.check_checksum:TRUE", "-o", "udp.check_checksum:TRUE", "-o", "sctp.checksum:CRC 32c"]
    words += ["-Y", chosen, "-T", "fields"] + [word for it in names for word in ("-e", it)]
    said = subprocess.run(words, stdout=subprocess.PIPE, stderr=subprocess.DEVNULL, check=True).stdout.decode()
    return [it.split("\t") for it in said.splitlines()]


NOTES = "_ws.expert or _ws.malformed"


@needs("tshark")
class Dissected(WithProgram):
    def capture(self, lane: Lane, case: bytes, text: bytes) -> Path:
        """The capture of the calls of a text alone."""
        frames = frames_of_calls(read_case(case), lane, text)
        return self.file("calls", pcap_of(frame for pair in frames.values() for frame in pair))

    def test_no_message_has_a_note(self) -> None:
        texts = {lane: [((DATA / f"{it}.txt").read_bytes(), (DATA / f"{it}_text.txt").read_bytes()) for it in names] for lane, names in NAMES.items()}
        texts[GATEWAY].append((ATTACH.read_bytes(), ATTACH_S11))
        texts[SUBSCRIBER].append((ATTACH.read_bytes(), ATTACH_S6A))
        for lane, column, right in ((GATEWAY, "GTPv2", ["1", "1", ""]), (SUBSCRIBER, "DIAMETER", ["1", "", "1"])):
            for case, text in texts[lane]:
                capture = self.capture(lane, case, text)
                self.assertEqual(fields(capture, NOTES, "frame.number", "_ws.expert.message"), [])
                found = fields(capture, "frame", "_ws.col.Protocol", "ip.checksum.status", "udp.checksum.status", "sctp.checksum.status")
                self.assertEqual(found, [[column, *right]] * (2 * text.count(b"\ncall ")))

    def test_a_message_that_is_wrong_has_one(self) -> None:
        # a length of an IE that is one too much, and an AVP whose length is below its head's
        wrong = {GATEWAY: (MODIFY, "5d0012", "5d0013"), SUBSCRIBER: (ASK_VECTORS, "0000011b4000000c", "0000011b40000004")}
        for lane, (message, piece, instead) in wrong.items():
            texts = [text_of(it, it) for it in (message, message.replace(piece, instead))]
            found = [fields(self.capture(lane, ATTACH.read_bytes(), it), NOTES, "frame.number") for it in texts]
            self.assertEqual(found, [[], [["1"], ["2"]]])

    def test_what_tshark_reads_on_s11(self) -> None:
        names = ["message_type", "seq", "teid", "apn", "ebi", "cause", "f_teid_ipv4", "f_teid_gre_key", "f_teid_interface_type"]
        names += ["pdn_addr_and_prefix.ipv4", "ambr_up"]
        found = fields(self.capture(GATEWAY, ATTACH.read_bytes(), ATTACH_S11), "gtpv2", *(f"gtpv2.{it}" for it in names), "e212.imsi")
        one, address = "0x00000001", "192.168.0.1"
        create = ["32", "0x000001", "0x00000000", "internet", "5", "", "10.0.0.1", one, "10", "0.0.0.0", "1000000", "208930000000001"]
        created = ["33", "0x000001", one, "", "5", "16,16", f"{address},{address}", f"{one},{one}", "11,1", "10.45.0.1", "", ""]
        modify = ["34", "0x000002", one, "", "5", "", "192.168.0.2", "0x00000002", "0", "", "", ""]
        self.assertEqual(found, [create, created, modify, ["35", "0x000002", one, "", "5", "16,16", "", "", "", "", "", ""]])

    def test_what_tshark_reads_on_s6a(self) -> None:
        names = ["cmd.code", "flags.request", "hopbyhopid", "Session-Id", "Origin-Host", "User-Name", "Result-Code", "XRES"]
        names += ["Max-Requested-Bandwidth-UL", "ULR-Flags"]
        found = fields(self.capture(SUBSCRIBER, ATTACH.read_bytes(), ATTACH_S6A), "diameter", *(f"diameter.{it}" for it in names))
        one, two, imsi = ["0x00000001", "mme.echo;1;1"], ["0x00000002", "mme.echo;1;2"], "208930000000001"
        expected = [["318", "1", *one, "mme.echo", imsi, "", "", "", ""], ["318", "0", *one, "hss.echo", "", "2001", "a0a1a2a3a4a5a6a7", "", ""]]
        expected += [["316", "1", *two, "mme.echo", imsi, "", "", "", "34"], ["316", "0", *two, "hss.echo", "", "2001", "", "1000000000", ""]]
        self.assertEqual(found, expected)

    def run_of_attach(self) -> Path:
        """The capture of the whole attach."""
        made = self.folder / "attach.pcap"
        self.ran("case2pcap", ATTACH, ATTACH_TEXT, "--s11", "--s6a", "--program", self.program({"s11": ATTACH_S11, "s6a": ATTACH_S6A}), "-o", made)
        return made

    def test_the_capture_of_a_run(self) -> None:
        made = self.run_of_attach()
        self.assertEqual(fields(made, f"({NOTES}) and not s1ap", "frame.number"), [])
        protocols = {"2123": "GTPv2", "3868": "DIAMETER", "36412": "S1AP"}
        self.assertEqual([it[0].split("/")[0] for it in fields(made, "frame", "_ws.col.Protocol")], [protocols[it.split(" ")[4]] for it in ORDER])

    def test_the_messages_of_s1_come_back(self) -> None:
        trace = trace_of_capture(read_capture(str(self.run_of_attach()), Quiet()))
        self.assertEqual([it for it in trace.lines if not it.startswith("#")], UPS)
        self.assertEqual(trace.told_left_out(), "left out: 3 of the MME, 0 of other procedures, 4 of other payload protocols")


@needs("program")
@unittest.skipUnless(has_command("s11") and has_command("s6a"), "the built program has no commands s11 and s6a")
class Built(InFolder):
    """The built program's own texts."""

    def test_the_worked_calls(self) -> None:
        self.assertEqual(run_program("s11", ATTACH.read_bytes()), ATTACH_S11)
        self.assertEqual(run_program("s6a", ATTACH.read_bytes()), ATTACH_S6A)

    def test_the_texts_of_the_model(self) -> None:
        for lane, names in NAMES.items():
            for it in names:
                self.assertEqual(run_program(lane.command, (DATA / f"{it}.txt").read_bytes()), (DATA / f"{it}_text.txt").read_bytes())

    @unittest.skipUnless(shutil.which("tshark"), "missing: tshark")
    def test_the_examples_have_no_note(self) -> None:
        for text in sorted(EXAMPLES.glob("*_text.txt")):
            made = self.folder / "made.pcap"
            self.ran("case2pcap", EXAMPLES / text.name.replace("_text", ""), text, "--s11", "--s6a", "-o", made)
            self.assertEqual(fields(made, f"({NOTES}) and not s1ap", "frame.number", "_ws.expert.message"), [], text.name)
