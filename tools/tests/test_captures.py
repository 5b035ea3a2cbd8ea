"""Case texts to captures and back, as a user runs the tools."""

import os
import struct
import subprocess
import tempfile
import unittest
from concurrent.futures import ThreadPoolExecutor
from ipaddress import IPv4Address
from pathlib import Path
from typing import ClassVar, Dict, List, Tuple

from balthiri_tools.case_text import CaseText, TraceLine, read_event
from balthiri_tools.frames import frames_of
from balthiri_tools.packets import PCAP_HEADER, S1AP_PAYLOAD, S1AP_PORT, Frame, crc32c, ipv4_packet, pcap_of
from balthiri_tools.printed import Down, Printed
from balthiri_tools.program import ECHO
from balthiri_tools.turns import Message, Turn
from support import DATA, EXAMPLES, NO_HEADER, PLAIN, InFolder, has_replay, needs, run, run_program, subscribers_of, told, trace_of

# What begins a message of a base station: outcome and procedure.
FROM_STATIONS = ("000c", "000d", "2009", "4009", "0012", "2017", "0016")
# What tshark finds malformed in messages of the MME, by name. There is none.
KNOWN_MALFORMED: List[str] = []

ATTACH = (EXAMPLES / "attach.txt").read_bytes()
ATTACH_TEXT = (EXAMPLES / "attach_text.txt").read_bytes()


def is_from_station(line: str) -> bool:
    text = line.split(" ")[1]
    is_hexadecimal = len(text) % 2 == 0 and all(it in "0123456789abcdefABCDEF" for it in text)
    return is_hexadecimal and text[:4].lower() in FROM_STATIONS


def packet_of_chunks(source: str, chunks: List[Tuple[int, int, int, bytes]]) -> bytes:
    """A packet with these DATA chunks, each with its flags, its TSN, its payload identifier and its octets, of the one association of its source."""
    body = b""
    for flags, number, payload, octets in chunks:
        body += struct.pack(">BBHIHHI", 0, flags, 16 + len(octets), number, 0, 0, payload) + octets + bytes(-len(octets) % 4)
    front = struct.pack(">HH4s", S1AP_PORT, S1AP_PORT, IPv4Address(source).packed)
    sctp = front + struct.pack("<I", crc32c(front + bytes(4) + body)) + body
    return ipv4_packet(IPv4Address(source), IPv4Address("10.0.0.1"), 0, sctp)


def pcap_of_packets(packets: List[bytes]) -> bytes:
    return PCAP_HEADER + b"".join(struct.pack("<IIII", at, 0, len(it), len(it)) + it for at, it in enumerate(packets))


def lines_of(numbers: List[int]) -> List[TraceLine]:
    """Lines of a trace whose PDUs begin a message, and end in their line's number."""
    return [TraceLine(line, 1, f"000d{line:02x}") for line in numbers]


class Order(unittest.TestCase):
    """Two messages of device 1 around one of device 2, and a line that is no message of a base station, between lines 4 and 7."""

    def order(self, events: str) -> List[str]:
        first, other, second = lines_of([4, 5, 7])
        case = CaseText(trace=[first, other, TraceLine(6, 1, "000b06"), second])
        case.schedule = [read_event(number, it.split(": ")[0]) for number, it in enumerate(events.splitlines(), 1)]
        printed = Printed(answers=[it.split(": ")[1] for it in events.splitlines()])
        downs = [Down(1, 1, b"\x01\x01"), Down(2, 1, b"\x01\x02")], [Down(1, 2, b"\x02\x01")], [Down(3, 1, b"\x01\x03")]
        messages = Message(1, 1, first), Message(2, 1, other), Message(1, 2, second)
        turns = [Turn(message, [], made) for message, made in zip(messages, downs)]
        return [("up " if it.is_up else "down ") + it.message[-2:].hex() for it in frames_of(case, printed, turns)]

    def test_without_a_transcript_each_down_is_behind_its_message(self) -> None:
        self.assertEqual(self.order(""), ["up 0d04", "down 0101", "down 0102", "up 0d05", "down 0201", "up 0d07", "down 0103"])

    def test_with_one_a_down_is_where_it_was_accepted(self) -> None:
        events = "send 2 1: sent\neffect 2 down 1: accepted 1\neffect 2 down 1: repeat 1\nsend 1 1: sent\neffect 1 down 2: ahead 0\neffect 1 down 1: accepted 1\n"
        # line 4 goes before line 5; what no event sent or accepted comes at the end
        expected = ["up 0d04", "up 0d05", "down 0201", "down 0101", "down 0102", "up 0d07", "down 0103"]
        self.assertEqual(self.order(events), expected)

    def test_void_events_move_nothing(self) -> None:
        events = "send 1 2: void window\nsend 1 1: sent\neffect 1 down 1: void link\neffect 1 gateway 1: accepted 1\nsend 1 2: sent\n"
        expected = ["up 0d04", "up 0d05", "up 0d07", "down 0101", "down 0102", "down 0201", "down 0103"]
        self.assertEqual(self.order(events), expected)


# S1AP is there, the checksums of IP and SCTP are right, and nothing is malformed or remarked on, but for the known.
WHOLE = [f"s1ap|1|1|{it}" for it in ["|", f"|{NO_HEADER}", *KNOWN_MALFORMED]]


def dissected(capture: Path) -> List[str]:
    """What tshark finds of each frame that the MME sent."""
    words = ["tshark", "-n", "-r", str(capture), "-o", "ip.check_checksum:TRUE", "-o", "sctp.checksum:CRC 32c", "-Y", "ip.src == 10.0.0.1"]
    words += ["-T", "fields", "-E", "separator=|"]
    for it in ("s1ap", "ip.checksum.status", "sctp.checksum.status", "_ws.malformed", "_ws.expert.message"):
        words += ["-e", it]
    return subprocess.run(words, stdout=subprocess.PIPE, stderr=subprocess.DEVNULL, check=True).stdout.decode().splitlines()


@needs("tshark")
class Dissected(InFolder):
    # The types of the NAS messages that the MME sends, but for an Attach accept, which the printed texts have.
    kinds = {"52", "54", "5d", "44", "4e", "4b", "49", "46"}

    def test_every_down_of_the_printed_texts(self) -> None:
        texts = "".join(it.read_text() for folder in (DATA, EXAMPLES) for it in sorted(folder.glob("*_text.txt")))
        downs = [it.split(" ") for it in texts.split("\n") if it.startswith("down ")]
        capture = self.file("downs", pcap_of([Frame(False, int(station), bytes.fromhex(octets)) for _, _, station, octets in downs]))
        found = dissected(capture)
        self.assertEqual([it for it in found if it not in WHOLE], [])
        self.assertEqual(len(found), len(downs))

    def test_the_one_message_that_is_called_malformed(self) -> None:
        # the UE CAPABILITY INFO INDICATION: the two octets of its radio capability are no message of RRC
        words = ["tshark", "-n", "-r", str(EXAMPLES / "attach.pcap"), "-Y", "_ws.malformed", "-T", "fields", "-e", "frame.number", "-e", "s1ap.UERadioCapability"]
        found = subprocess.run(words, stdout=subprocess.PIPE, stderr=subprocess.DEVNULL, check=True).stdout.decode().split()
        self.assertEqual([it.replace(":", "") for it in found], ["8", "0102"])

    def test_each_kind_of_down(self) -> None:
        # worked by hand: MME-UE-S1AP-ID 1, eNB-UE-S1AP-ID 1, and the NAS message
        messages = ["07520000" + "11" * 15 + "10" + "22" * 16, "0754", "075d000002e0e0", "07440c", "074e0a", "074b0c", "074900", "0746"]
        self.assertEqual({it[2:4] for it in messages}, self.kinds)
        frames = []
        for nas in messages:
            length = len(nas) // 2
            front = f"000b40{length + 20:02x}000003" + "000000020001" + "000800020001"
            frames.append(Frame(False, 1, bytes.fromhex(front + f"001a00{length + 1:02x}{length:02x}" + nas)))
        for cause in ("0120", "0122", "0124", "020280"):  # the release command, with an IE Cause of one octet or of two
            length = 15 + len(cause) // 2 - 1
            frames.append(Frame(False, 1, bytes.fromhex(f"001700{length:02x}000002" + "0063000400010001" + "000240" + cause)))
        found = dissected(self.file("kinds", pcap_of(frames)))
        self.assertEqual([it for it in found if it not in WHOLE], [])
        self.assertEqual(len(found), 12)


@needs("program")
class Made(InFolder):
    def test_the_capture_of_the_examples(self) -> None:
        done = self.ran("case2pcap", EXAMPLES / "attach.txt", "-", given=ATTACH_TEXT)
        self.assertEqual(done.stdout, (EXAMPLES / "attach.pcap").read_bytes())


@needs("program")
class Large(InFolder):
    """The largest cases that the program makes: some five thousand messages each way, of one device, of some, and of as many as there may be."""

    def test_five_thousand_messages_each_way(self) -> None:
        for devices, rounds in ((1, 799), (40, 19), (800, 0)):
            words = [str(ECHO), "make", "--number=7", f"--devices={devices}", f"--rounds={rounds}", "--text"]
            case = subprocess.run(words, stdout=subprocess.PIPE, stderr=subprocess.DEVNULL, check=True).stdout
            text = run_program("plain", case)
            done = self.ran("case2pcap", self.file("case", case), "-", "-o", self.folder / "made", given=text)
            up, down = len(trace_of(case)), text.count(b"\ndown ")
            self.assertGreater(min(up, down), 2000)
            self.assertEqual(told(done), [f"case2pcap: {up} messages up, {down} down; left out: 0 lines of the trace that are no message of a base station"])


@needs("program", "tshark")
class RoundTrip(InFolder):
    captures: ClassVar[Path]
    told_of: ClassVar[Dict[str, List[str]]]

    @classmethod
    def setUpClass(cls) -> None:
        folder = tempfile.TemporaryDirectory()
        cls.addClassCleanup(folder.cleanup)
        cls.captures, cls.told_of = Path(folder.name), {}

    def captured(self, name: str) -> Path:
        """The capture of a case text, which is made once for all tests; what was told of it is in `told_of`."""
        capture = self.captures / f"{name}.pcap"
        if name not in self.told_of:
            self.told_of[name] = told(self.ran("case2pcap", DATA / f"{name}.txt", DATA / f"{name}_text.txt", "-o", capture))
        return capture

    def test_the_trace_comes_back(self) -> None:
        for name in PLAIN:
            case = (DATA / f"{name}.txt").read_bytes()
            there = [it for it in trace_of(case) if is_from_station(it)]
            done = self.ran("pcap2case", self.captured(name), "-", given=subscribers_of(case))
            back = trace_of(done.stdout)
            self.assertEqual(back, [it.lower() for it in there])
            self.assertEqual([it for it in back if it in there], [it for it in there if it == it.lower()])

    def test_what_is_left_out_is_counted(self) -> None:
        case = DATA / "plain_1.txt"
        lines = trace_of(case.read_bytes())
        there = [it for it in lines if is_from_station(it)]
        capture = self.captured("plain_1")
        downs = sum(it.startswith(b"down ") for it in (DATA / "plain_1_text.txt").read_bytes().split(b"\n"))
        left_out = f"{len(lines) - len(there)} lines of the trace that are no message of a base station"
        self.assertEqual(self.told_of["plain_1"], [f"case2pcap: {len(there)} messages up, {downs} down; left out: {left_out}"])
        back = self.ran("pcap2case", capture, "-", given=subscribers_of(case.read_bytes()))
        self.assertEqual(told(back), [f"pcap2case: {len(there)} lines of a trace; left out: {downs} of the MME, 0 of other procedures"])

    def test_up_and_down_in_order(self) -> None:
        capture = self.folder / "attach.pcap"
        self.ran("case2pcap", EXAMPLES / "attach.txt", EXAMPLES / "attach_text.txt", "-o", capture)
        words = ["tshark", "-n", "-r", str(capture), "-T", "fields", "-e", "ip.src", "-e", "s1ap.procedureCode"]
        found = subprocess.run(words, stdout=subprocess.PIPE, stderr=subprocess.DEVNULL, check=True).stdout.decode().split()
        station, mme = "10.1.0.1", "10.0.0.1"
        way = [(station, "12"), (mme, "11"), (station, "13"), (mme, "11"), (station, "13"), (mme, "9"), (station, "9"), (station, "22"), (station, "13")]
        self.assertEqual(list(zip(found[::2], found[1::2])), way)

    def test_what_goes_down_in_a_capture_is_whole(self) -> None:
        for name in PLAIN:
            found = dissected(self.captured(name))
            self.assertEqual([it for it in found if it not in WHOLE], [])
            self.assertEqual(len(found), (DATA / f"{name}_text.txt").read_bytes().count(b"\ndown "))

    def test_the_capture_of_the_examples_comes_back(self) -> None:
        back = self.ran("pcap2case", EXAMPLES / "attach.pcap", "-", given=subscribers_of(ATTACH))
        self.assertEqual(trace_of(back.stdout), trace_of(ATTACH))
        self.assertEqual(run_program("plain", back.stdout), ATTACH_TEXT)

    def test_comments_name_frames_and_times(self) -> None:
        back = self.ran("pcap2case", EXAMPLES / "attach.pcap", "-", given=subscribers_of(ATTACH)).stdout.decode().splitlines()
        comments = [it for it in back if it.startswith("#")]
        self.assertEqual([it.split(" at ")[0] for it in comments], [f"# frame {it}" for it in (1, 3, 5, 7, 8, 9)])
        self.assertIn("0.002", comments[1].split(" at ")[1])


@needs("program", "tshark")
class Captures(InFolder):
    message = bytes.fromhex(trace_of(ATTACH)[0].split(" ")[1])
    other = bytes.fromhex(trace_of(ATTACH)[3].split(" ")[1])

    def back(self, octets: bytes, status: int = 0) -> "Tuple[List[str], List[str]]":
        done = run("pcap2case", self.file("capture", octets), "-", given=subscribers_of(ATTACH))
        self.assertEqual(done.returncode, status, done.stderr)
        return trace_of(done.stdout), told(done)

    def line(self, station: int, message: bytes) -> str:
        return f"{station} {message.hex()}"

    def test_two_messages_in_a_packet(self) -> None:
        packet = packet_of_chunks("10.1.0.1", [(3, 1, S1AP_PAYLOAD, self.message), (3, 2, S1AP_PAYLOAD, self.other)])
        self.assertEqual(self.back(pcap_of_packets([packet]))[0], [self.line(1, self.message), self.line(1, self.other)])

    def test_a_message_in_two_packets(self) -> None:
        parts = [(2, 1, S1AP_PAYLOAD, self.message[:20]), (1, 2, S1AP_PAYLOAD, self.message[20:])]
        packets = [packet_of_chunks("10.1.0.1", [it]) for it in parts]
        self.assertEqual(self.back(pcap_of_packets(packets))[0], [self.line(1, self.message)])

    def test_what_sctp_sent_again_is_taken_once(self) -> None:
        packet = packet_of_chunks("10.1.0.1", [(3, 1, S1AP_PAYLOAD, self.message)])
        self.assertEqual(self.back(pcap_of_packets([packet, packet]))[0], [self.line(1, self.message)])

    def test_other_payloads_are_passed_over(self) -> None:
        packet = packet_of_chunks("10.1.0.1", [(3, 1, 27, self.message), (3, 2, S1AP_PAYLOAD, self.other)])
        self.assertEqual(self.back(pcap_of_packets([packet]))[0], [self.line(1, self.other)])

    def test_base_stations_are_numbered(self) -> None:
        sources = ["192.168.0.9", "10.1.0.1", "10.1.1.44", "192.168.0.7", "192.168.0.9"]
        packets = [packet_of_chunks(it, [(3, at, S1AP_PAYLOAD, self.message)]) for at, it in enumerate(sources)]
        # 10.1.0.1 is 1, so the others begin at 2
        self.assertEqual([it.split(" ")[0] for it in self.back(pcap_of_packets(packets))[0]], ["2", "1", "300", "3", "2"])

    def test_other_procedures_and_the_mme_are_counted(self) -> None:
        frames = [Frame(True, 1, bytes.fromhex("00110000")), Frame(True, 1, self.message)]
        frames += [Frame(False, 1, bytes.fromhex(it)) for it in ("000b4017", "20110000")]
        lines, end = self.back(pcap_of(frames))
        self.assertEqual(lines, [self.line(1, self.message)])
        self.assertEqual(end, ["pcap2case: 1 line of a trace; left out: 1 of the MME, 2 of other procedures"])

    def test_a_message_too_long_for_a_line(self) -> None:
        long = bytes.fromhex("00164090") + bytes(4092)  # "1 " and 8,192 digits
        lines, end = self.back(pcap_of([Frame(True, 1, long), Frame(True, 1, long[:-1])]), status=1)  # a line is missing
        self.assertEqual(lines, [self.line(1, long[:-1])])
        self.assertEqual(end, ["pcap2case: 1 line of a trace; left out: 0 of the MME, 0 of other procedures, 1 too long for a line"])

    def test_pcapng(self) -> None:
        capture = self.folder / "attach.pcapng"
        subprocess.run(["tshark", "-r", str(EXAMPLES / "attach.pcap"), "-w", str(capture)], stderr=subprocess.DEVNULL, check=True)
        self.assertEqual(capture.read_bytes()[:4].hex(), "0a0d0d0a")
        self.assertEqual(self.back(capture.read_bytes())[0], trace_of(ATTACH))


PLAIN_SCHEDULE = """send 1 1;take 1 1 1;read 1;write 1;reply 1 1
push 1 subscriber 1;effect 1 subscriber 1;answer 2 1 subscriber 1;read 2;write 2;settle 1 subscriber 1;push 1 down 1;effect 1 down 1;settle 1 down 1
send 1 2;take 1 1 2;read 1;write 1;reply 1 2;push 1 down 2;effect 1 down 2;settle 1 down 2
send 1 3;take 2 1 3;read 2;write 2;reply 1 3
push 1 subscriber 2;effect 1 subscriber 2;answer 1 1 subscriber 2;read 1;write 1;settle 1 subscriber 2
push 1 gateway 1;effect 1 gateway 1;answer 2 1 gateway 1;read 2;write 2;settle 1 gateway 1;push 1 down 3;effect 1 down 3;settle 1 down 3
send 1 4;take 1 1 4;read 1;write 1;reply 1 4
send 1 5;take 2 1 5;read 2;write 2;reply 1 5
send 1 6;take 1 1 6;read 1;write 1;reply 1 6
push 1 gateway 2;effect 1 gateway 2;answer 2 1 gateway 2;read 2;write 2;settle 1 gateway 2
"""


def scheduled(kind: str, *words: object) -> bytes:
    """The case text with a schedule of this kind that is written of the capture of the attach."""
    done = run("pcap2case", EXAMPLES / "attach.pcap", "-", "--schedule", kind, *words, given=subscribers_of(ATTACH))
    assert done.returncode == 0, done.stderr
    return done.stdout


@needs("program", "tshark")
class Schedules(unittest.TestCase):
    """Schedules of the attach by kind, seed and number of replicas. Those that the tests share are written side by side."""

    written: ClassVar[Dict[Tuple[str, int, int], bytes]]

    @classmethod
    def setUpClass(cls) -> None:
        chosen = [*((seed, 2) for seed in range(6)), (1, 1), (3, 16)]
        words = [(kind, *it) for kind in ("plain", "lossy", "stops") for it in chosen]
        with ThreadPoolExecutor(os.cpu_count()) as pool:
            cls.written = dict(zip(words, pool.map(lambda it: scheduled(it[0], "--seed", it[1], "--replicas", it[2]), words)))

    def events(self, case: bytes) -> List[str]:
        return case.decode().split("[schedule]\n")[1].splitlines()

    def test_plain_does_each_thing_once(self) -> None:
        self.assertEqual(self.events(scheduled("plain")), PLAIN_SCHEDULE.replace("\n", ";").split(";")[:-1])

    def test_the_seed_decides(self) -> None:
        for kind in ("lossy", "stops"):
            cases = [scheduled(kind, "--seed", 1), *(self.written[kind, seed, 2] for seed in (1, 2, 3))]
            runs = [self.events(it) for it in cases]
            self.assertEqual(runs[0], runs[1])
            self.assertNotEqual(runs[0], runs[2])
            self.assertNotEqual(runs[2], runs[3])

    def test_the_program_takes_each(self) -> None:
        for kind in ("plain", "lossy", "stops"):
            for seed, replicas in ((1, 1), (2, 2), (3, 16)):
                self.assertEqual(run_program("plain", self.written[kind, seed, replicas]), ATTACH_TEXT)

    @unittest.skipUnless(has_replay(), "the built program has no command replay")
    def test_what_the_events_come_to(self) -> None:
        def answers(kind: str) -> str:
            return "".join(run_program("replay", self.written[kind, seed, 2]).decode() for seed in range(6))

        plain, lossy, stops = (answers(it) for it in ("plain", "lossy", "stops"))
        for word in ("void", "stale", "repeat", "stopped", "old", "ahead", "waiting"):
            self.assertNotIn(f": {word}", plain)
        for word in ("stale", "repeat", "old", "ahead"):
            self.assertIn(f": {word}", lossy)
        for word in ("stopped", "repeat", "void hand"):
            self.assertIn(f": {word}", stops)


@needs("program")
class BadCases(InFolder):
    def test_a_case_text_that_the_program_refuses(self) -> None:
        for tool in ("case2pcap", "ladder"):
            case = self.file("case", b"[subscribers]\n{}\n")
            self.refused("case refused 20 MissingColumn line 2", tool, case, EXAMPLES / "attach_text.txt")

    def test_a_text_that_does_not_belong_to_the_case(self) -> None:
        later = ATTACH_TEXT.replace(b"tac 1", b"tac 2").replace(b"radio 2", b"radio 3")
        for tool in ("case2pcap", "ladder"):
            for text in (later, ATTACH_TEXT + ATTACH_TEXT, b"", b"hello\n", b"event 1: sent\n" + ATTACH_TEXT):
                self.refused("printed text", tool, EXAMPLES / "attach.txt", "-", given=text)
            self.refused("printed text", tool, EXAMPLES / "stranger.txt", EXAMPLES / "attach_text.txt")

    def test_no_such_file_no_program_no_such_word(self) -> None:
        for tool in ("case2pcap", "ladder"):
            self.refused("No such file", tool, self.folder / "none", EXAMPLES / "attach_text.txt")
            self.refused("./echo at the top of the repository runs it", tool, EXAMPLES / "attach.txt", EXAMPLES / "attach_text.txt", "--program", self.folder / "none")
            self.refused("--help", tool, EXAMPLES / "attach.txt")


@needs("program", "tshark")
class BadCaptures(InFolder):
    def test_a_file_that_is_no_capture(self) -> None:
        for octets in (b"", b"hello\n", ATTACH):
            self.refused("no capture", "pcap2case", self.file("capture", octets), "-", given=subscribers_of(ATTACH))

    def test_a_capture_that_breaks_off(self) -> None:
        capture = self.file("capture", (EXAMPLES / "attach.pcap").read_bytes()[:-1])
        done = run("pcap2case", capture, "-", given=subscribers_of(ATTACH))
        self.assertEqual((done.returncode, trace_of(done.stdout)), (1, trace_of(ATTACH)[:-1]))
        self.assertIn("cut short", told(done)[-1])

    def test_a_capture_without_s1ap(self) -> None:
        for octets in (pcap_of([]), pcap_of_packets([packet_of_chunks("10.1.0.1", [(3, 1, 27, b"\0\x0c\0\0")])])):
            self.refused("no S1AP", "pcap2case", self.file("capture", octets), "-", given=subscribers_of(ATTACH))

    def test_subscribers_that_the_program_refuses(self) -> None:
        for octets, expected in ((b"{\n", "19 BadJson line 2"), (ATTACH, "25 BadSection line 2"), (subscribers_of(ATTACH) * 2, "22 RepeatedImsi line 3")):
            self.refused(expected, "pcap2case", EXAMPLES / "attach.pcap", "-", given=octets)

    def test_words_out_of_form(self) -> None:
        for words in (["--replicas", "17"], ["--schedule", "none"], ["--seed", "x"]):
            self.refused("--help", "pcap2case", EXAMPLES / "attach.pcap", "-", *words, given=subscribers_of(ATTACH))


class Help(unittest.TestCase):
    def test_each_tool_tells_its_words(self) -> None:
        for tool in ("case2pcap", "pcap2case", "beside", "ladder", "page", "gate_minutes"):
            done = run(tool, "--help")
            self.assertEqual((done.returncode, done.stderr), (0, b""))
            self.assertIn(b"usage: " + tool.encode(), done.stdout)
            self.assertIn(b"Example: " + tool.encode(), b" ".join(done.stdout.split()))
