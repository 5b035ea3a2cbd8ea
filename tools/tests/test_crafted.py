"""Captures of each kind, and captures of which something is missing: what becomes of each, worked by hand."""

import gzip
import unittest
from functools import lru_cache
from typing import Dict, List, Tuple

from balthiri_tools.capture import read_capture
from balthiri_tools.sctp import Packet, messages_of
from balthiri_tools.trace import Trace, trace_of
from crafted import BEGINS, CAPTURES, ENDS, MME, STATION, UP, WHOLE, data, sctp
from support import DATA, EXAMPLES, InFolder, Quiet, needs, run, subscribers_of, told

FOLDER = DATA / "captures"
SUBSCRIBERS = subscribers_of((EXAMPLES / "attach.txt").read_bytes())

# Of each line the base station, and which message of the attach it is, from 0.
Lines = List[Tuple[int, int]]
ATTACH: Lines = [(1, it) for it in range(6)]

# What has the whole attach, and nothing is missing from: what was left out.
WHOLE_ONES: Dict[str, str] = dict.fromkeys(
    ["ethernet.pcap", "vlan.pcap", "two_vlans.pcap", "sll.pcap", "sll2.pcap", "raw.pcap", "null.pcap", "nanosecond.pcap", "big_endian.pcap", "pcapng.pcapng"]
    + ["ipv4_fragments.pcap", "ipv6.pcap", "ipv6_fragments.pcap", "udp.pcap", "parts.pcap"],
    "3 of the MME, 0 of other procedures",
)
WHOLE_ONES["bundles.pcap"] = "0 of the MME, 0 of other procedures"
# each message but the first comes again in front of the next one, and the first and the last alone
WHOLE_ONES["sent_again.pcap"] = "0 of the MME, 0 of other procedures, 6 sent again by SCTP"

OTHERS: Dict[str, Tuple[Lines, str]] = {
    "known_ports.pcap": ([(it, 0) for it in range(1, 7)], "0 of the MME, 0 of other procedures"),
    # the second association has the next free number
    "two_addresses.pcap": ([*ATTACH, (2, 0)], "0 of the MME, 0 of other procedures"),
    "one_address.pcap": ([(1, 0), (2, 0), (3, 0), (1, 1), (2, 1), (3, 1)], "0 of the MME, 0 of other procedures"),
    # as they came: 0, 2, that of stream 2, 3, that of station 2, 1, the unordered one; 2 and 3 wait for 1
    "out_of_order.pcap": ([(1, 0), (1, 4), (2, 0), (1, 1), (1, 2), (1, 3), (1, 5)], "0 of the MME, 0 of other procedures"),
    "payloads.pcap": ([(1, 0), (1, 1), (1, 2)], "0 of the MME, 0 of other procedures, 5 of other payload protocols"),
}

CUT_SHORT = "appears to have been cut short in the middle of a packet."
# What something is missing from: the lines, what was left out, what is said of the end.
MISSING: Dict[str, Tuple[Lines, List[str], str]] = {
    # the fourth message, which was cut, came again; the fifth waited for it. In their headers: a chunk of data, the header of SCTP, and what stands behind a chunk
    # that holds no data
    "snap.pcap": (
        [(1, 0), (1, 2), (1, 3), (1, 4)],
        ["0 of the MME", "0 of other procedures", "1 cut by the snap length", "3 cut by the snap length within their headers", "1 of other payload protocols"],
        "",
    ),
    "cut_file.pcap": (ATTACH[:-1], ["3 of the MME", "0 of other procedures"], CUT_SHORT),
    "cut_file.pcapng": (ATTACH[:-1], ["3 of the MME", "0 of other procedures"], CUT_SHORT),
    "reasons.pcap": (
        [(1, 0)],
        ["1 of the MME", "1 of other procedures", "1 too long for a line", "1 sent again by SCTP", "1 of other payload protocols", "1 in chunks of the kind I-DATA"]
        + ["1 in packets whose chunks do not end where they say", "1 in parts of which others are missing"]
        + ["1 IP packets of which fragments are missing or cut"],
        "",
    ),
    # a link whose frames are SCTP
    "bare_sctp.pcap": ([], ["0 of the MME", "0 of other procedures", "1 frames whose SCTP stands neither in IP nor in UDP at port 9899"], ""),
}

ATTACH_FRAMES = {"ethernet.pcap": [1, 3, 5, 7, 8, 9], "bundles.pcap": [1, 1, 2, 2, 3, 3], "out_of_order.pcap": [1, 3, 5, 6, 2, 4, 7]}


@lru_cache(maxsize=None)
def trace_at(name: str) -> Trace:
    """The trace of a capture, which is read once for all tests."""
    return trace_of(read_capture(str(FOLDER / name), Quiet()))


def lines_of(lines: Lines) -> List[str]:
    return [f"{station} {UP[number].hex()}" for station, number in lines]


class Files(unittest.TestCase):
    def test_each_is_what_the_script_makes(self) -> None:
        self.assertEqual({it.name: it.read_bytes() for it in FOLDER.iterdir()}, CAPTURES)

    def test_each_is_expected_here(self) -> None:
        self.assertEqual(sorted(CAPTURES), sorted([*WHOLE_ONES, *OTHERS, *MISSING]))


@needs("tshark")
class Traces(unittest.TestCase):
    def trace(self, name: str) -> "Tuple[List[str], List[str], str, bool]":
        trace = trace_at(name)
        lines = [it for it in trace.lines if not it.startswith("#")]
        self.assertEqual(len(lines), trace.pdus)
        return lines, trace.told_left_out()[len("left out: ") :].split(", "), trace.end, trace.is_missing_lines()

    def test_what_is_whole(self) -> None:
        for name, left_out in WHOLE_ONES.items():
            self.assertEqual(self.trace(name), (lines_of(ATTACH), left_out.split(", "), "", False), name)

    def test_stations_order_and_payloads(self) -> None:
        for name, (lines, left_out) in OTHERS.items():
            self.assertEqual(self.trace(name), (lines_of(lines), left_out.split(", "), "", False), name)

    def test_what_is_missing_is_told_by_its_cause(self) -> None:
        for name, (lines, left_out, end) in MISSING.items():
            found, told_left_out, told_end, is_missing = self.trace(name)
            self.assertEqual((found, is_missing), (lines_of(lines), True), name)
            self.assertEqual(sorted(told_left_out), sorted(left_out), name)
            self.assertEqual(told_end, f'The file "{FOLDER / name}" {end}' if end else "")

    def test_frames_and_times(self) -> None:
        for name, frames in ATTACH_FRAMES.items():
            comments = [it for it in trace_at(name).lines if it.startswith("#")]
            self.assertEqual([it.split(" at ")[0] for it in comments], [f"# frame {it}" for it in frames])
        self.assertEqual(trace_at("nanosecond.pcap").lines[2], "# frame 3 at 2.000000002")


def packets(*octets: bytes, source: str = STATION) -> List[Packet]:
    return [Packet(str(at), "0", source, it, len(it)) for at, it in enumerate(octets, 1)]


class Sctp(unittest.TestCase):
    def taken(self, given: List[Packet]) -> "Tuple[List[bytes], Dict[str, int]]":
        messages, left_out = messages_of(given)
        return [it.message for it in messages], {what: number for what, number in left_out.items() if number}

    def test_numbers_begin_anew(self) -> None:
        # the last two numbers of a stream, and the first two behind them, in the order 3, 1, 4, 2; transmission numbers too
        at = {it: sctp(data(2**32 - 2 + it, 2**16 - 2 + it, bytes([it]))) for it in (0, 1, 2, 3)}
        self.assertEqual(self.taken(packets(at[2], at[0], at[3], at[1])), ([bytes([it]) for it in range(4)], {}))
        parts = [sctp(data(2**32 - 1 + at, 0, bytes([at]), flags)) for at, flags in enumerate((BEGINS, 0, ENDS))]
        for order in ((0, 1, 2), (2, 1, 0), (1, 2, 0)):
            self.assertEqual(self.taken(packets(*(parts[it] for it in order))), ([bytes([0, 1, 2])], {}))

    def test_a_number_that_never_comes_holds_nothing_up(self) -> None:
        self.assertEqual(self.taken(packets(*(sctp(data(it, it, bytes([it]))) for it in (1, 2, 4, 5)))), ([bytes([it]) for it in (1, 2, 4, 5)], {}))

    def test_each_way_and_each_stream_has_its_own_numbers(self) -> None:
        given = packets(sctp(data(5, 5, b"a")), sctp(data(4, 4, b"b", stream=2)), sctp(data(4, 4, b"c"), tag=1), sctp(data(5, 0, b"d"), port=9))
        self.assertEqual(self.taken(given), ([b"a", b"b", b"c", b"d"], {}))

    def test_parts_of_two_messages_are_not_joined(self) -> None:
        given = packets(*(sctp(data(it, 0, b"x", flags)) for it, flags in ((1, BEGINS), (2, BEGINS), (4, ENDS), (5, WHOLE))))
        self.assertEqual(self.taken(given), ([b"x"], {"in parts of which others are missing": 3}))

    def test_every_front_of_a_packet_is_taken(self) -> None:
        whole = sctp(data(1, 0, UP[0]), data(2, 1, UP[1], payload=27), data(3, 2, UP[2]))
        for kept in range(len(whole)):
            _, left_out = messages_of([Packet("1", "0", MME, whole[:kept], len(whole))])
            self.assertEqual(sum(left_out.values()) > 0, True, kept)
            messages_of([Packet("1", "0", MME, whole[:kept], kept)])


@needs("program", "tshark")
class Tool(InFolder):
    def back(self, *words: object, given: bytes = b"") -> "Tuple[int, List[str], List[str]]":
        done = run("pcap2case", *words, given=given)
        lines = done.stdout.decode().split("[trace]\n")[1].splitlines() if done.stdout else []
        return done.returncode, [it for it in lines if not it.startswith("#")], told(done)

    def test_the_status_tells_what_is_missing(self) -> None:
        for name, (lines, _, end) in MISSING.items():
            if not lines:
                self.refused("no S1AP in this capture; left out: 0 of the MME", "pcap2case", FOLDER / name, "-", given=SUBSCRIBERS)
                continue
            status, found, said = self.back(FOLDER / name, "-", given=SUBSCRIBERS)
            self.assertEqual((status, found), (1, lines_of(lines)), name)
            self.assertEqual(len(said), 2 if end else 1)
        self.assertEqual(self.back(FOLDER / "payloads.pcap", "-", given=SUBSCRIBERS)[0], 0)

    def test_standard_input_is_a_capture(self) -> None:
        rows = self.file("rows", SUBSCRIBERS)
        for octets in (CAPTURES["vlan.pcap"], CAPTURES["pcapng.pcapng"], gzip.compress(CAPTURES["raw.pcap"])):
            self.assertEqual(self.back("-", rows, given=octets)[:2], (0, lines_of(ATTACH)))
        status, found, said = self.back("-", rows, given=CAPTURES["cut_file.pcap"])
        self.assertEqual((status, found), (1, lines_of(ATTACH[:-1])))
        self.assertEqual(said[1], f'pcap2case: what is whole was taken: The file "standard input" {CUT_SHORT}')
        self.refused("standard input: no capture", "pcap2case", "-", rows, given=b"hello\n")
        self.refused("one file alone", "pcap2case", "-", "-", given=SUBSCRIBERS)

    def test_a_capture_of_which_nothing_is_whole(self) -> None:
        capture = self.file("capture", CAPTURES["ethernet.pcap"][:90])
        self.refused("no S1AP", "pcap2case", capture, "-", given=SUBSCRIBERS)
