"""Messages of the peers, and octets that are nearly messages, as `show --kind` tells of them, beside what an independent reader (`peer_reader`) tells.

The messages are those worked by hand in crates/wire_cases. One of each kind has each of its octets set to each value, all others to some. All are cut behind
each octet, as they are and with their length put right, and have each element doubled, left out, swapped with the next, emptied, made an octet shorter and
longer, in groups too, with all lengths put right. These, and what is refused there, have an octet set to a drawn value as well.
"""

import random
import re
import unittest
from itertools import islice
from typing import Callable, Dict, Iterable, Iterator, List, Tuple

from peer_reader import Element, Refused, avps, ies, number, told
from support import TOOLS, needs, run_program

TABLES = TOOLS.parent / "crates" / "wire_cases" / "src"
GTP, DIAMETER = 1, 2
NAMES = {GTP: "gtp2", DIAMETER: "dia"}
LINES = 50_000  # of a trace
DIFFERENCES = 10
EXPERIMENTAL_RESULT = bytes.fromhex("0000012940000020")


def by_hand(protocol: int, table: str) -> List[Tuple[bytes, str]]:
    """A table of crates/wire_cases: octets, and what is told of them."""
    text = (TABLES / f"{NAMES[protocol]}_{table}.rt").read_text()
    return [(bytes.fromhex(digits), said) for digits, said in re.findall("^((?:[0-9a-f]{2})+) (.+)$", text, re.MULTILINE)]


def worked(protocol: int) -> Dict[str, List[bytes]]:
    """The messages of each kind as they are written; of answers that reject a kind is a type or a command."""
    messages: Dict[str, List[bytes]] = {}
    for octets, said in by_hand(protocol, "worked"):
        name, kind = re.findall(r"body: (\w+)(?: { (?:kind|command): (\d+))?", said)[0]
        messages.setdefault(f"{name} {kind}".strip(), []).append(octets)
    return messages


KINDS = {
    GTP: "Create Created Modify Modified Delete Deleted Release Released".split(" ") + [f"Rejected {it}" for it in (33, 35, 37, 171)],
    DIAMETER: "AskVectors AskLocation AskPurge Vectors Located Purged".split(" ") + [f"Rejected {it}" for it in (318, 316, 321)],
}


def one_of_each(protocol: int, *kinds: str) -> List[bytes]:
    return [messages[0] for kind, messages in worked(protocol).items() if kind in kinds]


def others(protocol: int) -> List[bytes]:
    """The further messages of each kind, those in other forms than the written one, and an answer with Experimental-Result."""
    further = [octets for messages in worked(protocol).values() for octets in messages[1:]]
    without_result = [octets for octets, _ in by_hand(protocol, "refused") if EXPERIMENTAL_RESULT in octets]
    return further + [octets for octets, _ in by_hand(protocol, "forms")] + without_result


# Octets near a message


def each_value(_: int) -> Iterable[int]:
    return range(256)


def some_values(octet: int) -> Iterable[int]:
    """Those with one other bit, the next ones, and both ends."""
    return sorted({*(octet ^ 1 << bit for bit in range(8)), (octet + 1) % 256, (octet - 1) % 256, 0, 255} - {octet})


def changed(messages: Iterable[bytes], values: Callable[[int], Iterable[int]]) -> Iterator[bytes]:
    for octets in messages:
        for place, old in enumerate(octets):
            for value in values(old):
                yield octets[:place] + bytes([value]) + octets[place + 1 :]


def with_length(protocol: int, octets: bytes) -> bytes:
    """A message, or the beginning of one, with its length put right."""
    if protocol == GTP:
        return octets[:2] + number(len(octets) - 4, 2) + octets[4:]
    return octets[:1] + number(len(octets), 3) + octets[4:]


def cut(protocol: int, messages: Iterable[bytes]) -> Iterator[bytes]:
    for octets in messages:
        for left in range(1, len(octets)):
            yield octets[:left]
            if left >= 4:
                yield with_length(protocol, octets[:left])


HEADS = {GTP: 12, DIAMETER: 20}
GROUPS = {GTP: {93}, DIAMETER: {1400, 1408, 1413, 1414, 1435}}


def elements_of(protocol: int, octets: bytes, at: int, end: int) -> List[Tuple[Element, bytes]]:
    """Elements, and their octets with their padding."""
    found = list((ies if protocol == GTP else avps)(octets, at, end))
    ends = [it.place for it in found[1:]] + [end]
    return [(it, octets[it.place : behind]) for it, behind in zip(found, ends)]


def with_value(protocol: int, element: Element, octets: bytes, value: bytes) -> bytes:
    """An element with another value."""
    head = octets[: element.value_at - element.place]
    if protocol == GTP:
        return head[:1] + number(len(value), 2) + head[3:] + value
    return head[:5] + number(len(head) + len(value), 3) + head[8:] + value + bytes(-len(value) % 4)


def edits(protocol: int, octets: bytes, at: int, end: int) -> Iterator[bytes]:
    """The elements from a place to an end, edited."""
    elements = elements_of(protocol, octets, at, end)
    parts = [it for _, it in elements]
    yield b"".join(parts[::-1])
    for index, (element, part) in enumerate(elements):
        before, behind = b"".join(parts[:index]), b"".join(parts[index + 1 :])
        value = octets[element.value_at : element.value_end]
        yield before + part + part + behind
        yield before + behind + part
        yield before + behind
        yield before + b"".join(parts[index + 1 : index + 2]) + part + b"".join(parts[index + 2 :])
        for other in (value[:-1], value + b"\0", b""):
            yield before + with_value(protocol, element, part, other) + behind
        for other in edits_in(protocol, octets, element):
            yield before + with_value(protocol, element, part, other) + behind


def edits_in(protocol: int, octets: bytes, element: Element) -> Iterator[bytes]:
    """The elements of a group, edited; of no group, and of one that is none of elements, there are none."""
    try:
        if element.kind in GROUPS[protocol]:
            yield from edits(protocol, octets, element.value_at, element.value_end)
    except Refused:
        pass


def edited(protocol: int, messages: Iterable[bytes]) -> Iterator[bytes]:
    for octets in messages:
        head = octets[: HEADS[protocol]]
        for body in edits(protocol, octets, len(head), len(octets)):
            yield with_length(protocol, head + body)
            yield with_length(protocol, head + body) + b"\0"


def drawn(messages: Iterable[bytes], times: int) -> Iterator[bytes]:
    """Each of them so many times with an octet behind the first set to a value, both drawn."""
    draws = random.Random(1)
    for octets in messages:
        for _ in range(times if len(octets) > 1 else 0):
            place = draws.randrange(1, len(octets))
            yield octets[:place] + bytes([draws.randrange(256)]) + octets[place + 1 :]


# The reader alone

# A Modify Bearer Request: its group at 12, in it the bearer at 16 and the tunnel at 21, up to 34. A Purge-UE-Answer: its session at 20, padded from 29 on, and
# its result at 32, up to 44.
REQUEST = "4822001e00000001000002005d0012004900010005570009008000000002c0a80002"
ANSWER = "0100002c400001410100002300000001000000010000010740000009730000000000010c4000000c000007d1"
# Purged, and with the result 2002, as they are written: with all that is not read.
ASIDE = "000001154000000c00000001" "00000108400000106873732e6563686f" "000001284000000c6563686f"
HEAD = "01000054400001410100002300000001000000010000010740000009730000000000010c4000000c"
PURGED, NOT_PURGED = HEAD + "000007d1" + ASIDE, HEAD + "000007d2" + ASIDE

# What is told of them with one octet set to a value: the place, the value, what is told.
BY_HAND = {
    (GTP, REQUEST): f"""
        0 40 refused 40 GtpHeader at 0
        1 26 refused 41 GtpType 38 at 1
        1 20 refused 11 MissingIe 80 at 34
        1 21 refused 42 GtpValue 87 at 21
        1 aa gtp 170 48aa00080000000100000200
        3 07 refused 1 Truncated at 2
        3 08 refused 13 TrailingBytes at 12
        3 1f refused 1 Truncated at 2
        11 ff gtp 34 {REQUEST}
        12 5c refused 11 MissingIe 93 at 34
        14 00 refused 42 GtpValue 93 at 12
        14 05 refused 11 MissingIe 87 at 21
        15 f0 gtp 34 {REQUEST}
        15 01 refused 11 MissingIe 93 at 34
        18 08 refused 1 Truncated at 28
        20 06 gtp 34 {REQUEST[:40]}06{REQUEST[42:]}
        20 07 refused 42 GtpValue 73 at 16
        21 49 refused 12 RepeatedIe 73 at 21
        25 81 refused 42 GtpValue 87 at 21
        33 03 gtp 34 {REQUEST[:66]}03
    """,
    (DIAMETER, ANSWER): f"""
        0 02 refused 50 DiaHeader at 0
        3 13 refused 1 Truncated at 1
        3 14 refused 13 TrailingBytes at 20
        4 80 refused 53 MissingAvp 1 at 44
        4 7f dia 321 {PURGED}
        7 42 refused 51 DiaCommand 322 at 5
        7 3e refused 53 MissingAvp 1413 at 44
        11 24 refused 50 DiaHeader at 8
        24 80 refused 52 DiaAvp 263 at 20
        27 08 refused 52 DiaAvp 263 at 20
        27 0d refused 1 Truncated at 36
        30 ff dia 321 {PURGED}
        35 07 refused 54 RepeatedAvp 263 at 32
        36 80 refused 53 MissingAvp 268 at 44
        39 0d refused 1 Truncated at 32
        43 d2 dia 321 {NOT_PURGED}
    """,
}

# Which cause or result says by which table an answer is read: the first, where it is known, also of wrong form. Each octets, and what is told of them.
SESSION, LACKING = "000001074000000973000000", "00000578c000000c000028af"
CORNERS = {
    GTP: """
        4821001d0000000100000500020002001000 5d00050049000100 05020002004000 refused 11 MissingIe 2 at 27
        4821001d0000000100000500020002004000 5d00050049000100 05020002001000 refused 12 RepeatedIe 2 at 27
        482100170000000100000500 5d0005004900010005 020002004001 refused 42 GtpValue 2 at 21
        482100170000000100000500 5d0005004900010005 020002001001 refused 11 MissingIe 2 at 21
        482100150000000100000500 5d0005004900010005 02000000 refused 11 MissingIe 2 at 21
    """,
    DIAMETER: f"""
        010000444000013c010000230000000100000001 {SESSION} 0000010c4000000c000007d1 {LACKING} 0000010c4000000c00001394 refused 53 MissingAvp 1435 at 56
        010000444000013c010000230000000100000001 {SESSION} 0000010c4000000c00001394 {LACKING} 0000010c4000000c000007d1 refused 54 RepeatedAvp 268 at 56
        010000384000013c010000230000000100000001 {SESSION} {LACKING} 0000010c4000000b0007d100 refused 52 DiaAvp 268 at 44
        010000404000013c010000230000000100000001 {SESSION} {LACKING} 0000000040000004 0000010c4000000c000007d1 refused 52 DiaAvp 0 at 44
    """,
}


def corners(protocol: int) -> List[Tuple[bytes, str]]:
    lines = (re.split(" (?=refused)", it.strip()) for it in CORNERS[protocol].strip().split("\n"))
    return [(bytes.fromhex(digits), said) for digits, said in lines]


class TheReader(unittest.TestCase):
    """What it tells is what was worked by hand."""

    def test_changed_octets(self) -> None:
        for (protocol, message), table in BY_HAND.items():
            for place, value, said in (line.split(" ", 2) for line in table.split("\n        ")[1:]):
                octets = bytearray.fromhex(message)
                octets[int(place)] = int(value, 16)
                self.assertEqual(told(protocol, bytes(octets)), said.rstrip(), f"{place} {value}")

    def test_the_tables_of_the_crate(self) -> None:
        for protocol in NAMES:
            for octets, _ in by_hand(protocol, "worked"):
                self.assertEqual(told(protocol, octets).split(" ")[-1], octets.hex())
            for octets, form in by_hand(protocol, "forms"):
                self.assertEqual(told(protocol, octets).split(" ")[-1], form)
            for octets, refusal in by_hand(protocol, "refused"):
                self.assertEqual(told(protocol, octets), f"refused {refusal}")
            for octets, said in corners(protocol):
                self.assertEqual(told(protocol, octets), said)
            self.assertEqual(sorted(worked(protocol)), sorted(KINDS[protocol]))
            self.assertGreater(len(by_hand(protocol, "refused")), 100)
            self.assertGreater(len(by_hand(protocol, "forms")), 30)
        self.assertTrue(any(EXPERIMENTAL_RESULT in it for it in others(DIAMETER)))


# The program beside the reader


class Compared(unittest.TestCase):
    """Octets of a protocol as the program tells of them, line by line beside what the reader tells."""

    def compare(self, protocol: int, messages: Iterable[bytes]) -> None:
        differences: List[str] = []
        left = iter(messages)
        for some in iter(lambda: list(islice(left, LINES)), []):
            case = "".join(["[trace]\n", *(f"1 {it.hex()}\n" for it in some)])
            printed = run_program("show", case.encode(), f"--kind={protocol}").decode().splitlines()
            self.assertEqual(len(printed), len(some))
            for line, (octets, said) in enumerate(zip(some, printed), 2):
                wanted = f"line {line} {told(protocol, octets)}"
                if said != wanted and len(differences) < DIFFERENCES:
                    differences.append(f"{octets.hex()}\n    the program: {said}\n    the reader:  {wanted}")
        self.assertFalse(differences, "\n" + "\n".join(differences))

    def compare_others(self, protocol: int) -> None:
        """Octets near messages of each kind, and those that are refused."""
        messages = one_of_each(protocol, *KINDS[protocol]) + others(protocol)
        wrong = [octets for octets, _ in by_hand(protocol, "refused") + corners(protocol)]
        self.compare(protocol, wrong)
        self.compare(protocol, cut(protocol, messages))
        self.compare(protocol, edited(protocol, messages))
        self.compare(protocol, drawn(edited(protocol, messages), 4))
        self.compare(protocol, drawn(wrong, 20))


@needs("program")
class GtpRequests(Compared):
    def test_each_octet_set_to_each_value(self) -> None:
        self.compare(GTP, changed(one_of_each(GTP, "Create", "Modify", "Delete", "Release"), each_value))


@needs("program")
class GtpAnswers(Compared):
    def test_each_octet_set_to_each_value(self) -> None:
        self.compare(GTP, changed(one_of_each(GTP, "Created", "Modified", "Deleted", "Released", *KINDS[GTP][8:]), each_value))


@needs("program")
class GtpOthers(Compared):
    def test_some_values(self) -> None:
        self.compare(GTP, changed(others(GTP), some_values))

    def test_cuts_edits_and_what_is_refused(self) -> None:
        self.compare_others(GTP)


@needs("program")
class DiameterRequests(Compared):
    def test_each_octet_set_to_each_value(self) -> None:
        self.compare(DIAMETER, changed(one_of_each(DIAMETER, *KINDS[DIAMETER][:3]), each_value))


@needs("program")
class DiameterAnswers(Compared):
    def test_each_octet_set_to_each_value(self) -> None:
        self.compare(DIAMETER, changed(one_of_each(DIAMETER, *KINDS[DIAMETER][3:6]), each_value))


@needs("program")
class DiameterRejections(Compared):
    def test_each_octet_set_to_each_value(self) -> None:
        self.compare(DIAMETER, changed(one_of_each(DIAMETER, *KINDS[DIAMETER][6:]), each_value))


@needs("program")
class DiameterOthers(Compared):
    def test_some_values(self) -> None:
        self.compare(DIAMETER, changed(others(DIAMETER), some_values))

    def test_cuts_edits_and_what_is_refused(self) -> None:
        self.compare_others(DIAMETER)
