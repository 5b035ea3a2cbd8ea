"""The values of the IEs of S1AP (TS 36.413, 9.2) that are looked at, and a message as its IEs, to be written anew."""

from __future__ import annotations

from dataclasses import dataclass
from typing import Dict, List, Optional, Tuple, Union

from .per import Broken, Reader, length_octets

MME_ID, CAUSE, ENB_ID, NAS_PDU, BIT_RATES, TAI, S_TMSI = 0, 2, 8, 26, 66, 67, 96
BEARERS, KEY, UE_IDS, CAPABILITIES = 24, 73, 99, 107
ADDED_BEARERS = 16
PAGING_ID, AREAS, INDEX, DOMAIN = 43, 46, 80, 109
MOST_BIT_RATE = 10000000000
MOST_MME_ID, MOST_ENB_ID = 2**32 - 1, 2**24 - 1
HEADER = 3  # outcome, procedure, criticality
BEFORE_ELEMENTS = 3  # the bits of the sequence, and the count of IEs
BITS_OF_IPV4 = 32

# The groups of causes, with the bits of their roots (9.2.1.3).
CAUSES: List[Tuple[str, int]] = [("radio network", 6), ("transport", 1), ("NAS", 2), ("protocol", 3), ("miscellaneous", 3)]


@dataclass(frozen=True)
class Element:
    """An IE: its id, its id and criticality as they stand, its length as it stands, its value."""

    number: int
    front: bytes
    length: bytes
    value: bytes

    def octets(self) -> bytes:
        return self.front + self.length + self.value

    def with_value(self, value: bytes) -> "Element":
        return Element(self.number, self.front, length_octets(len(value)), value)


def split(message: bytes) -> List[Element]:
    """The IEs of a message, which have to end where it does."""
    read = Reader(message)
    read.octets(HEADER)
    if read.length() != len(message) - read.bit // 8:
        raise Broken
    read.octets(BEFORE_ELEMENTS)
    elements = []
    while read.bit < 8 * len(message):
        front, at = read.octets(3), read.bit // 8
        length = read.length()
        elements.append(Element(int.from_bytes(front[:2], "big"), front, message[at : read.bit // 8], read.octets(length)))
    return elements


def joined(message: bytes, elements: List[Element]) -> bytes:
    """The message with these IEs in place of its own, as many, and its length made right."""
    read = Reader(message)
    read.octets(HEADER)
    read.length()
    content = read.octets(BEFORE_ELEMENTS) + b"".join(it.octets() for it in elements)
    return message[:HEADER] + length_octets(len(content)) + content


@dataclass(frozen=True)
class Bearer:
    """An E-RAB to be set up (9.1.3.1, 9.1.4.1): its id, its quality and priority, the gateway's address and tunnel, the NAS message that goes with it."""

    number: int
    qci: int
    priority: int
    address: bytes
    teid: int
    nas: bytes


def _bearer(value: bytes, is_added: bool) -> Bearer:
    """An item of a list. One that is added to a context always has a NAS message, and no bit that says so."""
    read = Reader(value)
    read.root()
    has_nas, _ = is_added or read.bits(1), read.bits(1)
    read.root()
    number = read.bits(4)
    read.root()
    has_rates, has_more = read.bits(1), read.bits(1)
    qci = read.octets(1)[0]
    read.root()
    has_more_of_priority, priority, _ = read.bits(1), read.bits(4), read.bits(2)
    if has_more_of_priority:
        read.extensions()
    if has_rates:
        _guaranteed(read)
    if has_more:
        read.extensions()
    read.root()
    bits = read.bits(8) + 1
    address, teid = read.octets((bits + 7) // 8), read.octets(4)
    nas = read.octets(read.length()) if has_nas else b""
    return Bearer(number, qci, priority, address, int.from_bytes(teid, "big"), nas)


def _guaranteed(read: Reader) -> None:
    """The rates of an E-RAB that has guaranteed ones (9.2.1.18), which are passed over."""
    read.root()
    has_more = read.bits(1)
    for _ in range(4):
        read.number(MOST_BIT_RATE)
    if has_more:
        read.extensions()


def bearers_of(value: bytes, is_added: bool = False) -> List[Bearer]:
    """The E-RABs of a list's value, which are to be set up with a context, or added to one."""
    read = Reader(value)
    bearers = []
    for _ in range(read.octets(1)[0] + 1):
        read.octets(3)
        bearers.append(_bearer(read.octets(read.length()), is_added))
    return bearers


def asked_bearers(elements: Dict[int, bytes]) -> List[Bearer]:
    """The E-RABs that a message asks for."""
    lists = ((BEARERS, False), (ADDED_BEARERS, True))
    return [it for number, is_added in lists if number in elements for it in bearers_of(elements[number], is_added)]


def bit_rates(value: bytes) -> Tuple[int, int]:
    """The aggregate rates down and up (9.2.1.20)."""
    read = Reader(value)
    read.root()
    read.bits(1)
    return read.number(MOST_BIT_RATE), read.number(MOST_BIT_RATE)


def cause_of(value: bytes) -> str:
    """A cause: its group, and its number there."""
    read = Reader(value)
    read.root()
    group = read.bits(3)
    if group >= len(CAUSES):
        raise Broken
    name, bits = CAUSES[group]
    return f"{name} extension {read.bits(7)}" if read.bits(1) else f"{name} {read.bits(bits)}"


Area = Tuple[bytes, int]


def _area(read: Reader) -> Area:
    read.bits(2)
    return read.octets(3), int.from_bytes(read.octets(2), "big")


def area_of(value: bytes) -> Area:
    """A tracking area (9.2.3.16): its PLMN and its code."""
    return _area(Reader(value))


def areas_of(value: bytes) -> List[Area]:
    """The tracking areas of a list's value (9.1.6)."""
    read, areas = Reader(value), []
    for _ in range(read.octets(1)[0] + 1):
        read.octets(3)
        item = Reader(read.octets(read.length()))
        item.bits(2)
        areas.append(_area(item))
    return areas


def _s_tmsi(read: Reader) -> Tuple[int, int]:
    read.bits(2)
    return read.bits(8), int.from_bytes(read.octets(4), "big")


def s_tmsi_of(value: bytes) -> Tuple[int, int]:
    """An S-TMSI (9.2.3.6): the code of its MME and its M-TMSI."""
    return _s_tmsi(Reader(value))


def paged_of(value: bytes) -> Union[str, Tuple[int, int]]:
    """Whom a paging is for (9.2.3.13): an S-TMSI, or the digits of an IMSI."""
    read = Reader(value)
    read.root()
    if not read.bits(1):
        return _s_tmsi(read)
    octets = read.octets(read.bits(3) + 3)
    return "".join(f"{it & 15:x}{it >> 4:x}" for it in octets).rstrip("f")


def with_tmsi(value: bytes, tmsi: int) -> bytes:
    """The S-TMSI with another M-TMSI."""
    return value[:2] + tmsi.to_bytes(4, "big") + value[6:]


def number_of(value: bytes, most: int) -> int:
    return Reader(value).number(most)


def ids_of(elements: Dict[int, bytes]) -> Tuple[Optional[int], Optional[int]]:
    """The MME's and the base station's number of the connection that a message is of, as far as it has them (9.2.3.3, 9.2.3.4, 9.2.3.18)."""
    if UE_IDS in elements:
        read = Reader(elements[UE_IDS])
        read.root()
        is_one = read.bits(1)
        if not is_one:
            read.bits(2)
        return read.number(MOST_MME_ID), None if is_one else read.number(MOST_ENB_ID)
    mme_id = number_of(elements[MME_ID], MOST_MME_ID) if MME_ID in elements else None
    return mme_id, number_of(elements[ENB_ID], MOST_ENB_ID) if ENB_ID in elements else None
