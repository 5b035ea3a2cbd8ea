"""Messages of S1AP in aligned PER: that octets are one, or why they are refused, and where.

It shares no code and no tables with the program. What is read, what is refused, at which place and in which order is by docs/FORMATS.md, "S1AP": ITU-T X.691
for the pieces, TS 36.413, 9.2 and 9.3, for the IEs and the messages.
"""

from __future__ import annotations

from typing import Any, Callable, Dict, List, Optional, Set

REASONS = (
    "Truncated LongLength NonZeroPadding NotMinimal OutOfRange TooLong SequenceExtension BadChoice OtherProcedure BadCriticality MissingIe RepeatedIe TrailingBytes"
).split()


class Refused(Exception):
    """Octets are no message: the reason, the place, and the procedure or IE that it names."""

    def __init__(self, reason: str, place: int, named: Optional[int] = None) -> None:
        super().__init__(reason)
        self.number = REASONS.index(reason) + 1
        self.text = f"{self.number} {reason}{'' if named is None else f' {named}'} at {place}"


class Bits:
    """Octets from a place to an end, read bit by bit."""

    def __init__(self, octets: bytes, start: int, end: int) -> None:
        self.octets, self.at, self.end = octets, 8 * start, 8 * end

    def place(self) -> int:
        return self.at // 8

    def take(self, count: int) -> int:
        if self.at + count > self.end:
            raise Refused("Truncated", self.place())
        value = 0
        for _ in range(count):
            value = 2 * value + (self.octets[self.at // 8] >> (7 - self.at % 8) & 1)
            self.at += 1
        return value

    def align(self) -> None:
        place = self.place()
        if self.at % 8 and self.take(8 - self.at % 8):
            raise Refused("NonZeroPadding", place)

    def fixed(self, count: int) -> bytes:
        self.align()
        if self.at + 8 * count > self.end:
            raise Refused("Truncated", self.place())
        start = self.place()
        self.at += 8 * count
        return self.octets[start : start + count]

    def number(self, count: int) -> int:
        return int.from_bytes(self.fixed(count), "big")

    def length(self, most: Optional[int] = None) -> int:
        """A length, of octets that are all there."""
        self.align()
        place = self.place()
        count = self.first_of_length(place)
        if most is not None and count > most:
            raise Refused("TooLong", place)
        if self.at + 8 * count > self.end:
            raise Refused("Truncated", place)
        return count

    def first_of_length(self, place: int) -> int:
        if self.at >= self.end:
            raise Refused("Truncated", place)
        first = self.take(8)
        if first < 128:
            return first
        if first >= 192:
            raise Refused("TooLong", place)
        if self.at >= self.end:
            raise Refused("Truncated", place)
        count = (first - 128) * 256 + self.take(8)
        if count < 128:
            raise Refused("LongLength", place)
        return count

    def string(self, most: Optional[int] = None) -> bytes:
        return self.fixed(self.length(most))

    def open(self, read: Optional[Reader]) -> None:
        """An open type; without a reader it is passed over."""
        count = self.length()
        start = self.place()
        self.at += 8 * count
        if read is not None:
            inner = Bits(self.octets, start, start + count)
            read(inner)
            inner.finish()

    def finish(self) -> None:
        self.align()
        if self.at < self.end:
            raise Refused("TrailingBytes", self.place())


Reader = Callable[[Bits], Any]


# Pieces


def extension(bits: Bits) -> None:
    place = bits.place()
    if bits.take(1):
        raise Refused("SequenceExtension", place)


def criticality(bits: Bits) -> None:
    place = bits.place()
    if bits.take(2) == 3:
        raise Refused("BadCriticality", place)


def below(bits: Bits, count: int, bound: int, reason: str = "OutOfRange") -> int:
    """A number of so many bits, below a bound."""
    place = bits.place()
    value = bits.take(count)
    if value >= bound:
        raise Refused(reason, place)
    return value


def large(bits: Bits, count: int, octets: int, most: int) -> int:
    """A number above 65,536 values: the count of its octets less one, then the octets, no more than it needs."""
    size = below(bits, count, octets)
    bits.align()
    place = bits.place()
    value = bits.fixed(size + 1)
    if size and not value[0]:
        raise Refused("NotMinimal", place)
    if int.from_bytes(value, "big") > most:
        raise Refused("OutOfRange", place)
    return int.from_bytes(value, "big")


def enumerated(bits: Bits, count: int, roots: int) -> None:
    """An enumeration with a mark: a root, or one of 64 others."""
    if bits.take(1):
        below(bits, 1, 1)
        bits.take(6)
    else:
        below(bits, count, roots)


def extensions(bits: Bits) -> None:
    """iE-Extensions, which are passed over."""
    bits.align()
    place = bits.place()
    count = bits.number(2)
    if count == 0xFFFF:
        raise Refused("OutOfRange", place)
    for _ in range(count + 1):
        bits.number(2)
        criticality(bits)
        bits.open(None)


def sequence(*parts: Reader) -> Reader:
    def read(bits: Bits) -> None:
        extension(bits)
        extended = bits.take(1)
        for part in parts:
            part(bits)
        if extended:
            extensions(bits)

    return read


def items(number: int, item: Reader) -> Reader:
    """A list of 1 to 256 items, each with its id."""

    def read(bits: Bits) -> None:
        for _ in range(bits.number(1) + 1):
            bits.align()
            place = bits.place()
            if bits.number(2) != number:
                raise Refused("MissingIe", place, number)
            criticality(bits)
            bits.open(item)

    return read


# Values of IEs (TS 36.413, 9.2 and 9.3)


def mme_id(bits: Bits) -> None:
    large(bits, 2, 4, 2**32 - 1)


def enb_id(bits: Bits) -> None:
    large(bits, 2, 3, 2**24 - 1)


def bit_rate(bits: Bits) -> None:
    large(bits, 3, 5, 10**10)


def cause(bits: Bits) -> None:
    below(bits, 1, 1, "BadChoice")
    group = below(bits, 3, 5, "BadChoice")
    enumerated(bits, (6, 1, 2, 3, 3)[group], (36, 2, 4, 7, 6)[group])


def plmn(bits: Bits) -> None:
    bits.fixed(3)


def cell(bits: Bits) -> None:
    bits.align()
    bits.take(28)


def mark(bits: Bits) -> None:
    below(bits, 1, 1)


def of_bits(count: int) -> Reader:
    return lambda bits: bits.take(count)


def of_octets(count: int) -> Reader:
    return lambda bits: bits.fixed(count)


def erab_id(bits: Bits) -> None:
    mark(bits)
    bits.take(4)


def address(bits: Bits) -> None:
    """A transport layer address, of which IPv4 is taken: 32 bits."""
    mark(bits)
    place = bits.place()
    if bits.take(8) != 31:
        raise Refused("OutOfRange", place)
    bits.fixed(4)


def nas_pdu(bits: Bits) -> None:
    bits.string(2048)


def qos(bits: Bits) -> None:
    extension(bits)
    mark(bits)
    extended = bits.take(1)
    bits.fixed(1)
    sequence_of_retention(bits)
    if extended:
        extensions(bits)


sequence_of_retention = sequence(of_bits(6))


def erab_to_be_set_up(bits: Bits) -> None:
    """Its NAS-PDU may be missing."""
    extension(bits)
    has_nas, extended = bits.take(1), bits.take(1)
    for part in (erab_id, qos, address, of_octets(4), *([nas_pdu] if has_nas else [])):
        part(bits)
    if extended:
        extensions(bits)


def s1ap_ids(bits: Bits) -> None:
    below(bits, 1, 1, "BadChoice")
    if bits.take(1):
        mme_id(bits)
    else:
        sequence(mme_id, enb_id)(bits)


def paging_id(bits: Bits) -> None:
    below(bits, 1, 1, "BadChoice")
    below(bits, 1, 1, "BadChoice")
    s_tmsi(bits)


tai = sequence(plmn, of_bits(16))
s_tmsi = sequence(of_bits(8), of_octets(4))
erab_set_up = sequence(erab_id, address, of_octets(4))
erab_to_add = sequence(erab_id, qos, address, of_octets(4), nas_pdu)

IES: Dict[int, Reader] = {
    0: mme_id,
    2: cause,
    8: enb_id,
    16: items(17, erab_to_add),
    24: items(52, erab_to_be_set_up),
    26: nas_pdu,
    28: items(39, erab_set_up),
    43: paging_id,
    46: items(47, sequence(tai)),
    51: items(50, erab_set_up),
    66: sequence(bit_rate, bit_rate),
    67: tai,
    73: of_octets(32),
    74: lambda bits: bits.string(),
    80: of_bits(10),
    96: s_tmsi,
    99: s1ap_ids,
    100: sequence(plmn, cell),
    107: sequence(mark, of_bits(16), mark, of_bits(16)),
    109: of_bits(1),
    134: lambda bits: enumerated(bits, 3, 5),
}

# The messages (TS 36.413, 9.1): initiating (0), successful (1) or not (2), the procedure, and the IEs; one with ? may be missing.
MESSAGES = {
    (0, 12): "8 26 67 100 134 96?",
    (0, 13): "0 8 26 100 67",
    (0, 11): "0 8 26",
    (0, 9): "0 8 66 24 107 73",
    (1, 9): "0 8 51",
    (2, 9): "0 8 2",
    (0, 18): "0 8 2",
    (0, 23): "99 2",
    (1, 23): "0 8",
    (0, 22): "0 8 74",
    (0, 10): "80 43 109 46",
    (0, 5): "0 8 66? 16",
    (1, 5): "0 8 28?",
}


def ies_of(bits: Bits, wanted: List[int]) -> Set[int]:
    """Which of the IEs of a message are there, in any order, each once; others are passed over."""
    seen: Set[int] = set()
    for _ in range(bits.number(2)):
        place = bits.place()
        number = bits.number(2)
        if number in seen:
            raise Refused("RepeatedIe", place, number)
        criticality(bits)
        bits.open(IES[number] if number in wanted else None)
        if number in wanted:
            seen.add(number)
    return seen


def read(octets: bytes) -> None:
    """Passes octets that are a message, and else says why they are none."""
    bits = Bits(octets, 0, len(octets))
    below(bits, 1, 1, "BadChoice")
    kind = below(bits, 2, 3, "BadChoice")
    code = bits.number(1)
    if (kind, code) not in MESSAGES:
        raise Refused("OtherProcedure", 1, code)
    criticality(bits)
    count = bits.length()
    inner = Bits(octets, bits.place(), bits.place() + count)
    bits.at += 8 * count
    rows = MESSAGES[kind, code].split()
    extension(inner)
    seen = ies_of(inner, [int(it.rstrip("?")) for it in rows])
    inner.finish()
    bits.finish()
    for row in rows:
        if not row.endswith("?") and int(row) not in seen:
            raise Refused("MissingIe", len(octets), int(row))


def refusal_of(octets: bytes) -> Optional[Refused]:
    """Why octets are no message, or None of a message."""
    try:
        read(octets)
    except Refused as refused:
        return refused
    return None
