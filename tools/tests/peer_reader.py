"""Messages of GTPv2-C and of Diameter S6a, read and written again: what `show` prints of octets with `--kind=1` and `--kind=2`.

It shares no code and no tables with the program. It rests on the standards: for GTPv2-C on 3GPP TS 29.274, 5.1 (the header), 6.1 (types of messages), 7.2
(which IEs a message has) and 8 (what they hold); for Diameter on RFC 6733, 3 (the header), 4.1 (AVPs) and 7.1 (results), and TS 29.272, 7.2 and 7.3. What of
them is read, what is refused, at which place and in which order is by docs/FORMATS.md, "GTPv2-C" and "Diameter S6a". What stands behind an element that is not
whole, or too short for its head, is not known: a cause or a result there says nothing of an answer.

A message is a table of elements in the order of writing. The form of a value makes of its octets those that are written for it, or none where they are wrong.
"""

from __future__ import annotations

import re
from typing import Callable, Dict, Iterator, List, NamedTuple, Optional, Tuple, Union


class Refused(Exception):
    """Octets are no message: the number and the name of the reason, the type or code that it names, and the place."""

    def __init__(self, reason: str, place: int, named: Optional[int] = None) -> None:
        super().__init__(f"{reason} at {place}" if named is None else f"{reason} {named} at {place}")


TRUNCATED, TRAILING = "1 Truncated", "13 TrailingBytes"

# What tells apart elements of one type: the instance of an IE, the vendor of an AVP, or none.
Mark = Optional[int]
Key = Tuple[int, Mark]
Form = Callable[[bytes], Optional[bytes]]


class Element(NamedTuple):
    """An element in the octets of a message: where it begins, and its value."""

    kind: int
    mark: Mark
    place: int
    value_at: int
    value_end: int


class Row(NamedTuple):
    """An element of a table: the form of its value, or the table of its group. One that is written alone has octets."""

    kind: int
    mark: Mark
    form: "Union[Form, List[Row], bytes]"


class Protocol(NamedTuple):
    """What the two differ in: how elements are read and written, why they are refused, whether a group may have no octets."""

    elements: Callable[[bytes, int, int], Iterator[Element]]
    written: Callable[[int, Mark, bytes], bytes]
    wrong: str
    repeated: str
    missing: str
    takes_empty: bool


def number_of(octets: bytes) -> int:
    return int.from_bytes(octets, "big")


def number(value: int, count: int) -> bytes:
    return value.to_bytes(count, "big")


# Elements


def judged(protocol: Protocol, table: List[Row], octets: bytes, at: int, end: int, is_needed: bool) -> Dict[Key, bytes]:
    """The elements from a place to an end, from the left to the right: what is written for each of the table that is there."""
    rows = {(it.kind, it.mark): it for it in table if not isinstance(it.form, bytes)}
    values: Dict[Key, bytes] = {}
    for element in protocol.elements(octets, at, end):
        key = element.kind, element.mark
        if key in values:
            raise Refused(protocol.repeated, element.place, element.kind)
        if key in rows:
            values[key] = value_of(protocol, rows[key], octets, element, is_needed)
    return values


def value_of(protocol: Protocol, row: Row, octets: bytes, element: Element, is_needed: bool) -> bytes:
    """What is written for the value of an element; of a group for its elements, of which each is needed or none."""
    value = octets[element.value_at : element.value_end]
    if isinstance(row.form, list):
        if value or protocol.takes_empty:
            values = judged(protocol, row.form, octets, element.value_at, element.value_end, is_needed)
            return whole(protocol, row.form, values, element.value_end) if is_needed else b""
    elif not isinstance(row.form, bytes):
        written = row.form(value)
        if written is not None:
            return written
    raise Refused(protocol.wrong, element.place, element.kind)


def whole(protocol: Protocol, table: List[Row], values: Dict[Key, bytes], end: int) -> bytes:
    """The elements of a table as they are written; the first that is missing is told at the end."""
    written = []
    for row in table:
        value = row.form if isinstance(row.form, bytes) else values.get((row.kind, row.mark))
        if value is None:
            raise Refused(protocol.missing, end, row.kind)
        written.append(protocol.written(row.kind, row.mark, value))
    return b"".join(written)


def first(protocol: Protocol, octets: bytes, at: int, end: int, kind: int, mark: Mark) -> bytes:
    """The value of the first such element, or none: the elements behind one that is not whole are not known."""
    try:
        for it in protocol.elements(octets, at, end):
            if (it.kind, it.mark) == (kind, mark):
                return octets[it.value_at : it.value_end]
    except Refused:
        pass
    return b""


def read_body(protocol: Protocol, table: List[Row], octets: bytes, at: int, end: int, needed: List[Row]) -> bytes:
    """The elements of a message whose length ends there, as they are written: the needed ones, all of the table or not."""
    values = judged(protocol, table, octets, at, end, needed == table)
    if len(octets) > end:
        raise Refused(TRAILING, end)
    return whole(protocol, needed, values, end)


# GTPv2-C: IEs (TS 29.274, 8.2.1)


def ies(octets: bytes, at: int, end: int) -> Iterator[Element]:
    while at < end:
        size = number_of(octets[at + 1 : at + 3])
        if at + 4 > end or at + 4 + size > end:
            raise Refused(TRUNCATED, at)
        yield Element(octets[at], octets[at + 3] & 0x0F, at, at + 4, at + 4 + size)
        at += 4 + size


def ie(kind: int, instance: Mark, value: bytes) -> bytes:
    return bytes([kind]) + number(len(value), 2) + bytes([instance or 0]) + value


GTP = Protocol(ies, ie, wrong="42 GtpValue", repeated="12 RepeatedIe", missing="11 MissingIe", takes_empty=False)

# The values of IEs: one may be longer than it is known to be, but for those whose length says what they are.


def begins(front: bytes, count: int = 0) -> Form:
    """These octets, so many others, and any behind them."""
    return lambda value: value[: len(front) + count] if value.startswith(front) and len(value) >= len(front) + count else None


def imsi_of_ie(value: bytes) -> Optional[bytes]:
    """8.3: the first digit of an octet in its low half."""
    digits = "".join(f"{it & 15:x}{it >> 4:x}" for it in value)
    return value if re.fullmatch("[0-9]{15}f", digits) else None


def cause(value: bytes) -> Optional[bytes]:
    """8.4: the cause, and an octet of flags, of which none is set."""
    return value[:2] if len(value) >= 2 and value[1] == 0 else None


def cause_of_bearer(value: bytes) -> Optional[bytes]:
    return bytes([ACCEPTED, 0]) if cause(value) else None


def access_point(value: bytes) -> Optional[bytes]:
    """8.6: one label, behind its count."""
    return value if 2 <= len(value) <= 31 and value[0] == len(value) - 1 else None


def bearer_identity(value: bytes) -> Optional[bytes]:
    """8.8: of the first connection or of the second."""
    return value[:1] if value[:1] in (b"\x05", b"\x06") else None


def quality(value: bytes) -> Optional[bytes]:
    """8.15: priority level 8 without pre-emption, QCI 9, bit rates of 0 are written."""
    return bytes([8 << 2, 9]) + bytes(20) if len(value) >= 22 else None


def tunnel(interface: int) -> Form:
    """8.22: bit 8, an IPv4 address; the interface in the six lowest ones. TEID and address."""
    return begins(bytes([0x80 | interface]), 8)


S1U_ENODEB, S1U_SGW, S11_MME, S11_SGW = 0, 1, 10, 11
EUTRAN, IPV4 = b"\x06", b"\x01"
ACCEPTED = 16

CAUSE, BEARER = Row(2, 0, cause), Row(73, 0, bearer_identity)
CAUSE_OF_BEARER = Row(2, 0, cause_of_bearer)

CREATE = [Row(1, 0, imsi_of_ie), Row(82, 0, begins(EUTRAN)), Row(87, 0, tunnel(S11_MME)), Row(71, 0, access_point), Row(99, 0, begins(IPV4))]
CREATE += [Row(79, 0, begins(IPV4 + bytes(4))), Row(72, 0, begins(b"", 8)), Row(93, 0, [BEARER, Row(80, 0, quality)])]
CREATED = [CAUSE, Row(87, 0, tunnel(S11_SGW)), Row(79, 0, begins(IPV4, 4)), Row(93, 0, [BEARER, CAUSE_OF_BEARER, Row(87, 0, tunnel(S1U_SGW))])]
MODIFY = [Row(93, 0, [BEARER, Row(87, 0, tunnel(S1U_ENODEB))])]
MODIFIED = [CAUSE, Row(93, 0, [BEARER, CAUSE_OF_BEARER])]

# Create Session (7.2.1, 7.2.2), Modify Bearer (7.2.7, 7.2.8), Delete Session (7.2.9.1, 7.2.10.1), Release Access Bearers (7.2.21, 7.2.22).
GTP_MESSAGES: Dict[int, List[Row]] = {32: CREATE, 33: CREATED, 34: MODIFY, 35: MODIFIED, 36: [BEARER], 37: [CAUSE], 170: [], 171: [CAUSE]}


def gtp_head(octets: bytes) -> Tuple[int, int]:
    """5.1: the type of the message, and where it ends."""
    if not octets:
        raise Refused(TRUNCATED, 0)
    if octets[0] != 2 << 5 | 1 << 3:
        raise Refused("40 GtpHeader", 0)
    if len(octets) < 2:
        raise Refused(TRUNCATED, 1)
    if octets[1] not in GTP_MESSAGES:
        raise Refused("41 GtpType", 1, octets[1])
    length = number_of(octets[2:4])
    if len(octets) < 4 or length < 8 or 4 + length > len(octets):
        raise Refused(TRUNCATED, 2)
    return octets[1], 4 + length


def read_gtp(octets: bytes) -> str:
    """An answer that rejects, by the first octet of its first cause, needs that cause alone."""
    kind, end = gtp_head(octets)
    needed = table = GTP_MESSAGES[kind]
    if CAUSE in table and first(GTP, octets, 12, end, *CAUSE[:2])[:1] not in (b"", bytes([ACCEPTED])):
        needed = [CAUSE]
    body = read_body(GTP, table, octets, 12, end, needed)
    return f"gtp {kind} {(octets[:2] + number(8 + len(body), 2) + octets[4:11] + bytes(1) + body).hex()}"


# Diameter: AVPs (RFC 6733, 4.1)


def avps(octets: bytes, at: int, end: int) -> Iterator[Element]:
    while at < end:
        code, flags, size = number_of(octets[at : at + 4]), octets[at + 4 : at + 5], number_of(octets[at + 5 : at + 8])
        behind = at + size + -size % 4
        if at + 8 > end or behind > end:
            raise Refused(TRUNCATED, at)
        has_vendor = flags[0] & 0x80 != 0
        value_at = at + (12 if has_vendor else 8)
        if at + size < value_at:
            raise Refused("52 DiaAvp", at, code)
        yield Element(code, number_of(octets[at + 8 : at + 12]) if has_vendor else None, at, value_at, at + size)
        at = behind


def avp(code: int, vendor: Mark, value: bytes) -> bytes:
    head = number(code, 4) + (b"\x40" if vendor is None else b"\xc0")
    after = b"" if vendor is None else number(vendor, 4)
    return head + number(8 + len(after) + len(value), 3) + after + value + bytes(-len(value) % 4)


DIAMETER = Protocol(avps, avp, wrong="52 DiaAvp", repeated="54 RepeatedAvp", missing="53 MissingAvp", takes_empty=True)


def sized(least: int, most: int) -> Form:
    return lambda value: value if least <= len(value) <= most else None


def imsi_of_avp(value: bytes) -> Optional[bytes]:
    return value if re.fullmatch(b"[0-9]{15}", value) else None


S6A = 16777251
SUCCESS = number(2001, 4)
TGPP = 10415
UNSIGNED = sized(4, 4)

SESSION, RESULT, STATE = Row(263, None, sized(1, 1000)), Row(268, None, UNSIGNED), Row(277, None, number(1, 4))
FROM_MME = [Row(264, None, b"mme.echo"), Row(296, None, b"echo"), Row(283, None, b"echo")]
FROM_SERVER = [Row(264, None, b"hss.echo"), Row(296, None, b"echo")]
ASK = [SESSION, STATE, *FROM_MME, Row(1, None, imsi_of_avp)]
ANSWER = [SESSION, RESULT, STATE, *FROM_SERVER]
NETWORK = Row(1407, TGPP, sized(3, 3))

ONE_VECTOR = Row(1408, TGPP, avp(1410, TGPP, number(1, 4)))
FLAGS = Row(1405, TGPP, number(1 << 1 | 1 << 5, 4))
VECTOR = [Row(1447, TGPP, sized(16, 16)), Row(1448, TGPP, sized(4, 16)), Row(1449, TGPP, sized(16, 16)), Row(1450, TGPP, sized(32, 32))]
VECTORS = Row(1413, TGPP, [Row(1414, TGPP, VECTOR)])
SUBSCRIPTION = Row(1400, TGPP, [Row(1435, TGPP, [Row(516, TGPP, UNSIGNED), Row(515, TGPP, UNSIGNED)])])

# The request of a command, and its answer that succeeds: Authentication-Information (TS 29.272, 7.2.5, 7.2.6), Update-Location (7.2.3, 7.2.4), Purge-UE
# (7.2.13, 7.2.14).
DIAMETER_MESSAGES: Dict[int, Tuple[List[Row], List[Row]]] = {
    318: ([*ASK, NETWORK, ONE_VECTOR], [*ANSWER, VECTORS]),
    316: ([*ASK, NETWORK, FLAGS], [*ANSWER, SUBSCRIPTION]),
    321: (ASK, ANSWER),
}


def diameter_head(octets: bytes) -> Tuple[int, int]:
    """RFC 6733, 3: the command, and where the message ends."""
    if not octets:
        raise Refused(TRUNCATED, 0)
    if octets[0] != 1:
        raise Refused("50 DiaHeader", 0)
    length = number_of(octets[1:4])
    if len(octets) < 4 or not 20 <= length <= len(octets):
        raise Refused(TRUNCATED, 1)
    command = number_of(octets[5:8])
    if command not in DIAMETER_MESSAGES:
        raise Refused("51 DiaCommand", 5, command)
    if number_of(octets[8:12]) != S6A:
        raise Refused("50 DiaHeader", 8)
    return command, length


def read_diameter(octets: bytes) -> str:
    """An answer whose first result is not success has that result and its session alone."""
    command, end = diameter_head(octets)
    ask, answer = DIAMETER_MESSAGES[command]
    is_request = octets[4] & 0x80 != 0
    if is_request:
        table = ask
    else:
        table = answer if first(DIAMETER, octets, 20, end, *RESULT[:2]) == SUCCESS else ANSWER
    body = read_body(DIAMETER, table, octets, 20, end, table)
    flags = b"\xc0" if is_request else b"\x40"
    return f"dia {command} {(octets[:1] + number(20 + len(body), 3) + flags + octets[5:20] + body).hex()}"


# Either

READERS: Dict[int, Callable[[bytes], str]] = {1: read_gtp, 2: read_diameter}


def told(kind: int, octets: bytes) -> str:
    """What `show --kind` prints of a line with these octets, behind its number."""
    try:
        return READERS[kind](octets)
    except Refused as it:
        return f"refused {it}"
