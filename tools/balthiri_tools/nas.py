"""NAS messages of EPS (TS 24.301) as a capture has them: what protects them, and the fields that are looked at."""

from __future__ import annotations

from dataclasses import dataclass
from typing import Dict, Iterator, Optional, Tuple

from .messages import ACTIVATE_REQUEST, EMM, NAS_NAMES, SERVICE_REQUEST, SESSION_MANAGEMENT, identity_of_nas, imsi_of, without_protection

ATTACH_REQUEST, ATTACH_ACCEPT, DETACH_REQUEST, UPDATE_REQUEST, UPDATE_ACCEPT = 0x41, 0x42, 0x45, 0x48, 0x49
AUTHENTICATION_REQUEST, AUTHENTICATION_RESPONSE, AUTHENTICATION_REJECT = 0x52, 0x53, 0x54
IDENTITY_RESPONSE, SECURITY_MODE_COMMAND = 0x56, 0x5D
REJECTS = (0x44, 0x4B, 0x4E)  # of an attach, of an update of the area, of a service
AREA_NOT_ALLOWED = 12
CIPHERED = (0x27, 0x47)  # the first octets of messages that are ciphered with the algorithm in use
GUTI_IEI = 0x50

# The options that are neither of one octet nor behind a count in one octet (8.2): how many octets they have.
FIXED_OPTIONS: Dict[int, int] = {0x13: 6, 0x53: 2, 0x17: 2, 0x59: 2, 0x5A: 2}


@dataclass(frozen=True)
class Nas:
    """A NAS message: its octets as they were carried, and those of the message in it, which are none where it cannot be read."""

    carried: bytes
    plain: bytes

    @property
    def kind(self) -> Optional[int]:
        """The message type, where it is a message of mobility management that can be read; for a SERVICE REQUEST its first octet."""
        if self.plain[:1] == bytes([SERVICE_REQUEST]):
            return SERVICE_REQUEST
        return self.plain[1] if len(self.plain) > 1 and self.plain[0] == EMM else None

    @property
    def session_kind(self) -> Optional[Tuple[int, int]]:
        """The bearer identity and the message type (9.3.2, 9.8), where it is a message of session management that can be read."""
        return (self.plain[0] >> 4, self.plain[2]) if len(self.plain) > 2 and self.plain[0] & 15 == SESSION_MANAGEMENT else None

    @property
    def is_ciphered(self) -> bool:
        return bool(self.carried) and not self.plain


def nas_read(carried: bytes, algorithm: Optional[int]) -> Nas:
    """A NAS message behind a ciphering algorithm (EEA0 is 0), which may not be known: then what looks like a plain message is one."""
    plain = without_protection(carried)
    if carried[:1] and carried[0] in CIPHERED:
        looks_plain = len(plain) > 1 and (plain[0] == EMM and plain[1] in NAS_NAMES or plain[0] & 15 == SESSION_MANAGEMENT)
        if algorithm or algorithm is None and not looks_plain:
            return Nas(carried, b"")
    return Nas(carried, plain)


def imsi_in(nas: Nas) -> Optional[str]:
    """The IMSI that a message of a device says, where it says one."""
    imsi = identity_of_nas(nas.plain).imsi
    if nas.kind == IDENTITY_RESPONSE and len(nas.plain) > 2:
        identity = nas.plain[3 : 3 + nas.plain[2]]
        imsi = imsi_of(identity) if len(identity) == 8 and identity[0] & 15 == 9 else None
    return imsi if imsi and imsi.isdecimal() else None


def _place_of_guti(nas: Nas) -> int:
    """Where the six octets of a GUTI behind its first begin in the message of a device; 0 where it has none."""
    return 5 if identity_of_nas(nas.plain).tmsi is not None else 0


def guti_in(nas: Nas) -> Optional[Tuple[int, int]]:
    """The code of the MME and the M-TMSI of the GUTI by which a device names itself."""
    at = _place_of_guti(nas)
    return (nas.plain[at + 5], int.from_bytes(nas.plain[at + 6 : at + 10], "big")) if at else None


def with_guti(nas: Nas, tmsi: int) -> bytes:
    """The message as it is carried, with another M-TMSI in its GUTI."""
    at = len(nas.carried) - len(nas.plain) + _place_of_guti(nas) + 6
    return nas.carried[:at] + tmsi.to_bytes(4, "big") + nas.carried[at + 4 :]


def response_in(nas: Nas) -> bytes:
    """RES of an AUTHENTICATION RESPONSE."""
    return nas.plain[3 : 3 + nas.plain[2]] if nas.kind == AUTHENTICATION_RESPONSE and len(nas.plain) > 2 else b""


def with_response(nas: Nas, response: bytes) -> bytes:
    """The AUTHENTICATION RESPONSE as it is carried, with another RES."""
    front = nas.carried[: len(nas.carried) - len(nas.plain)]
    return front + nas.plain[:2] + bytes([len(response)]) + response + nas.plain[3 + nas.plain[2] :]


def options_of(octets: bytes) -> Iterator[Tuple[int, bytes]]:
    """The optional IEs (TS 24.007, 11.2.1.1), each by its identifier with its value, as far as they stand whole."""
    at = 0
    while at < len(octets):
        identifier = octets[at]
        if identifier & 0x80:
            end, begin = at + 1, at
            identifier &= 0xF0
        elif identifier in FIXED_OPTIONS:
            end, begin = at + FIXED_OPTIONS[identifier], at + 1
        else:
            count = 2 if identifier & 0xF8 == 0x78 else 1
            begin = at + 1 + count
            end = begin + int.from_bytes(octets[at + 1 : begin], "big")
        if end > len(octets):
            return
        yield identifier, octets[begin:end]
        at = end


@dataclass(frozen=True)
class Accepted:
    """An ATTACH ACCEPT (8.2.1) or a TRACKING AREA UPDATE ACCEPT (8.2.26): its result, its timer and list of areas, what is asked of the bearer, its options."""

    result: int
    timer: bytes
    areas: bytes
    bearer: bytes
    options: Dict[int, bytes]

    @property
    def guti(self) -> Optional[Tuple[int, int]]:
        """The code of the MME and the M-TMSI that it gives."""
        value = self.options.get(GUTI_IEI, b"")
        return (value[6], int.from_bytes(value[7:11], "big")) if len(value) == 11 else None


def accepted(nas: Nas) -> Optional[Accepted]:
    """What an accept says; none of another message, or of one that breaks off."""
    plain = nas.plain
    try:
        if nas.kind == UPDATE_ACCEPT:
            return Accepted(plain[2] & 7, b"", b"", b"", dict(options_of(plain[3:])))
        if nas.kind != ATTACH_ACCEPT:
            return None
        bearer = 5 + plain[4]
        options = bearer + 2 + int.from_bytes(plain[bearer : bearer + 2], "big")
        return Accepted(plain[2] & 7, plain[3:4], plain[5:bearer], plain[bearer + 2 : options], dict(options_of(plain[options:])))
    except IndexError:
        return None


@dataclass(frozen=True)
class BearerAsked:
    """An ACTIVATE DEFAULT EPS BEARER CONTEXT REQUEST (8.3.6): bearer, transaction, quality, access point name in labels, IPv4 address, whether more follows."""

    bearer: int
    transaction: int
    quality: bytes
    name: str
    address: bytes
    has_more: bool


def bearer_asked(octets: bytes) -> Optional[BearerAsked]:
    """The request, by itself or in an ATTACH ACCEPT; none where it is another message, or breaks off."""
    if len(octets) < 4 or octets[0] & 15 != SESSION_MANAGEMENT or octets[2] != ACTIVATE_REQUEST:
        return None
    values, at = [], 3
    for _ in range(3):
        if at >= len(octets):
            return None
        values.append(octets[at + 1 : at + 1 + octets[at]])
        at += 1 + octets[at]
    quality, name, address = values
    kind = address[0] & 7 if address else 0
    ipv4 = address[1:5] if kind == 1 else address[9:13] if kind == 3 else b""
    return BearerAsked(octets[0] >> 4, octets[1], quality, ".".join(_labels(name)), ipv4, at < len(octets))


def _labels(name: bytes) -> Iterator[str]:
    """The labels of an access point name (TS 23.003, 9.1)."""
    at = 0
    while at < len(name):
        yield name[at + 1 : at + 1 + name[at]].decode("latin-1")
        at += 1 + name[at]
