"""What an S1AP message is (TS 36.413), whose it is, and which NAS message it carries (TS 24.301).

Only what names a message and its device is read. Whether a message is right is the program's to say.
"""

from __future__ import annotations

from dataclasses import dataclass
from typing import Dict, Optional, Tuple

from .case_text import TraceLine
from .per import Broken
from .values import NAS_PDU, S_TMSI, asked_bearers, ids_of

PAGING = "Paging"
DATA_WAITS = "Downlink data notification"  # how a notice of the gateway is called (TS 29.274, 7.2.11)
SERVICE_REQUEST = 0xC7
EMM, SESSION_MANAGEMENT = 7, 2  # the protocol discriminators
ACTIVATE_REQUEST, ACTIVATE_ACCEPT, PDN_REQUEST, PDN_REJECT = 0xC1, 0xC2, 0xD0, 0xD1
PROTECTED = (0x17, 0x27, 0x37, 0x47)  # the first octets of NAS messages behind a code of authentication and a number
PROTECTION = 6  # octets of the header that protects


@dataclass(frozen=True)
class Kind:
    """One of the thirteen messages, and whether a base station sends it."""

    name: str
    is_up: bool


# By the first octet (the outcome) and the second (the procedure).
KINDS: Dict[Tuple[int, int], Kind] = {
    (0x00, 12): Kind("InitialUEMessage", True),
    (0x00, 13): Kind("UplinkNASTransport", True),
    (0x00, 11): Kind("DownlinkNASTransport", False),
    (0x00, 9): Kind("InitialContextSetupRequest", False),
    (0x20, 9): Kind("InitialContextSetupResponse", True),
    (0x40, 9): Kind("InitialContextSetupFailure", True),
    (0x00, 18): Kind("UEContextReleaseRequest", True),
    (0x00, 23): Kind("UEContextReleaseCommand", False),
    (0x20, 23): Kind("UEContextReleaseComplete", True),
    (0x00, 22): Kind("UECapabilityInfoIndication", True),
    (0x00, 10): Kind(PAGING, False),
    (0x00, 5): Kind("ErabSetupRequest", False),
    (0x20, 5): Kind("ErabSetupResponse", True),
}

NAS_NAMES: Dict[int, str] = {
    0x41: "Attach request",
    0x42: "Attach accept",
    0x43: "Attach complete",
    0x44: "Attach reject",
    0x45: "Detach request",
    0x46: "Detach accept",
    0x48: "Tracking area update request",
    0x49: "Tracking area update accept",
    0x4A: "Tracking area update complete",
    0x4B: "Tracking area update reject",
    0x4E: "Service reject",
    0x4C: "Extended service request",
    0x4F: "Service accept",
    0x50: "GUTI reallocation command",
    0x51: "GUTI reallocation complete",
    0x52: "Authentication request",
    0x53: "Authentication response",
    0x54: "Authentication reject",
    0x55: "Identity request",
    0x56: "Identity response",
    0x5C: "Authentication failure",
    0x5D: "Security mode command",
    0x5E: "Security mode complete",
    0x5F: "Security mode reject",
    0x60: "EMM status",
    0x61: "EMM information",
    0x62: "Downlink NAS transport",
    0x63: "Uplink NAS transport",
}

# Messages of session management (TS 24.301, table 9.8.2), by their third octet.
SESSION_NAMES: Dict[int, str] = {
    ACTIVATE_REQUEST: "Activate default EPS bearer context request",
    ACTIVATE_ACCEPT: "Activate default EPS bearer context accept",
    0xC3: "Activate default EPS bearer context reject",
    0xC5: "Activate dedicated EPS bearer context request",
    0xC6: "Activate dedicated EPS bearer context accept",
    0xC7: "Activate dedicated EPS bearer context reject",
    0xC9: "Modify EPS bearer context request",
    0xCA: "Modify EPS bearer context accept",
    0xCB: "Modify EPS bearer context reject",
    0xCD: "Deactivate EPS bearer context request",
    0xCE: "Deactivate EPS bearer context accept",
    PDN_REQUEST: "PDN connectivity request",
    PDN_REJECT: "PDN connectivity reject",
    0xD2: "PDN disconnect request",
    0xD3: "PDN disconnect reject",
    0xD4: "Bearer resource allocation request",
    0xD5: "Bearer resource allocation reject",
    0xD6: "Bearer resource modification request",
    0xD7: "Bearer resource modification reject",
    0xD9: "ESM information request",
    0xDA: "ESM information response",
    0xDB: "Notification",
    0xE8: "ESM status",
}


@dataclass(frozen=True)
class Identity:
    """What names a device in a message: a number that the MME gave, an IMSI, or an M-TMSI."""

    mme_id: Optional[int] = None
    imsi: Optional[str] = None
    tmsi: Optional[int] = None


def kind_of(message: bytes) -> Optional[Kind]:
    """Which of the thirteen messages the first two octets begin, if any."""
    return KINDS.get((message[0], message[1])) if len(message) >= 2 else None


def length_at(octets: bytes, at: int) -> Tuple[int, int]:
    """The general length at an offset, and the offset behind it."""
    if octets[at] < 0x80:
        return octets[at], at + 1
    return (octets[at] & 0x3F) << 8 | octets[at + 1], at + 2


def elements_of(message: bytes) -> Dict[int, bytes]:
    """The values of a message's IEs by their ids, of a repeated id the first; those that stand whole before the message breaks off."""
    elements: Dict[int, bytes] = {}
    try:
        _, at = length_at(message, 3)
        at += 3
        while at < len(message):
            number = message[at] << 8 | message[at + 1]
            length, at = length_at(message, at + 3)
            elements.setdefault(number, message[at : at + length])
            at += length
    except IndexError:
        pass
    return elements


def _mme_id(elements: Dict[int, bytes]) -> Optional[int]:
    try:
        return ids_of(elements)[0]
    except Broken:
        return None


def _nas_of_bearers(elements: Dict[int, bytes]) -> bytes:
    """The first NAS-PDU of the bearers that the MME asks for."""
    try:
        return next((it.nas for it in asked_bearers(elements) if it.nas), b"")
    except Broken:
        return b""


def nas_pdu_of(elements: Dict[int, bytes]) -> bytes:
    """The NAS message of a NAS-PDU as it is carried; empty where there is none."""
    value = elements.get(NAS_PDU)
    if not value:
        return _nas_of_bearers(elements)
    length, at = length_at(value + b"\0", 0)
    return value[at : at + length]


def without_protection(nas: bytes) -> bytes:
    """A NAS message without the header that may protect it. What is ciphered stays so."""
    return nas[PROTECTION:] if nas[:1] and nas[0] in PROTECTED else nas


def nas_of(elements: Dict[int, bytes]) -> bytes:
    """The NAS message of a NAS-PDU, without the protection that may be before it; empty where there is none."""
    return without_protection(nas_pdu_of(elements))


def imsi_of(identity: bytes) -> str:
    digits = f"{identity[0] >> 4:x}"
    return digits + "".join(f"{it & 15:x}{it >> 4:x}" for it in identity[1:])


def identity_of_nas(nas: bytes) -> Identity:
    """The EPS mobile identity behind the third octet (TS 24.301, 9.9.3.12)."""
    if len(nas) < 4 or nas[0] != EMM or nas[1] not in (0x41, 0x45, 0x48):
        return Identity()
    identity = nas[4 : 4 + nas[3]]
    if len(identity) == 8 and identity[0] & 0x0F == 0x09:
        return Identity(imsi=imsi_of(identity))
    if len(identity) == 11 and identity[0] == 0xF6:
        return Identity(tmsi=int.from_bytes(identity[7:11], "big"))
    return Identity()


def identity_of(message: bytes) -> Identity:
    """What names the device of a message from a base station."""
    kind, elements = kind_of(message), elements_of(message)
    if kind is None or kind.name != "InitialUEMessage":
        return Identity(mme_id=_mme_id(elements))
    nas = nas_of(elements)
    if nas[:1] == bytes([SERVICE_REQUEST]):
        s_tmsi = elements.get(S_TMSI, b"")
        return Identity(tmsi=int.from_bytes(s_tmsi[2:6], "big")) if len(s_tmsi) >= 6 else Identity()
    return identity_of_nas(nas)


def name_of(message: bytes) -> str:
    """The NAS message that an S1AP message carries, or else the S1AP message's own name."""
    kind = kind_of(message)
    if kind is None:
        return "unknown message"
    nas = nas_of(elements_of(message))
    if nas[:1] == bytes([SERVICE_REQUEST]):
        return "Service request"
    if nas[:1] and nas[0] & 15 == SESSION_MANAGEMENT:
        return SESSION_NAMES.get(nas[2], kind.name) if len(nas) >= 3 else kind.name
    return NAS_NAMES.get(nas[1], kind.name) if len(nas) >= 2 else kind.name


def name_of_line(line: TraceLine) -> str:
    """The message that a line of a trace is."""
    return DATA_WAITS if line.is_notice else name_of(line.octets() or b"")
