"""What a message to a device says, field by field, and which differences from the proved machine's the profile explains.

Fields are of S1AP (TS 36.413, 9.1) and of the NAS message in it (TS 24.301, 8.2 and 8.3). Numbers of the connection are no fields: each MME has its own.
"""

from __future__ import annotations

from typing import Callable, Dict, Iterator, Optional, Tuple

from . import nas as types
from .messages import ACTIVATE_REQUEST, PDN_REJECT, elements_of, kind_of, name_of, nas_pdu_of
from .nas import BearerAsked, Nas, accepted, bearer_asked, nas_read
from .per import Broken
from .values import ADDED_BEARERS, AREAS, BEARERS, BIT_RATES, CAPABILITIES, CAUSE, DOMAIN, ENB_ID, INDEX, KEY, MME_ID, NAS_PDU, PAGING_ID, UE_IDS
from .values import Bearer, areas_of, asked_bearers, bit_rates, cause_of, paged_of

Fields = Dict[str, str]
NAMED = (MME_ID, ENB_ID, NAS_PDU, UE_IDS, CAUSE, BIT_RATES, BEARERS, ADDED_BEARERS, CAPABILITIES, KEY, PAGING_ID, AREAS, INDEX, DOMAIN)

# What the profile has in place of what a network may send: by the names of fields.
OF_THE_PROFILE: Dict[str, str] = {
    "security header": "no integrity",
    "ciphering algorithm": "no ciphering",
    "integrity algorithm": "no integrity",
    "key set": "one key set",
    "GUTI": "no GUTI in an accept",
    "timer": "no timers",
    "TAI list": "one area in a TAI list",
    "result": "no combined attach or update",
    "bearers": "no dedicated bearers",
    "bearer": "E-RABs 5 and 6 alone",
    "quality": "one quality of service",
    "access point labels": "an access point name of one label",
    "options": "mandatory fields alone",
    "other IEs": "the IEs of its tables alone",
    "paged by": "paging by S-TMSI alone",
    "areas": "one area in a paging",
    "more capabilities": "EEA and EIA alone",
}
# What a peer gave: a row has one value of each.
OF_THE_ROW = ("RAND", "AUTN", "access point name", "address", "gateway", "TEID", "key", "rate down", "rate up")


def _authentication(nas: Nas) -> Iterator[Tuple[str, str]]:
    yield "key set", str(nas.plain[2] & 7)
    yield "RAND", nas.plain[3:19].hex()
    yield "AUTN", nas.plain[20 : 20 + nas.plain[19]].hex()


def _security_mode(nas: Nas) -> Iterator[Tuple[str, str]]:
    plain = nas.plain
    yield "ciphering algorithm", f"EEA{plain[2] >> 4 & 7}"
    yield "integrity algorithm", f"EIA{plain[2] & 7}"
    yield "key set", str(plain[3] & 7)
    yield "capabilities", plain[5:7].hex()
    yield "more capabilities", plain[7 : 5 + plain[4]].hex()
    yield "options", plain[5 + plain[4] :].hex()


def _accept(nas: Nas) -> Iterator[Tuple[str, str]]:
    told = accepted(nas)
    if told is None:
        return
    yield "result", str(told.result)
    yield "timer", told.timer.hex()
    yield "TAI list", told.areas.hex()
    yield "GUTI", told.options.get(types.GUTI_IEI, b"").hex()
    yield "options", " ".join(f"{number:02x}" for number in told.options if number != types.GUTI_IEI)
    yield from _bearer_asked(bearer_asked(told.bearer))


def _bearer_asked(asked: Optional[BearerAsked]) -> Iterator[Tuple[str, str]]:
    if asked:
        first, _, labels = asked.name.partition(".")
        yield from (("bearer", str(asked.bearer)), ("transaction", str(asked.transaction)), ("quality", asked.quality.hex()))
        yield from (("access point name", first), ("access point labels", labels), ("address", asked.address.hex()))
        yield "options of the bearer", "some" if asked.has_more else ""


def _activate(nas: Nas) -> Iterator[Tuple[str, str]]:
    yield from _bearer_asked(bearer_asked(nas.plain))


def _pdn_reject(nas: Nas) -> Iterator[Tuple[str, str]]:
    yield "transaction", str(nas.plain[1])
    yield "cause", str(nas.plain[3])
    yield "options", nas.plain[4:].hex()


def _cause_of_nas(nas: Nas) -> Iterator[Tuple[str, str]]:
    yield "cause", str(nas.plain[2])
    yield "options", nas.plain[3:].hex()


NAS_FIELDS: Dict[int, Callable[[Nas], Iterator[Tuple[str, str]]]] = {
    types.AUTHENTICATION_REQUEST: _authentication,
    types.SECURITY_MODE_COMMAND: _security_mode,
    types.ATTACH_ACCEPT: _accept,
    types.UPDATE_ACCEPT: _accept,
    **{kind: _cause_of_nas for kind in types.REJECTS},
}
SESSION_FIELDS: Dict[int, Callable[[Nas], Iterator[Tuple[str, str]]]] = {ACTIVATE_REQUEST: _activate, PDN_REJECT: _pdn_reject}


def _fields_of_nas(carried: bytes) -> Iterator[Tuple[str, str]]:
    if not carried:
        return
    nas = nas_read(carried, None)
    yield "security header", str(carried[0] >> 4)
    reader = SESSION_FIELDS.get(nas.session_kind[1]) if nas.session_kind else NAS_FIELDS.get(nas.kind or 0)
    if reader is None:
        yield "octets", nas.plain.hex()
        return
    try:
        yield from reader(nas)
    except IndexError:
        yield "octets", nas.plain.hex()


def _fields_of_bearers(bearers: "list[Bearer]") -> Iterator[Tuple[str, str]]:
    first = bearers[0]
    yield "bearers", " ".join(str(it.number) for it in bearers)
    yield "bearer", str(first.number)
    yield "quality", f"QCI {first.qci} priority {first.priority}"
    yield "gateway", first.address.hex()
    yield "TEID", str(first.teid)


def _fields_of_paging(elements: Dict[int, bytes]) -> Iterator[Tuple[str, str]]:
    if PAGING_ID in elements:
        yield "paged by", "IMSI" if isinstance(paged_of(elements[PAGING_ID]), str) else "S-TMSI"
    if INDEX in elements:
        yield "index", str(int.from_bytes(elements[INDEX], "big") >> 6)
    if DOMAIN in elements:
        yield "domain", "cs" if elements[DOMAIN][:1] >= b"\x80" else "ps"
    if AREAS in elements:
        yield "areas", " ".join(f"{plmn.hex()} {code}" for plmn, code in areas_of(elements[AREAS]))


def _fields_of_s1ap(elements: Dict[int, bytes]) -> Iterator[Tuple[str, str]]:
    if CAUSE in elements:
        yield "cause", cause_of(elements[CAUSE])
    if UE_IDS in elements:
        yield "numbers", "one" if elements[UE_IDS][:1] and elements[UE_IDS][0] & 0x40 else "both"
    if BIT_RATES in elements:
        down, up = bit_rates(elements[BIT_RATES])
        yield from (("rate down", str(down)), ("rate up", str(up)))
    bearers = asked_bearers(elements)
    if bearers:
        yield from _fields_of_bearers(bearers)
    if CAPABILITIES in elements:
        yield "algorithms", elements[CAPABILITIES].hex()
    if KEY in elements:
        yield "key", elements[KEY].hex()
    yield from _fields_of_paging(elements)
    yield "other IEs", " ".join(str(it) for it in sorted(set(elements) - set(NAMED)))


def fields_of(message: bytes) -> Fields:
    """The fields of a message to a device, in order."""
    elements, kind = elements_of(message), kind_of(message)
    fields: Fields = {"message": kind.name if kind else name_of(message)}
    try:
        fields.update(_fields_of_s1ap(elements))
    except Broken:
        fields["octets of S1AP"] = message.hex()
    nas = dict(_fields_of_nas(nas_pdu_of(elements)))
    fields.update({name if name not in fields else f"{name} of NAS": value for name, value in nas.items()})
    return fields


def explanation(field: str, mme: str, machine: str, is_learnt: bool) -> str:
    """What of the profile explains that a field is otherwise; of what a row has once, where that row was learnt. No text where nothing does, and where the MME
    sets up fewer bearers."""
    base = field.replace(" of NAS", "").replace(" of the bearer", "")
    if base == "bearers" and len(mme.split()) < len(machine.split()):
        return ""
    if base in OF_THE_ROW:
        return "one value a subscriber" if is_learnt else ""
    return OF_THE_PROFILE.get(base, "")
