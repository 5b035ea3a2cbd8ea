#!/usr/bin/env python3
"""A model of the definitions, in place of the program where it is not built: what `plain` prints for a case text whose PDUs are right.

It shares no code with the program or the tools, and knows no refusal of a case text. Of `replay` it prints what `plain` prints.
"""

from __future__ import annotations

import json
import sys
from typing import Dict, List, Optional, Tuple

Octets = bytes
ATTACHING = ("authenticating", "securing", "accepting", "accepting-context", "accepting-done")
NORMAL, FAILED, DETACH, UNSPECIFIED = (bytes([0x20 | cause << 1]) for cause in range(4))  # NAS causes as they are written
UP = {(0, 12): "first", (0, 13): "later", (0x20, 9): "done", (0x40, 9): "failed", (0, 18): "asked", (0x20, 23): "released", (0, 22): "capability"}
UP[0x20, 5] = "second"


class Refused(Exception):
    pass


def length(octets: bytes, at: int) -> Tuple[int, int]:
    return (octets[at], at + 1) if octets[at] < 128 else ((octets[at] & 63) * 256 + octets[at + 1], at + 2)


def opened(octets: bytes) -> bytes:
    size = len(octets)
    return (bytes([size]) if size < 128 else bytes([128 + size // 256, size % 256])) + octets


def elements(pdu: bytes) -> Dict[int, bytes]:
    _, at = length(pdu, 3)
    at, found = at + 3, {}
    while at < len(pdu):
        number = pdu[at] * 256 + pdu[at + 1]
        size, at = length(pdu, at + 3)
        found[number] = pdu[at : at + size]
        at += size
    return found


def number(value: bytes) -> int:
    return int.from_bytes(value[1:], "big")


def written(code: str, *values: Tuple[int, str, bytes]) -> bytes:
    body = b"".join(it.to_bytes(2, "big") + bytes([{"r": 0, "i": 64}[criticality]]) + opened(value) for it, criticality, value in values)
    return bytes.fromhex(code) + opened(b"\0" + len(values).to_bytes(2, "big") + body)


def number_written(value: int) -> bytes:
    octets = value.to_bytes(max(1, (value.bit_length() + 7) // 8), "big")
    return bytes([(len(octets) - 1) * 64]) + octets


def rate_written(value: int, shift: int) -> bytes:
    octets = value.to_bytes(max(1, (value.bit_length() + 7) // 8), "big")
    return bytes([(len(octets) - 1) << shift]) + octets


class Input:
    """What a message of a base station says."""

    def __init__(self, kind: str, pair: Tuple[int, int]) -> None:
        self.kind, self.pair, self.is_first = kind, pair, False
        self.area, self.algorithms, self.transaction = (b"\0\0\0", 0), b"\0\0", 0
        self.response, self.is_off, self.cause, self.tunnel, self.octets = b"", False, b"", (0, 0), 0
        self.second_tunnel: Optional[Tuple[int, int]] = None


def nas_said(said: Input, nas: bytes, kinds: Tuple[int, ...]) -> Optional[object]:
    """Takes the NAS message in, and gives the identity in it."""
    if not nas:
        raise Refused("15 NasShort")
    if nas[0] in (0x17, 0x27, 0x37, 0x47):
        nas = nas[6:]
    if nas[0] == 0xC7:
        said.kind = "service"
        return None
    if nas[0] % 16 == 2:
        return session_said(said, nas, 0x53 in kinds)
    if nas[0] != 7:
        raise Refused("16 NasDiscriminator")
    kind = nas[1]
    if kind not in kinds:
        raise Refused(f"17 NasKind {kind:02x}")
    said.kind = {0x41: "attach", 0x43: "attached", 0x45: "detach", 0x48: "area", 0x53: "response", 0x5E: "secured", 0x5F: "unsecured"}[kind]
    if kind == 0x53:
        said.response = nas[3 : 3 + nas[2]]
    if kind not in (0x41, 0x45, 0x48):
        return None
    identity, rest = nas[4 : 4 + nas[3]], nas[4 + nas[3] :]
    said.is_off = bool(nas[2] & 8)
    if kind == 0x41:
        said.algorithms = rest[1:3]
        said.transaction = rest[1 + rest[0] + 2 + 1]
    if len(identity) == 8 and identity[0] % 16 == 9:
        return f"{identity[0] >> 4:x}" + "".join(f"{it % 16:x}{it >> 4:x}" for it in identity[1:])
    if len(identity) == 11 and identity[0] == 0xF6:
        return int.from_bytes(identity[7:], "big")
    raise Refused("18 NasIdentity")


def session_said(said: Input, nas: bytes, is_later: bool) -> None:
    """A message of session management: a second connection is asked for, or its bearer accepted."""
    kind = nas[2]
    if not is_later or kind != 0xD0 and (nas[0] >> 4, kind) != (6, 0xC2):
        raise Refused(f"17 NasKind {kind:02x}")
    said.kind, said.transaction = "second_asked" if kind == 0xD0 else "second_accepted", nas[1]


class Machine:
    """A device's machine, which never fails; peers answer at once."""

    def __init__(self, row: Dict, device: int) -> None:
        self.row, self.device = row, device
        self.stage, self.link, self.area, self.bearer, self.radio = "detached", None, (b"\0\0\0", 0), "none", 0
        self.algorithms, self.transaction, self.registered, self.off, self.cause = b"\0\0", 0, False, False, b""
        self.messages = self.steps = 0
        self.downs: List[Tuple[int, bytes]] = []
        self.calls: Dict[str, List[str]] = {"gateway": [], "subscriber": []}
        self.response, self.creates, self.teid = b"", 0, 0
        self.second, self.second_transaction, self.second_teid, self.second_tunnel = "none", 0, 0, (0, 0)

    def ids(self, pair: Tuple[int, int]) -> List[Tuple[int, str, bytes]]:
        return [(0, "r", number_written(self.device)), (8, "r", number_written(pair[1]))]

    def say(self, text: str, pair: Optional[Tuple[int, int]] = None) -> None:
        pair = pair or self.link
        self.downs.append((pair[0], written("000b40", *self.ids(pair), (26, "r", opened(bytes.fromhex(text))))))

    def release(self, pair: Tuple[int, int], cause: bytes) -> None:
        self.downs.append((pair[0], written("001700", (99, "r", joined_ids(self.device, pair[1])), (2, "i", cause))))

    def bearer_written(self, item: int, first: int, teid: int, nas: bytes = b"") -> bytes:
        """An item of a list of bearers to set up: what is there and the E-RAB, its quality, the gateway's end."""
        value = bytes([first, 0, 9, 0x20, 0x0F, 0x80]) + bytes.fromhex(self.row["sgw"]) + teid.to_bytes(4, "big")
        return bytes([0, item, 0]) + opened(value + (opened(nas) if nas else b""))

    def context(self, accept: bytes = b"") -> None:
        """Sets up the context with its bearer, and with the second one where there is one."""
        row, items = self.row, [self.bearer_written(52, 0x45 if accept else 0x05, self.teid, accept)]
        if self.second != "none":
            items.append(self.bearer_written(52, 0x06, self.second_teid))
        bearers = bytes([len(items) - 1]) + b"".join(items)
        rates = rate_written(row["ambr_dl"], 3) + rate_written(row["ambr_ul"], 5)
        bits = "0" * 3 + "".join(f"{(it & 0x7F) << 1:08b}" + "0" * 8 + "0" for it in self.algorithms)
        capabilities = int(bits.ljust(40, "0")[:40], 2).to_bytes(5, "big")
        key = bytes.fromhex(row["key"])
        values = [*self.ids(self.link), (66, "r", rates), (24, "r", bearers), (107, "r", capabilities), (73, "r", key)]
        self.downs.append((self.link[0], written("000900", *values)))

    def call(self, lane: str, words: str) -> None:
        self.calls[lane].append(words)

    def move(self, it: Input) -> None:
        if self.link and self.link != it.pair:
            self.release(self.link, NORMAL)
        self.link = it.pair

    def drop(self, cause: bytes) -> None:
        self.registered = False
        if self.bearer == "none":
            self.release(self.link, cause)
            self.stage = "releasing"
        else:
            self.off, self.cause, self.stage = True, cause, "await-delete"
            self.call("gateway", "delete")

    def free(self, cause: bytes) -> None:
        if self.bearer == "active":
            self.cause, self.stage = cause, "await-release"
            self.call("gateway", "release")
        else:
            self.release(self.link, cause)
            self.stage = "releasing"

    def take(self, it: Input) -> None:
        self.messages += 1
        self.steps += 1
        rule = getattr(self, f"take_{it.kind}")
        if it.is_first or it.kind == "data" or self.link == it.pair:
            rule(it)
        while self.stage.startswith("await"):
            self.steps += 1
            getattr(self, self.stage.replace("-", "_"))()

    # The answers of the peers.

    def await_vectors(self) -> None:
        self.response, self.stage = bytes.fromhex(self.row["res"]), "authenticating"
        self.say(f"075200{self.row['rand']}10{self.row['autn']}")

    def await_location(self) -> None:
        self.stage = "await-create"
        self.call("gateway", "create")

    def new_teid(self) -> int:
        """The gateway's end of a session that it creates: each has another one."""
        self.creates += 1
        return self.row["teid"] + self.creates - 1

    def await_create(self) -> None:
        self.teid, self.second = self.new_teid(), "none"
        self.bearer, self.stage = "made", "accepting"
        name = self.row["apn"].encode()
        plmn, code = self.area
        inner = bytes([0x52, self.transaction, 0xC1, 1, 9, len(name) + 1, len(name)]) + name + b"\x05\x01" + bytes.fromhex(self.row["ip"])
        self.context(bytes.fromhex("074201e00600") + plmn + code.to_bytes(2, "big") + len(inner).to_bytes(2, "big") + inner)

    def await_modify(self) -> None:
        self.bearer, self.registered, self.stage = "active", True, "connected"
        if self.second == "radio":
            self.modify_second()

    def await_release(self) -> None:
        self.bearer, self.stage = "made", "releasing"
        self.second_is_set_up_anew()
        self.release(self.link, self.cause)

    def await_delete(self) -> None:
        self.bearer, self.second, self.stage = "none", "none", "releasing"
        self.call("subscriber", "purge")
        if not self.off:
            self.say("0746")
        self.release(self.link, self.cause)

    def await_second(self) -> None:
        self.second_teid, self.second, self.stage = self.new_teid(), "made", "connected"
        name = self.row["apn2"].encode()
        asked = bytes([0x62, self.second_transaction, 0xC1, 1, 9, len(name) + 1, len(name)]) + name + b"\x05\x01" + bytes.fromhex(self.row["ip2"])
        self.downs.append((self.link[0], written("000500", *self.ids(self.link), (16, "r", b"\0" + self.bearer_written(17, 0x0C, self.second_teid, asked)))))

    def await_second_modify(self) -> None:
        self.second, self.stage = "active", "connected"

    # The messages of base stations.

    def take_attach(self, it: Input) -> None:
        self.move(it)
        if it.area[1] in self.row["forbidden"]:
            self.say("07440c")
            self.drop(NORMAL)
            return
        self.area, self.algorithms, self.transaction, self.registered, self.stage = it.area, it.algorithms, it.transaction, False, "await-vectors"
        self.call("subscriber", "vectors")

    def take_response(self, it: Input) -> None:
        if self.stage != "authenticating":
            return
        if it.response == self.response:
            self.stage = "securing"
            self.say("075d000002" + self.algorithms.hex())
        else:
            self.say("0754")
            self.drop(FAILED)

    def take_secured(self, _: Input) -> None:
        if self.stage == "securing":
            self.stage = "await-location"
            self.call("subscriber", "location")

    def take_unsecured(self, _: Input) -> None:
        if self.stage == "securing":
            self.drop(UNSPECIFIED)

    def modify(self) -> None:
        self.stage = "await-modify"
        self.call("gateway", f"modify {self.tunnel[0]:08x} {self.tunnel[1]}")

    def take_done(self, it: Input) -> None:
        if self.stage in ("accepting", "accepting-done", "connecting"):
            self.tunnel = it.tunnel
            if self.stage == "connecting" and it.second_tunnel and self.second != "none":
                self.second_tunnel, self.second = it.second_tunnel, "radio"
            if self.stage == "accepting":
                self.stage = "accepting-context"
            else:
                self.modify()

    def take_attached(self, _: Input) -> None:
        if self.stage == "accepting":
            self.stage = "accepting-done"
        elif self.stage == "accepting-context":
            self.modify()

    def take_failed(self, _: Input) -> None:
        if self.stage in ("accepting", "accepting-done"):
            self.drop(UNSPECIFIED)
        elif self.stage == "connecting":
            self.free(UNSPECIFIED)

    def take_asked(self, it: Input) -> None:
        if self.stage in ATTACHING:
            self.drop(it.cause)
        elif self.stage in ("connecting", "connected"):
            self.free(it.cause)

    def take_released(self, _: Input) -> None:
        if self.stage == "releasing":
            self.link, self.stage = None, "idle" if self.registered else "detached"

    # A second connection.

    def modify_second(self) -> None:
        self.stage = "await-second-modify"
        self.call("gateway", f"second-modify {self.second_tunnel[0]:08x} {self.second_tunnel[1]}")

    def second_is_set_up_anew(self) -> None:
        """The gateway keeps it, and no base station has its bearer."""
        if self.second != "none":
            self.second = "made"

    def take_second_asked(self, it: Input) -> None:
        if self.stage != "connected" or self.second != "none":
            return
        if "apn2" not in self.row or "ip2" not in self.row:
            self.say(f"02{it.transaction:02x}d11b")
            return
        self.second_transaction, self.stage = it.transaction, "await-second"
        self.call("gateway", "second-create")

    def take_second_done(self, it: Input) -> None:
        if self.stage != "connected" or self.second not in ("made", "accepted"):
            return
        self.second_tunnel = it.tunnel
        if self.second == "made":
            self.second = "radio"
        else:
            self.modify_second()

    def take_second_accepted(self, _: Input) -> None:
        if self.stage != "connected":
            return
        if self.second == "made":
            self.second = "accepted"
        elif self.second == "radio":
            self.modify_second()

    def take_second_refused(self, _: Input) -> None:
        pass

    def take_capability(self, it: Input) -> None:
        self.radio = it.octets

    def take_data(self, _: Input) -> None:
        if self.stage == "idle":
            plmn, code = self.area
            index = (int(self.row["imsi"]) % 1024 << 6).to_bytes(2, "big")
            paged = bytes.fromhex("0010") + self.row["tmsi"].to_bytes(4, "big")
            areas = bytes.fromhex("00002f400600") + plmn + code.to_bytes(2, "big")
            self.downs.append((0, written("000a40", (80, "i", index), (43, "i", paged), (109, "i", b"\0"), (46, "i", areas))))

    def is_held(self) -> bool:
        return self.stage in ("idle", "connecting", "connected") or self.stage == "releasing" and self.registered

    def take_service(self, it: Input) -> None:
        if not self.is_held():
            self.say("074e0a", it.pair)
            return
        self.move(it)
        self.second_is_set_up_anew()
        self.context()
        self.stage = "connecting"

    def take_area(self, it: Input) -> None:
        is_forbidden = it.area[1] in self.row["forbidden"]
        if it.is_first and not self.is_held():
            self.say("074b09", it.pair)
        elif it.is_first or self.stage == "connected":
            if it.is_first:
                self.move(it)
            if not is_forbidden:
                self.area = it.area
            self.say("074b0c" if is_forbidden else "074900")
            if it.is_first:
                self.free(NORMAL)

    def take_detach(self, it: Input) -> None:
        is_gone = self.stage == "detached" or self.stage == "releasing" and not self.registered
        if it.is_first and is_gone:
            if not it.is_off:
                self.say("0746", it.pair)
            return
        if not it.is_first and self.stage not in (*ATTACHING, "connecting", "connected"):
            return
        if it.is_first:
            self.move(it)
        if self.bearer == "none":
            if not it.is_off:
                self.say("0746")
            self.drop(DETACH)
        else:
            self.registered, self.off, self.cause, self.stage = False, it.is_off, DETACH, "await-delete"
            self.call("gateway", "delete")


def joined_ids(mme_id: int, enb_id: int) -> bytes:
    """The pair of UE S1AP IDs: a bit of extension and one of choice, two bits of the sequence, then the two numbers."""
    mme, enb = number_written(mme_id), number_written(enb_id)
    return bytes([mme[0] >> 4]) + mme[1:] + enb


def set_up(value: bytes) -> Dict[int, Tuple[int, int]]:
    """The base station's ends of the bearers that it has set up, by their E-RABs; of one that comes twice the first."""
    ends: Dict[int, Tuple[int, int]] = {}
    at = 1
    for _ in range(value[0] + 1):
        size, at = length(value, at + 3)
        item = value[at : at + size]
        at += size
        ends.setdefault(item[0] >> 1 & 15, (int.from_bytes(item[2:6], "big"), int.from_bytes(item[6:10], "big")))
    return ends


class Admission:
    """Gives each line of the trace to its device, or refuses it."""

    def __init__(self, machines: List[Machine]) -> None:
        self.machines = machines
        self.by_identity: Dict[object, int] = {}
        for at, it in enumerate(machines):
            self.by_identity[it.row["imsi"]] = self.by_identity[it.row["tmsi"]] = at
        self.bound: Dict[Tuple[int, int], int] = {}

    def notice(self, imsi: str) -> None:
        if imsi not in self.by_identity:
            raise Refused(f"30 UnknownDevice imsi {imsi}")
        self.machines[self.by_identity[imsi]].take(Input("data", (0, 0)))

    def take(self, station: int, pdu: bytes) -> None:
        kind, found = UP.get((pdu[0], pdu[1])), elements(pdu)
        if kind is None:
            raise Refused(f"9 OtherProcedure {pdu[1]} at 1")
        said = Input(kind, (station, number(found[8])))
        said.is_first = kind == "first"
        if 67 in found:
            said.area = found[67][1:4], int.from_bytes(found[67][4:6], "big")
        device = self.device_of(said, found)
        self.bind(said, device, kind)
        self.machines[device].take(said)

    def device_of(self, said: Input, found: Dict[int, bytes]) -> int:
        pair, kind = said.pair, said.kind
        size, at = length(found[26], 0) if 26 in found else (0, 0)
        nas = found[26][at : at + size] if 26 in found else b""
        if said.is_first:
            identity = nas_said(said, nas, (0x41, 0x45, 0x48))
            if said.kind == "service":
                identity = int.from_bytes(found[96][2:6], "big")
            if identity not in self.by_identity:
                raise Refused(f"30 UnknownDevice {'imsi' if isinstance(identity, str) else 'tmsi'} {identity}")
            return self.by_identity[identity]
        if kind == "later":
            nas_said(said, nas, (0x43, 0x45, 0x48, 0x53, 0x5E, 0x5F))
        elif kind == "done":
            ends = set_up(found[51])
            said.kind, said.tunnel, said.second_tunnel = "done" if 5 in ends else "failed", ends.get(5, (0, 0)), ends.get(6)
        elif kind == "second":
            ends = set_up(found[28]) if 28 in found else {}
            said.kind, said.tunnel = "second_done" if 6 in ends else "second_refused", ends.get(6, (0, 0))
        elif kind == "asked":
            said.cause = found[2]
        elif kind == "capability":
            said.octets = length(found[74], 0)[0]
        if self.bound.get(pair) != number(found[0]) - 1:
            raise Refused(f"31 UnknownPair {pair[0]} {pair[1]}")
        return self.bound[pair]

    def bind(self, said: Input, device: int, kind: str) -> None:
        if said.is_first:
            self.bound = {pair: it for pair, it in self.bound.items() if it != device}
            self.bound[said.pair] = device
        elif kind == "released":
            self.bound.pop(said.pair)


def case_read(text: str) -> Tuple[List[Dict], List[Tuple[int, str, str]]]:
    section, rows, trace = "", [], []
    for at, line in enumerate(text.splitlines(), 1):
        if line.startswith("["):
            section = line
        elif line and not line.startswith("#") and section == "[subscribers]":
            rows.append(json.loads(line))
        elif line and not line.startswith("#") and section == "[trace]":
            trace.append((at, *line.split(" ")))
    return rows, trace


def end_text(it: Machine) -> List[str]:
    lines = [f"device {it.row['imsi']} messages {it.messages} steps {it.steps}"]
    lines += [f"down {at} {station} {octets.hex()}" for at, (station, octets) in enumerate(it.downs, 1)]
    lines += [f"{lane} {at} {words}" for lane in ("gateway", "subscriber") for at, words in enumerate(it.calls[lane], 1)]
    link = f"{it.link[0]}/{it.link[1]}" if it.link else "off"
    lines.append(f"session {it.stage} link {link} area {it.area[0].hex()} {it.area[1]} bearer {it.bearer} radio {it.radio}")
    return lines if it.second == "none" else [*lines, "second active" if it.second == "active" else "second made"]


def plain(text: str) -> str:
    rows, trace = case_read(text)
    machines = [Machine(row, at) for at, row in enumerate(rows, 1)]
    admission, lines = Admission(machines), []
    for at, station, behind in trace:
        try:
            if station == "data":
                admission.notice(behind)
            else:
                admission.take(int(station), bytes.fromhex(behind))
        except Refused as refusal:
            lines.append(f"refused {at} {refusal}")
    for it in sorted(machines, key=lambda machine: machine.row["imsi"]):
        lines += end_text(it)
    return "\n".join([*lines, ""])


if __name__ == "__main__":
    sys.stdout.write(plain(sys.stdin.read()))
