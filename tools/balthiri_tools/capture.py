"""The packets of SCTP in a capture, as tshark finds them, and the S1AP messages in them.

tshark reads the file and what stands round SCTP: links, IP and its fragments, UDP. It gives SCTP as its octets.
"""

from __future__ import annotations

import shutil
import subprocess
import sys
import tempfile
from collections import Counter
from dataclasses import dataclass, field
from typing import Dict, Iterator, List, Set, Tuple

from .command import BadInput, Progress
from .packets import SCTP_IN_IP
from .sctp import Captured, Packet, messages_of

# How a pcap file begins, in either order of octets and with micro- or nanoseconds; a pcapng file; either of them packed by gzip.
BEGINNINGS = (b"\xa1\xb2\xc3\xd4", b"\xd4\xc3\xb2\xa1", b"\xa1\xb2\x3c\x4d", b"\x4d\x3c\xb2\xa1", b"\x0a\x0d\x0d\x0a", b"\x1f\x8b")
SCTP_IN_UDP = 9899  # the port of SCTP in UDP (RFC 6951)
UDP_HEADER = 8
FRAGMENTS_MISSING = "IP packets of which fragments are missing or cut"
ELSEWHERE = f"frames whose SCTP stands neither in IP nor in UDP at port {SCTP_IN_UDP}"

NEXT_HEADERS = ("ipv6.nxt", "ipv6.fraghdr.nxt", "ipv6.hopopts.nxt", "ipv6.dstopts.nxt", "ipv6.routing.nxt")
IS_SCTP = " or ".join(f"{it} == {SCTP_IN_IP}" for it in ("ip.proto", *NEXT_HEADERS)) + f" or udp.port == {SCTP_IN_UDP}"
FILTER = f"(({IS_SCTP}) and not icmp and not icmpv6) or sctp"  # an ICMP message quotes the front of another packet

FIELDS = ("frame.number", "frame.time_epoch", "frame.len", "frame.cap_len", "data.data", "udp.length", "sctp.srcport")
FIELDS += ("ip.src", "ip.proto", "ip.len", "ip.hdr_len", "ip.id", "ip.flags.mf", "ip.frag_offset", "ip.fragment.count")
FIELDS += ("ipv6.src", "ipv6.nxt", "ipv6.plen", "ipv6.fraghdr.ident", "ipv6.fragment.count", "ip.dst", "ipv6.dst")


@dataclass
class Capture:
    """The messages of a capture in order; how much was left out, by what it is; what tshark says where the capture breaks off."""

    messages: List[Captured] = field(default_factory=list)
    left_out: "Counter[str]" = field(default_factory=Counter)
    end: str = ""


def _check_beginning(name: str, told: str) -> None:
    with open(name, "rb") as source:
        if not source.read(4).startswith(BEGINNINGS):
            raise BadInput(f"{told}: no capture (pcap or pcapng)")


class _Frames:
    """The frames that tshark tells of, and what is no packet here: IP packets whose fragments have not all come, and SCTP elsewhere."""

    def __init__(self, name: str) -> None:
        self.name = name
        self.unfinished: Set[Tuple[str, ...]] = set()
        self.elsewhere = 0
        self.end = ""

    def lines(self) -> Iterator[List[str]]:
        """The values of the fields, of each frame with SCTP in it. Where tshark ends early, it is kept what it says."""
        tshark = shutil.which("tshark")
        if tshark is None:
            raise BadInput("tshark is not installed (of Debian: apt-get install tshark)")
        words = [tshark, "-n", "-r", self.name, "-d", f"ip.proto=={SCTP_IN_IP},data", "-d", f"udp.port=={SCTP_IN_UDP},data", "-Y", FILTER]
        words += ["-T", "fields", "-E", "occurrence=a", *(word for it in FIELDS for word in ("-e", it))]
        with tempfile.TemporaryFile() as said, subprocess.Popen(words, stdout=subprocess.PIPE, stderr=said, encoding="latin-1") as ran:
            assert ran.stdout is not None
            yield from (it.rstrip("\r\n").split("\t") for it in ran.stdout)
            if ran.wait() != 0:
                said.seek(0)
                lines = said.read().decode("utf-8", "replace").splitlines() or ["tshark failed"]
                self.end = lines[-1].replace("tshark: ", "")

    def packets(self, progress: Progress) -> Iterator[Packet]:
        for number, values in enumerate(self.lines(), 1):
            progress.at(number)
            it = dict(zip(FIELDS, values))
            if it["sctp.srcport"]:
                self.elsewhere += 1
            elif not self._is_fragment(it):
                yield _packet(it)

    def _is_fragment(self, it: Dict[str, str]) -> bool:
        """Whether a frame holds a fragment of an IP packet, and not one with which the packet is whole."""
        identification = it["ip.id"], it["ipv6.fraghdr.ident"], it["ip.src"], it["ipv6.src"]
        if it["ip.fragment.count"] or it["ipv6.fragment.count"]:
            self.unfinished.discard(identification)
            return False
        is_part_of_ipv4 = any(flag not in ("0", "False") for flag in _all(it["ip.flags.mf"])) or any(int(at, 0) for at in _all(it["ip.frag_offset"]))
        if is_part_of_ipv4 or it["ipv6.fraghdr.ident"]:
            self.unfinished.add(identification)
            return True
        return False


def _all(values: str) -> List[str]:
    return [it for it in values.split(",") if it]


def _last(values: str) -> str:
    """The last of a field's values, which is that of the innermost IP where IP is in IP."""
    return values.split(",")[-1]


def _packet(it: Dict[str, str]) -> Packet:
    """The packet of a frame."""
    is_ipv4 = bool(it["ip.src"]) and (not it["ipv6.src"] or _last(it["ip.proto"]) == str(SCTP_IN_IP))
    octets = bytes.fromhex(_last(it["data.data"]).replace(":", ""))
    source, target = (_last(it[f"{'ip' if is_ipv4 else 'ipv6'}.{end}"]) for end in ("src", "dst"))
    return Packet(it["frame.number"], it["frame.time_epoch"], source, octets, _length(it, is_ipv4, len(octets)), target)


def _length(it: Dict[str, str], is_ipv4: bool, captured: int) -> int:
    """How many octets the packet had before the snap length cut its frame, as IP or UDP tells."""
    missing = int(it["frame.len"]) - int(it["frame.cap_len"])
    if missing == 0 or it["ip.fragment.count"] or it["ipv6.fragment.count"]:
        return captured
    if it["udp.length"]:
        return int(_last(it["udp.length"])) - UDP_HEADER
    if is_ipv4 and int(_last(it["ip.len"])):
        return int(_last(it["ip.len"])) - int(_last(it["ip.hdr_len"]))
    if not is_ipv4 and _last(it["ipv6.nxt"]) == str(SCTP_IN_IP):
        return int(_last(it["ipv6.plen"]))
    return captured + missing


def _read(name: str, told: str, progress: Progress) -> Capture:
    _check_beginning(name, told)
    frames = _Frames(name)
    messages, left_out = messages_of(frames.packets(progress))
    left_out.update({FRAGMENTS_MISSING: len(frames.unfinished), ELSEWHERE: frames.elsewhere})
    return Capture(messages, left_out, frames.end.replace(f'"{name}"', f'"{told}"'))


def read_capture(name: str, progress: Progress) -> Capture:
    """The S1AP messages of a capture, or of standard input where its name is `-`, and what else is in it."""
    if name != "-":
        return _read(name, name, progress)
    with tempfile.NamedTemporaryFile() as copy:
        shutil.copyfileobj(sys.stdin.buffer, copy)
        copy.flush()
        return _read(copy.name, "standard input", progress)
