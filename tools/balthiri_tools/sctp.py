"""The messages that SCTP (RFC 9260) brings, of the packets of a capture: of each association and each way whole, once, and in order on each stream."""

from __future__ import annotations

import struct
from collections import Counter
from dataclasses import dataclass, field
from typing import Dict, Iterable, Iterator, List, Optional, Set, Tuple

from .packets import S1AP_PAYLOAD

HEADER = 12  # two ports, a tag, a checksum
CHUNK_HEADER = 4
DATA, I_DATA = 0, 64
DATA_HEADER = 16
ENDS, BEGINS, IS_UNORDERED = 1, 2, 4

# Why something of a capture is no message.
CUT = "cut by the snap length"
CUT_BEFORE = "cut by the snap length within their headers"
NOT_WHOLE = "in parts of which others are missing"
IN_I_DATA = "in chunks of the kind I-DATA"
BREAKS_OFF = "in packets whose chunks do not end where they say"
AGAIN = "sent again by SCTP"
OTHER_PAYLOAD = "of other payload protocols"

Key = Tuple[int, int, int]


@dataclass(frozen=True)
class Packet:
    """A packet of SCTP: its frame, that frame's time, the address that sent it, its octets as far as they were captured, and how many there were; whom it goes to."""

    frame: str
    time: str
    source: str
    octets: bytes
    length: int
    target: str = ""


@dataclass(frozen=True)
class Captured:
    """A message: the frame that it or its last part came in, that frame's time, its association and way, the address that sent it, its octets; whom it goes to."""

    frame: str
    time: str
    association: Key
    source: str
    message: bytes
    target: str = ""


@dataclass(frozen=True)
class Chunk:
    """A DATA chunk of S1AP."""

    flags: int
    tsn: int
    stream: int
    number: int
    octets: bytes


@dataclass
class Way:
    """One way of an association: its packets bear the tag that the receiver chose, from whichever address they come."""

    seen: Set[int] = field(default_factory=set)
    cut: Set[int] = field(default_factory=set)
    parts: Dict[int, Chunk] = field(default_factory=dict)
    last: Dict[int, int] = field(default_factory=dict)

    def whole(self, chunk: Chunk) -> List[Chunk]:
        """The parts of a message that this chunk makes whole, in order; none as long as it is not."""
        self.parts[chunk.tsn] = chunk
        found = [chunk]
        while not found[0].flags & BEGINS:
            before = self.parts.get((found[0].tsn - 1) % 2**32)
            if before is None or before.flags & ENDS:
                return []
            found.insert(0, before)
        while not found[-1].flags & ENDS:
            behind = self.parts.get((found[-1].tsn + 1) % 2**32)
            if behind is None or behind.flags & BEGINS:
                return []
            found.append(behind)
        for it in found:
            del self.parts[it.tsn]
        return found

    def place(self, chunk: Chunk) -> int:
        """The stream sequence number, counted on where its 16 bits begin anew: the nearest to that of the message before it on the stream."""
        last = self.last.get(chunk.stream, chunk.number)
        self.last[chunk.stream] = last + (chunk.number - last + 2**15) % 2**16 - 2**15
        return self.last[chunk.stream]


@dataclass(frozen=True)
class _Arrived:
    """A message that is whole, when it became so, and its place on its stream; an unordered one has no stream."""

    at: int
    stream: Optional[Tuple[Key, int]]
    place: int
    message: Captured


def _in_order(arrived: List[_Arrived]) -> List[Captured]:
    """The messages as they are delivered: each when it came, but on a stream none before those of lower numbers."""
    delivered: List[Tuple[int, int, _Arrived]] = []
    latest: Dict[Tuple[Key, int], int] = {}
    for order, it in enumerate(sorted(arrived, key=lambda it: (it.place, it.at))):
        at = it.at
        if it.stream is not None:
            at = latest[it.stream] = max(latest.get(it.stream, 0), it.at)
        delivered.append((at, order, it))
    return [it.message for _, _, it in sorted(delivered, key=lambda it: it[:2])]


class Associations:
    """Takes the packets of a capture, and has the messages of S1AP that were in them, and how much was left out, by the cause."""

    def __init__(self) -> None:
        self.left_out: "Counter[str]" = Counter()
        self._ways: Dict[Key, Way] = {}
        self._arrived: List[_Arrived] = []

    def take(self, packet: Packet) -> None:
        if packet.length < HEADER:
            self.left_out[BREAKS_OFF] += 1
        elif len(packet.octets) < HEADER:
            self.left_out[CUT_BEFORE] += 1
        else:
            before = self.left_out[CUT_BEFORE]
            for chunk in self._chunks(packet):
                self._take_chunk(packet, chunk)
            self.left_out[CUT_BEFORE] = min(self.left_out[CUT_BEFORE], before + 1)  # (one for a packet)

    def messages(self) -> List[Captured]:
        """All messages in order, once every packet is taken."""
        for way in self._ways.values():
            self.left_out[CUT] += len(way.cut - way.seen)
            self.left_out[NOT_WHOLE] += len(way.parts)
        return _in_order(self._arrived)

    def _chunks(self, packet: Packet) -> Iterator[bytes]:
        """The chunks of a packet with their headers, the last as far as it was captured. What cannot be told apart is counted."""
        at = HEADER
        while at + CHUNK_HEADER <= packet.length:
            front = packet.octets[at : at + CHUNK_HEADER]
            length = front[2] << 8 | front[3] if len(front) == CHUNK_HEADER else None
            if length is None:
                self.left_out[CUT_BEFORE] += 1
                return
            if length < CHUNK_HEADER or at + length > packet.length:
                self.left_out[BREAKS_OFF] += 1
                return
            yield packet.octets[at : at + length]
            at += (length + 3) // 4 * 4

    def _take_chunk(self, packet: Packet, octets: bytes) -> None:
        """Takes a chunk of user data; those of other kinds hold none."""
        kind, flags = octets[0], octets[1]
        if kind not in (DATA, I_DATA) or kind == I_DATA and not flags & BEGINS:
            return
        at = DATA_HEADER - 4 if kind == DATA else DATA_HEADER
        payload = octets[at : at + 4]
        if len(payload) < 4:
            self.left_out[CUT_BEFORE] += 1
        elif int.from_bytes(payload, "big") != S1AP_PAYLOAD:
            self.left_out[OTHER_PAYLOAD] += 1
        elif kind == I_DATA:
            self.left_out[IN_I_DATA] += 1
        else:
            self._take_data(packet, octets)

    def _take_data(self, packet: Packet, octets: bytes) -> None:
        """Takes a DATA chunk of S1AP, and the message that it makes whole."""
        key: Key = struct.unpack(">HHI", packet.octets[:8])
        way = self._ways.setdefault(key, Way())
        _, flags, length, tsn, stream, number = struct.unpack(">BBHIHH", octets[:12])
        if tsn in way.seen:
            self.left_out[AGAIN] += 1
            return
        if len(octets) < length:
            way.cut.add(tsn)
            return
        way.seen.add(tsn)
        chunk = Chunk(flags, tsn, stream, number, octets[DATA_HEADER:])
        found = way.whole(chunk)
        if found:
            message = Captured(packet.frame, packet.time, key, packet.source, b"".join(it.octets for it in found), packet.target)
            is_unordered = bool(flags & IS_UNORDERED)
            place = 0 if is_unordered else way.place(chunk)
            self._arrived.append(_Arrived(len(self._arrived), None if is_unordered else (key, stream), place, message))


def messages_of(packets: Iterable[Packet]) -> "Tuple[List[Captured], Counter[str]]":
    """The messages of S1AP that these packets hold, in order, and how much of other things, by what they are."""
    associations = Associations()
    for it in packets:
        associations.take(it)
    return associations.messages(), associations.left_out
