"""Messages of S1, S11 and S6a as frames of a capture: DATA chunks of SCTP (RFC 9260) or datagrams of UDP (RFC 768) in IPv4, in a pcap file."""

from __future__ import annotations

import struct
from dataclasses import dataclass, field
from ipaddress import IPv4Address
from typing import Callable, ClassVar, Dict, Iterable, List, Optional, Tuple, Union

MME_ADDRESS = IPv4Address("10.0.0.1")
SUBSCRIBER_SERVER_ADDRESS = IPv4Address("10.0.0.2")
FIRST_STATION_ADDRESS = IPv4Address("10.1.0.0")
LAST_STATION = 65535

S1AP_PORT = 36412
S1AP_PAYLOAD = 18  # the payload protocol identifier of S1AP (TS 36.412)
GTP_CONTROL_PORT = 2123  # of GTPv2-C (TS 29.274)
DIAMETER_PORT = 3868  # of Diameter over SCTP, as its payload protocol identifier (RFC 6733)
DIAMETER_PAYLOAD = 46
SCTP_IN_IP = 132
UDP_IN_IP = 17
WHOLE_MESSAGE = 0x03  # a DATA chunk that begins and ends a message
STREAM = 1  # the messages of devices; stream 0 is for those of base stations
FIRST_TSN = 1

PCAP_HEADER = struct.pack("<IHHiIII", 0xA1B2C3D4, 2, 4, 0, 0, 262144, 101)  # link type 101: frames begin with the IP header
MICROSECONDS_BETWEEN_FRAMES = 1000


def station_address(station: int) -> IPv4Address:
    """The address of a base station: 10.1.(n div 256).(n mod 256) of number n."""
    return FIRST_STATION_ADDRESS + station


def station_of_address(address: str) -> int:
    """The number of a base station at one of these addresses; 0 for any other address."""
    try:
        number = int(IPv4Address(address)) - int(FIRST_STATION_ADDRESS)
    except ValueError:
        return 0
    return number if 1 <= number <= LAST_STATION else 0


def _crc32c_table() -> List[int]:
    table = []
    for octet in range(256):
        for _ in range(8):
            octet = octet >> 1 ^ (0x82F63B78 if octet & 1 else 0)
        table.append(octet)
    return table


_CRC32C = _crc32c_table()


def crc32c(octets: bytes) -> int:
    """The checksum of SCTP (RFC 9260, appendix A)."""
    rest = 0xFFFFFFFF
    for octet in octets:
        rest = rest >> 8 ^ _CRC32C[(rest ^ octet) & 0xFF]
    return rest ^ 0xFFFFFFFF


def internet_checksum(octets: bytes) -> int:
    """The checksum of an IPv4 header (RFC 1071), of an even number of octets."""
    total = sum(struct.unpack(f">{len(octets) // 2}H", octets))
    while total >> 16:
        total = (total & 0xFFFF) + (total >> 16)
    return total ^ 0xFFFF


def ipv4_packet(source: IPv4Address, target: IPv4Address, identification: int, payload: bytes, protocol: int = SCTP_IN_IP) -> bytes:
    """The payload, of this protocol, behind an IPv4 header without options that forbids fragments."""
    front = struct.pack(">BBHHHBB", 0x45, 0, 20 + len(payload), identification & 0xFFFF, 0x4000, 64, protocol)
    addresses = source.packed + target.packed
    checksum = internet_checksum(front + b"\0\0" + addresses)
    return front + struct.pack(">H", checksum) + addresses + payload


@dataclass(frozen=True)
class Interface:
    """What carries the messages between the MME and its peers of a kind: a port, at both ends, of SCTP, with its payload protocol identifier, or of UDP."""

    name: str
    port: int
    payload: Optional[int] = None


S1 = Interface("S1", S1AP_PORT, S1AP_PAYLOAD)
S11 = Interface("S11", GTP_CONTROL_PORT)
S6A = Interface("S6a", DIAMETER_PORT, DIAMETER_PAYLOAD)


def sctp_packet(port: int, payload: int, tag: int, number: int, message: bytes) -> bytes:
    """A packet of one DATA chunk that holds the whole message, of this number from 0 on its way, with its checksum."""
    chunk = struct.pack(">BBHIHHI", 0, WHOLE_MESSAGE, 16 + len(message), FIRST_TSN + number, STREAM, number & 0xFFFF, payload)
    chunk += message + bytes(-len(message) % 4)
    ports_and_tag = struct.pack(">HHI", port, port, tag)
    checksum = crc32c(ports_and_tag + bytes(4) + chunk)
    return ports_and_tag + struct.pack("<I", checksum) + chunk


def udp_packet(source: IPv4Address, target: IPv4Address, port: int, message: bytes) -> bytes:
    """A datagram of the message, with its checksum, which also counts the addresses."""
    ports_and_length = struct.pack(">HHH", port, port, 8 + len(message))
    counted = source.packed + target.packed + struct.pack(">BBH", 0, UDP_IN_IP, 8 + len(message)) + ports_and_length + message
    checksum = internet_checksum(counted + bytes(len(counted) % 2)) or 0xFFFF  # (0 would say that there is none)
    return ports_and_length + struct.pack(">H", checksum) + message


@dataclass(frozen=True)
class Frame:
    """A message on the S1 interface: from a base station to the MME, or from the MME to it."""

    is_up: bool
    station: int
    message: bytes
    interface: ClassVar[Interface] = S1

    @property
    def peer(self) -> IPv4Address:
        return station_address(self.station)


@dataclass(frozen=True)
class CallFrame:
    """A message on the S11 or the S6a interface: a call of the MME to a peer, or the peer's answer, which goes up to the MME."""

    is_up: bool
    interface: Interface
    peer: IPv4Address
    message: bytes
    station: ClassVar[int] = 0  # there is one subscriber server, whose association has this number


AnyFrame = Union[Frame, CallFrame]


@dataclass
class Associations:
    """How many messages went each way between the MME and each of its peers."""

    sent: Dict[Tuple[bool, Interface, IPv4Address], int] = field(default_factory=dict)

    def packet(self, frame: AnyFrame, identification: int) -> bytes:
        ends = frame.peer, MME_ADDRESS
        source, target = ends if frame.is_up else ends[::-1]
        if frame.interface.payload is None:
            return ipv4_packet(source, target, identification, udp_packet(source, target, frame.interface.port, frame.message), UDP_IN_IP)
        tag = (0x10000000 if frame.is_up else 0x20000000) + frame.station
        payload = sctp_packet(frame.interface.port, frame.interface.payload, tag, self._next(frame), frame.message)
        return ipv4_packet(source, target, identification, payload)

    def _next(self, frame: AnyFrame) -> int:
        """How many messages went the way of this one before it."""
        way = frame.is_up, frame.interface, frame.peer
        number = self.sent.get(way, 0)
        self.sent[way] = number + 1
        return number


def pcap_of(frames: Iterable[AnyFrame], tell: Callable[[int], None] = lambda done: None) -> bytes:
    """The capture of the frames in their order, a millisecond apart. It tells how many are done."""
    associations = Associations()
    records = [PCAP_HEADER]
    for number, frame in enumerate(frames):
        packet = associations.packet(frame, number)
        seconds, microseconds = divmod(number * MICROSECONDS_BETWEEN_FRAMES, 1000000)
        records.append(struct.pack("<IIII", seconds, microseconds, len(packet), len(packet)) + packet)
        tell(number + 1)
    return b"".join(records)
