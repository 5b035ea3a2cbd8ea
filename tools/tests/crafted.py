"""Captures made octet by octet, for what a capture may be of and what may be missing from it; `make_captures` writes them to data/captures.

Each is of the six messages of the attach of examples/attach.txt, which base station 1 sends, with the three messages of the MME of examples/attach_text.txt
among them, unless its name says otherwise.
"""

import struct
from ipaddress import ip_address
from typing import Callable, Dict, List, NamedTuple, Tuple

from balthiri_tools.packets import crc32c, internet_checksum
from support import EXAMPLES, trace_of

UP: List[bytes] = [bytes.fromhex(it.split(" ")[1]) for it in trace_of((EXAMPLES / "attach.txt").read_bytes())]
DOWN: List[bytes] = [bytes.fromhex(it.split(" ")[3]) for it in (EXAMPLES / "attach_text.txt").read_text().split("\n") if it.startswith("down ")]
# Who sends the next message: the base station or the MME.
WAYS = "udududuuu"

STATION, MME = "10.1.0.1", "10.0.0.1"
STATION_6, MME_6 = "2001:db8::1", "2001:db8::ffff"
UP_TAG, DOWN_TAG = 0xAAAAAAAA, 0xBBBBBBBB
S1AP = 18
ENDS, BEGINS, WHOLE = 1, 2, 3

ETHERNET, NULL, RAW, SLL, SLL2, BARE_SCTP = 1, 0, 101, 113, 276, 248
IPV4_KIND, IPV6_KIND, VLAN_KIND = 0x0800, 0x86DD, 0x8100


class Record(NamedTuple):
    """A frame of a capture, and how many of its octets are kept."""

    octets: bytes
    kept: int

    def front(self) -> bytes:
        return self.octets[: self.kept]


def whole(octets: bytes) -> Record:
    return Record(octets, len(octets))


def less(octets: bytes, cut: int) -> Record:
    """A frame whose last octets were cut."""
    return Record(octets, len(octets) - cut)


def filled(octets: bytes) -> bytes:
    return octets + bytes(-len(octets) % 4)


def data(tsn: int, number: int, octets: bytes, flags: int = WHOLE, stream: int = 1, payload: int = S1AP) -> bytes:
    return filled(struct.pack(">BBHIHHI", 0, flags, 16 + len(octets), tsn % 2**32, stream, number % 2**16, payload) + octets)


def i_data(tsn: int, octets: bytes) -> bytes:
    """A chunk of RFC 8260: stream, nothing, message, payload."""
    return filled(struct.pack(">BBHIHHII", 64, WHOLE, 20 + len(octets), tsn, 1, 0, 0, S1AP) + octets)


SACK = struct.pack(">BBHIIHH", 3, 0, 16, 1, 65536, 0, 0)


def sctp(*chunks: bytes, port: int = 36412, to_port: int = 36412, tag: int = UP_TAG) -> bytes:
    front, body = struct.pack(">HHI", port, to_port, tag), b"".join(chunks)
    return front + struct.pack("<I", crc32c(front + bytes(4) + body)) + body


def ipv4(octets: bytes, source: str = STATION, target: str = MME, protocol: int = 132, identification: int = 0, at: int = 0, has_more: bool = False) -> bytes:
    flags = (0x2000 if has_more else 0) | at // 8
    front = struct.pack(">BBHHHBBH", 0x45, 0, 20 + len(octets), identification, flags, 64, protocol, 0) + ip_address(source).packed + ip_address(target).packed
    return front[:10] + struct.pack(">H", internet_checksum(front)) + front[12:] + octets


def ipv6(octets: bytes, source: str = STATION_6, target: str = MME_6, following: int = 132) -> bytes:
    return struct.pack(">IHBB", 6 << 28, len(octets), following, 64) + ip_address(source).packed + ip_address(target).packed + octets


def ipv6_fragment(octets: bytes, at: int, has_more: bool, identification: int) -> bytes:
    return ipv6(struct.pack(">BBHI", 132, 0, at | has_more, identification) + octets, following=44)


def udp(octets: bytes) -> bytes:
    return struct.pack(">HHHH", 9899, 9899, 8 + len(octets), 0) + octets


def ethernet(octets: bytes, kind: int = IPV4_KIND) -> bytes:
    return bytes.fromhex("0200000000010200000000ff") + struct.pack(">H", kind) + octets


def vlan(octets: bytes, kind: int = IPV4_KIND) -> bytes:
    return ethernet(struct.pack(">HH", 100, kind) + octets, VLAN_KIND)


def sll(octets: bytes) -> bytes:
    return struct.pack(">HHH", 0, 1, 6) + bytes.fromhex("0200000000010000") + struct.pack(">H", IPV4_KIND) + octets


def sll2(octets: bytes) -> bytes:
    return struct.pack(">HHIHBB", IPV4_KIND, 0, 1, 1, 0, 6) + bytes.fromhex("0200000000010000") + octets


def null(octets: bytes) -> bytes:
    return struct.pack("<I", 2) + octets


def pcap(records: List[Record], link: int = ETHERNET, order: str = "<", is_nano: bool = False) -> bytes:
    """A pcap file of frames that came a second and one unit of time apart."""
    front = struct.pack(order + "IHHiIII", 0xA1B23C4D if is_nano else 0xA1B2C3D4, 2, 4, 0, 0, 65535, link)
    return front + b"".join(struct.pack(order + "IIII", at, at, it.kept, len(it.octets)) + it.front() for at, it in enumerate(records))


def pcapng(records: List[Record], link: int = ETHERNET) -> bytes:
    def block(kind: int, body: bytes) -> bytes:
        return struct.pack("<II", kind, 12 + len(body)) + body + struct.pack("<I", 12 + len(body))

    blocks = [block(0x0A0D0D0A, struct.pack("<IHHq", 0x1A2B3C4D, 1, 0, -1)), block(1, struct.pack("<HHI", link, 0, 65535))]
    for at, it in enumerate(records):
        blocks.append(block(6, struct.pack("<IIIII", 0, 0, at * 1000, it.kept, len(it.octets)) + filled(it.front())))
    return b"".join(blocks)


def attach() -> "List[Tuple[bool, int, bytes]]":
    """The nine messages in order: whether the base station sends it, its number on its way from 0, and its octets."""
    ups, downs = iter(enumerate(UP)), iter(enumerate(DOWN))
    return [(way == "u", *next(ups if way == "u" else downs)) for way in WAYS]


def packet(is_up: bool, *chunks: bytes) -> bytes:
    """The chunks in SCTP, each way by its tag."""
    return sctp(*chunks, tag=UP_TAG if is_up else DOWN_TAG)


def in_ipv4(is_up: bool, octets: bytes, protocol: int = 132) -> bytes:
    source, target = (STATION, MME) if is_up else (MME, STATION)
    return ipv4(octets, source, target, protocol)


def in_ipv6(is_up: bool, octets: bytes) -> bytes:
    return ipv6(octets, *((STATION_6, MME_6) if is_up else (MME_6, STATION_6)))


def each(link: Callable[[bytes], bytes], ip: Callable[[bool, bytes], bytes] = in_ipv4) -> List[Record]:
    """A frame for each message."""
    return [whole(link(ip(is_up, packet(is_up, data(number, number, octets))))) for is_up, number, octets in attach()]


def in_fragments(cut: Callable[[int, bool, bytes], List[bytes]]) -> List[Record]:
    """A frame for each fragment of each packet."""
    return [whole(it) for at, (is_up, number, octets) in enumerate(attach()) for it in cut(at + 1, is_up, packet(is_up, data(number, number, octets)))]


def ipv4_fragments(identification: int, is_up: bool, octets: bytes) -> List[bytes]:
    source, target = (STATION, MME) if is_up else (MME, STATION)
    first = ipv4(octets[:48], source, target, identification=identification, has_more=True)
    return [ethernet(it) for it in (first, ipv4(octets[48:], source, target, identification=identification, at=48))]


def ipv6_fragments(identification: int, is_up: bool, octets: bytes) -> List[bytes]:
    if not is_up:
        return [ethernet(in_ipv6(False, octets), IPV6_KIND)]
    parts = ipv6_fragment(octets[:48], 0, True, identification), ipv6_fragment(octets[48:], 48, False, identification)
    return [ethernet(it, IPV6_KIND) for it in parts]


def up(*chunks: bytes, source: str = STATION, port: int = 36412, tag: int = UP_TAG) -> bytes:
    """A frame of a packet from a base station."""
    return ethernet(ipv4(sctp(*chunks, port=port, tag=tag), source))


def parts() -> List[Record]:
    """Each message in three parts, of which the last comes first."""
    records = []
    for is_up, number, octets in attach():
        tsn, cuts = 3 * number, (octets[:10], octets[10:20], octets[20:])
        chunks = [data(tsn + at, number, it, flags) for at, (it, flags) in enumerate(zip(cuts, (BEGINS, 0, ENDS)))]
        records += [whole(ethernet(in_ipv4(is_up, packet(is_up, it)))) for it in chunks[::-1]]
    return records


def bundles() -> List[Record]:
    """The messages of the base station two in a packet, behind a chunk that holds no data."""
    pairs = [[data(at + it, at + it, UP[at + it]) for it in (0, 1)] for at in (0, 2, 4)]
    return [whole(up(SACK, *it)) for it in pairs]


def sent_again() -> List[Record]:
    """Each message of the base station twice, the second time in one packet with the next one."""
    chunks = [data(number, number, octets) for number, octets in enumerate(UP)]
    return [whole(up(chunks[0])), *(whole(up(*chunks[at : at + 2])) for at in range(5)), whole(up(chunks[5]))]


def known_ports() -> List[Record]:
    """Six base stations, each from a port that is another protocol's, send the first message."""
    ports = (2904, 2905, 14001, 29118, 36422, 38412)
    return [whole(up(data(1, 0, UP[0]), source=f"192.0.2.{at}", port=port, tag=at)) for at, port in enumerate(ports, 1)]


def snap() -> List[Record]:
    """Frames of which too little was kept; the fourth message is sent again, whole."""
    records = [whole(up(data(0, 0, UP[0]))), less(up(data(1, 1, UP[1])), 10), less(up(data(2, 2, UP[2]), data(3, 3, UP[3])), 4)]
    records += [less(up(data(4, 4, UP[4]), data(5, 5, UP[5])), len(data(5, 5, UP[5])) - 10), less(up(data(6, 6, UP[0])), len(data(6, 6, UP[0])) + 4)]
    records += [less(up(SACK), 4), less(up(SACK, data(7, 7, UP[0])), len(data(7, 7, UP[0])) + 2), less(up(data(8, 8, UP[0], payload=27)), 8)]
    return [*records, whole(up(data(3, 3, UP[3])))]


def two_addresses() -> List[Record]:
    """One association, whose station sends from two addresses, and another behind it."""
    records = [whole(up(data(at, at, it), source=("192.0.2.1", "198.51.100.1")[at % 2])) for at, it in enumerate(UP)]
    return [*records, whole(up(data(0, 0, UP[0]), source="192.0.2.2", tag=9))]


def one_address() -> List[Record]:
    """Behind one address one station at another port, and two at one port, whose packets the tags of their associations tell apart."""
    ends = ((36412, 5), (36413, 5), (36412, 6))
    return [whole(up(data(at, at, UP[at]), source="192.0.2.1", port=port, tag=tag)) for at in (0, 1) for port, tag in ends]


def out_of_order() -> List[Record]:
    """Four messages of stream 1, whose numbers begin anew, and what comes between them of stream 2, unordered, and from another station."""
    at = {it: data(10 + it, 65534 + it, UP[it]) for it in range(4)}
    other = data(20, 7, UP[4], stream=2)
    unordered = data(21, 0, UP[5], flags=WHOLE | 4)
    another = up(data(1, 0, UP[0]), source="10.1.0.2", tag=3)
    return [whole(it) for it in (up(at[0]), up(at[2]), up(other), up(at[3]), another, up(at[1]), up(unordered))]


def payloads() -> List[Record]:
    """Packets with several payload protocols: Diameter, none, X2AP, and S1AP between them; one whose S1AP is a part of a message."""
    first = up(data(0, 0, UP[3], payload=46), data(1, 0, UP[0]), data(2, 0, UP[3], payload=0), data(3, 1, UP[1]), data(4, 0, UP[3], payload=27))
    second = up(data(5, 0, UP[3], payload=46), data(6, 2, UP[2][:20], BEGINS), data(8, 0, UP[3], payload=27))
    return [whole(first), whole(second), whole(up(data(7, 2, UP[2][20:], ENDS)))]


def reasons() -> List[Record]:
    """One message of the attach, and one of each that may be left out."""
    records = [whole(up(data(0, 0, UP[0]))), whole(ethernet(in_ipv4(False, packet(False, data(0, 0, DOWN[0])))))]
    records += [whole(up(data(1, 1, bytes.fromhex("00110000")))), whole(up(data(2, 2, bytes.fromhex("00164090") + bytes(5000))))]
    records += [whole(up(data(0, 0, UP[0]))), whole(up(data(4, 3, UP[1], payload=27))), whole(up(data(5, 4, UP[1][:9], BEGINS)))]
    records += [whole(up(i_data(7, UP[1]))), whole(up(data(8, 6, UP[1])[:-8]))]
    records += [whole(ethernet(ipv4(sctp(data(9, 7, UP[1]))[:48], identification=9, has_more=True)))]
    quoted = ipv4(sctp(data(10, 8, UP[1])))
    return [*records, whole(ethernet(ipv4(struct.pack(">BBHI", 3, 2, 0, 0) + quoted, protocol=1)))]


CAPTURES: Dict[str, bytes] = {
    "ethernet.pcap": pcap(each(ethernet)),
    "vlan.pcap": pcap(each(vlan)),
    "two_vlans.pcap": pcap(each(lambda it: ethernet(struct.pack(">HHHH", 7, VLAN_KIND, 100, IPV4_KIND) + it, 0x88A8))),
    "sll.pcap": pcap(each(sll), SLL),
    "sll2.pcap": pcap(each(sll2), SLL2),
    "raw.pcap": pcap(each(lambda it: it), RAW),
    "null.pcap": pcap(each(null), NULL),
    "nanosecond.pcap": pcap(each(ethernet), is_nano=True),
    "big_endian.pcap": pcap(each(ethernet), order=">"),
    "pcapng.pcapng": pcapng(each(ethernet)),
    "ipv4_fragments.pcap": pcap(in_fragments(ipv4_fragments)),
    "ipv6.pcap": pcap(each(lambda it: ethernet(it, IPV6_KIND), in_ipv6)),
    "ipv6_fragments.pcap": pcap(in_fragments(ipv6_fragments)),
    "udp.pcap": pcap(each(ethernet, lambda is_up, it: in_ipv4(is_up, udp(it), 17))),
    "parts.pcap": pcap(parts()),
    "bundles.pcap": pcap(bundles()),
    "sent_again.pcap": pcap(sent_again()),
    "known_ports.pcap": pcap(known_ports()),
    "snap.pcap": pcap(snap()),
    "two_addresses.pcap": pcap(two_addresses()),
    "one_address.pcap": pcap(one_address()),
    "out_of_order.pcap": pcap(out_of_order()),
    "payloads.pcap": pcap(payloads()),
    "cut_file.pcap": pcap(each(ethernet))[:-9],
    "cut_file.pcapng": pcapng(each(ethernet))[:-9],
    "reasons.pcap": pcap(reasons()),
    "bare_sctp.pcap": pcap([whole(sctp(data(0, 0, UP[0])))], BARE_SCTP),
}
