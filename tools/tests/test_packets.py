"""Frames against worked octets of the standards' own."""

import struct
import unittest

from balthiri_tools.packets import Frame, crc32c, internet_checksum, pcap_of, station_address, station_of_address


class Checksums(unittest.TestCase):
    def test_crc32c_of_the_nine_digits(self) -> None:
        self.assertEqual(crc32c(b"123456789"), 0xE3069283)

    def test_crc32c_of_thirty_two_octets(self) -> None:
        # RFC 3720, B.4: zeros, ones, and 0 to 31, as they go onto the wire
        self.assertEqual(struct.pack("<I", crc32c(bytes(32))).hex(), "aa36918a")
        self.assertEqual(struct.pack("<I", crc32c(b"\xff" * 32)).hex(), "43aba862")
        self.assertEqual(struct.pack("<I", crc32c(bytes(range(32)))).hex(), "4e79dd46")

    def test_checksum_of_an_ip_header(self) -> None:
        header = bytes.fromhex("450000730000400040110000c0a80001c0a800c7")
        self.assertEqual(internet_checksum(header), 0xB861)


class Addresses(unittest.TestCase):
    def test_both_ways(self) -> None:
        for station, address in ((1, "10.1.0.1"), (255, "10.1.0.255"), (256, "10.1.1.0"), (65535, "10.1.255.255")):
            self.assertEqual(str(station_address(station)), address)
            self.assertEqual(station_of_address(address), station)

    def test_other_addresses_are_no_number(self) -> None:
        for address in ("10.1.0.0", "10.2.0.0", "10.0.0.1", "2001:db8::1", "192.168.0.2"):
            self.assertEqual(station_of_address(address), 0)


class Pcap(unittest.TestCase):
    def test_a_capture_of_two_frames(self) -> None:
        octets = pcap_of([Frame(True, 258, b"\x01\x02\x03"), Frame(False, 258, b"\x04")])
        self.assertEqual(octets[:24].hex(), "d4c3b2a1020004000000000000000000000004006500" + "0000")
        first, second = octets[24:][: 16 + 52], octets[24 + 16 + 52 :]
        # no seconds, no microseconds, 52 octets kept of 52
        self.assertEqual(first[:16].hex(), "00000000" "00000000" "34000000" "34000000")
        # an IPv4 header of 20 octets, 52 in all, no fragments, 64 hops, SCTP; from 10.1.1.2 to 10.0.0.1
        self.assertEqual(first[16:26].hex() + first[28:36].hex(), "45000034000040004084" "0a010102" "0a000001")
        # ports 36412; a DATA chunk that is a whole message, 19 octets, TSN 1, stream 1, number 0, payload 18; a filling octet
        self.assertEqual(first[36:40].hex() + first[48:].hex(), "8e3c8e3c" "00030013" "00000001" "0001" "0000" "00000012" "01020300")
        self.assertEqual(second[:16].hex(), "00000000" "e8030000" "34000000" "34000000")
        self.assertEqual(second[28:36].hex() + second[48:].hex(), "0a000001" "0a010102" "00030011" "00000001" "0001" "0000" "00000012" "04000000")

    def test_each_way_counts_its_messages(self) -> None:
        frames = [Frame(True, 1, b"\0"), Frame(True, 1, b"\0"), Frame(True, 2, b"\0"), Frame(False, 1, b"\0")]
        octets, at, numbers = pcap_of(frames), 24, []
        for _ in frames:
            numbers.append(octets[at + 16 + 20 + 12 + 4 :][:8].hex())
            at += 16 + 52
        self.assertEqual(numbers, ["0000000100010000", "0000000200010001", "0000000100010000", "0000000100010000"])
