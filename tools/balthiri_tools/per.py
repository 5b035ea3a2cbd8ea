"""Octets of aligned PER (ITU-T X.691), as far as the IEs of S1AP need it: read from left to right, and lengths and numbers written."""

from __future__ import annotations

MOST_OF_A_LENGTH = 16383  # a general length above it comes in fragments
LONG = 0x8000  # before a general length in two octets


class Broken(Exception):
    """Octets that are not the value that is read of them."""


class Reader:
    """Reads one value behind another. `Broken` is raised where the octets end before the value does, or the value is not of its root."""

    def __init__(self, octets: bytes) -> None:
        self.all = octets
        self.bit = 0

    def bits(self, number: int) -> int:
        value = 0
        for _ in range(number):
            if self.bit >= 8 * len(self.all):
                raise Broken
            value = value << 1 | self.all[self.bit // 8] >> (7 - self.bit % 8) & 1
            self.bit += 1
        return value

    def root(self) -> None:
        """An extension bit that is not set."""
        if self.bits(1):
            raise Broken

    def octets(self, number: int) -> bytes:
        """So many octets, aligned."""
        at = (self.bit + 7) // 8
        if at + number > len(self.all):
            raise Broken
        self.bit = 8 * (at + number)
        return self.all[at : at + number]

    def length(self) -> int:
        """A general length."""
        first = self.octets(1)[0]
        if first < 0x80:
            return first
        if first >= 0xC0:
            raise Broken
        return (first & 0x3F) << 8 | self.octets(1)[0]

    def number(self, most: int) -> int:
        """A whole number from 0 to a most that is above 65,535."""
        most_octets = (most.bit_length() + 7) // 8
        return int.from_bytes(self.octets(self.bits((most_octets - 1).bit_length()) + 1), "big")

    def extensions(self) -> None:
        """The iE-Extensions of a sequence, which are passed over."""
        for _ in range(int.from_bytes(self.octets(2), "big") + 1):
            self.octets(3)
            self.octets(self.length())


def length_octets(number: int) -> bytes:
    """The general length of so many octets."""
    if number > MOST_OF_A_LENGTH:
        raise Broken
    return bytes([number]) if number < 0x80 else (LONG | number).to_bytes(2, "big")


def number_octets(number: int) -> bytes:
    """A whole number of 0 to 4294967295: two bits for the count of its octets, and these."""
    octets = number.to_bytes(max(1, (number.bit_length() + 7) // 8), "big")
    return bytes([(len(octets) - 1) << 6]) + octets
