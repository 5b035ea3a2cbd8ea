"""NAS messages of a device: which one octets are, or why they are none, by letters.

It shares no code and no tables with the program. What is read and what is refused is by docs/FORMATS.md, "NAS": TS 24.301, 8 (messages) and 9 (their values). Who
wrote it had read `read_nas` before.
"""

from __future__ import annotations

SHORT, DISCRIMINATOR, KIND, IDENTITY = "sdki"


class Refused(Exception):
    """Octets are no message: the letter of the reason."""


class Octets:
    """Octets, read from the left to the right."""

    def __init__(self, octets: bytes) -> None:
        self.octets = octets

    def take(self, count: int) -> bytes:
        if count > len(self.octets):
            raise Refused(SHORT)
        taken, self.octets = self.octets[:count], self.octets[count:]
        return taken

    def one(self) -> int:
        return self.take(1)[0]

    def counted(self) -> bytes:
        return self.take(self.one())

    def long_counted(self) -> bytes:
        return self.take(int.from_bytes(self.take(2), "big"))


def identity(value: bytes) -> None:
    """An EPS mobile identity (9.9.3.12): an IMSI of 15 digits, or a GUTI."""
    digits = [half for octet in value for half in (octet & 15, octet >> 4)][1:]
    is_imsi = len(value) == 8 and value[0] & 15 == 9 and all(it <= 9 for it in digits)
    if not is_imsi and not (len(value) == 11 and value[0] == 0xF6):
        raise Refused(IDENTITY)


def attach_request(octets: Octets) -> str:
    octets.one()
    identity(octets.counted())
    if len(octets.counted()) < 2 or len(octets.long_counted()) < 3:
        raise Refused(SHORT)
    return "A"


def with_identity(octets: Octets, letter: str) -> str:
    octets.one()
    identity(octets.counted())
    return letter


def mobility(octets: Octets) -> str:
    kind = octets.one()
    if kind == 0x41:
        return attach_request(octets)
    if kind == 0x43:
        octets.long_counted()
        return "C"
    if kind in (0x45, 0x48):
        return with_identity(octets, "D" if kind == 0x45 else "U")
    if kind == 0x53:
        octets.counted()
        return "R"
    if kind == 0x5F:
        octets.one()
        return "J"
    if kind == 0x5E:
        return "M"
    raise Refused(KIND)


def session(octets: Octets, bearer: int) -> str:
    octets.one()
    kind = octets.one()
    if kind == 0xD0:
        octets.one()
        return "P"
    if kind == 0xC2 and bearer == 6:
        return "B"
    raise Refused(KIND)


def plain(octets: Octets) -> str:
    first = octets.one()
    if first == 7:
        return mobility(octets)
    if first & 15 == 2:
        return session(octets, first >> 4)
    raise Refused(DISCRIMINATOR)


def letter_of(message: bytes) -> str:
    """The letter of a message, a capital, or of why octets are none."""
    octets = Octets(message)
    try:
        if message[:1] in (b"\x17", b"\x27", b"\x37", b"\x47"):
            octets.take(6)
            return plain(octets)
        if message[:1] == b"\xc7":
            octets.take(4)
            return "S"
        return plain(octets)
    except Refused as refused:
        return str(refused)
