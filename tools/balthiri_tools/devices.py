"""The devices of a capture: what names each, and what the capture tells of it, with the frames that tell it."""

from __future__ import annotations

from dataclasses import dataclass, field
from typing import Dict, List, Optional, Tuple, Union

Guti = Tuple[int, int]  # the code of the MME, and the M-TMSI


@dataclass(frozen=True)
class Learnt:
    """A value of a column, and where it stands."""

    value: Union[str, int]
    frame: str


@dataclass
class Vector:
    """An authentication: what the MME asked, what the device answered, and whether the MME rejected it."""

    rand: bytes
    autn: bytes
    frame: str
    response: bytes = b""
    response_frame: str = ""
    is_rejected: bool = False


@dataclass
class Device:
    """A device, with the values of its columns, the first of each; another device where it turned out to be that one."""

    columns: Dict[str, Learnt] = field(default_factory=dict)
    vectors: List[Vector] = field(default_factory=list)
    forbidden: Dict[int, str] = field(default_factory=dict)
    algorithm: Optional[int] = None
    ciphered: int = 0
    same_as: Optional["Device"] = None

    def whole(self) -> "Device":
        """The device that this one turned out to be."""
        device = self
        while device.same_as is not None:
            device = device.same_as
        return device

    def learn(self, column: str, value: Union[str, int], frame: str) -> None:
        self.columns.setdefault(column, Learnt(value, frame))

    @property
    def imsi(self) -> Optional[str]:
        return str(self.columns["imsi"].value) if "imsi" in self.columns else None

    def vector(self) -> Optional[Vector]:
        """The authentication that a row has: the first one that was answered and not rejected, else the first."""
        right = (it for it in self.vectors if it.response and not it.is_rejected)
        return next(right, self.vectors[0] if self.vectors else None)

    def asked(self, rand: bytes, autn: bytes, frame: str) -> Vector:
        """The authentication that is asked for, which may be asked for again."""
        if not self.vectors or self.vectors[-1].rand != rand or self.vectors[-1].response:
            self.vectors.append(Vector(rand, autn, frame))
        return self.vectors[-1]

    def becomes(self, other: "Device") -> None:
        """It is another device, which knows from now on what this one does."""
        self.same_as = other
        other.columns = {**self.columns, **other.columns}
        other.vectors += self.vectors
        other.forbidden = {**self.forbidden, **other.forbidden}
        other.ciphered += self.ciphered
        other.algorithm = self.algorithm if other.algorithm is None else other.algorithm


class Devices:
    """All devices in the order in which they come, by what names them at the time."""

    def __init__(self, known: Dict[int, str]) -> None:
        self.known = known  # the IMSI of a given row by its M-TMSI
        self.all: List[Device] = []
        self._by_imsi: Dict[str, Device] = {}
        self._by_guti: Dict[Guti, Device] = {}

    def by_imsi(self, imsi: str, frame: str) -> Device:
        if imsi not in self._by_imsi:
            self._by_imsi[imsi] = self._new("imsi", imsi, frame)
        return self._by_imsi[imsi].whole()

    def by_guti(self, guti: Guti, frame: str) -> Device:
        if guti not in self._by_guti:
            imsi = self.known.get(guti[1])
            self._by_guti[guti] = self.by_imsi(imsi, frame) if imsi else self._new("tmsi", guti[1], frame)
        return self._by_guti[guti].whole()

    def found(self, name: "Union[None, str, Guti]") -> Optional[Device]:
        """The device that has this IMSI or this GUTI, if it has come."""
        if isinstance(name, tuple) and name not in self._by_guti:
            name = self.known.get(name[1])
        device = self._by_guti.get(name) if isinstance(name, tuple) else self._by_imsi.get(name or "")
        return device.whole() if device else None

    def _new(self, column: str, value: Union[str, int], frame: str) -> Device:
        device = Device()
        device.learn(column, value, frame)
        self.all.append(device)
        return device

    def give(self, device: Device, guti: Guti, frame: str) -> None:
        """The device has this GUTI from now on."""
        self._by_guti[guti] = device
        device.learn("tmsi", guti[1], frame)

    def named(self, device: Device, imsi: str, frame: str) -> Device:
        """The device that says this IMSI: a device that had none is told by it."""
        if device.imsi == imsi:
            return device
        if device.imsi is None and imsi not in self._by_imsi:
            device.learn("imsi", imsi, frame)
            self._by_imsi[imsi] = device
            return device
        other = self.by_imsi(imsi, frame)
        if device.imsi is None:
            device.becomes(other)
        return other

    def whole(self) -> List[Device]:
        """The devices that turned out to be no others."""
        return [it for it in self.all if it.same_as is None]
