"""The gateway's notices that a capture tells. They are no messages of S1AP, but an MME pages a device that is idle behind each of them.

A round of PAGINGs of a device goes to each base station of its area. The next round begins where one of them gets it again, or behind a message of the device.
"""

from __future__ import annotations

from typing import Dict, Optional, Set, Tuple, Union

from .messages import PAGING, elements_of, kind_of
from .per import Broken
from .sctp import Key
from .values import PAGING_ID, paged_of


def paged_by(message: bytes) -> "Union[None, str, Tuple[int, int]]":
    """Whom a PAGING is for: an S-TMSI, or the digits of an IMSI; none of any other message."""
    kind = kind_of(message)
    if kind is None or kind.name != PAGING:
        return None
    try:
        return paged_of(elements_of(message)[PAGING_ID])
    except (KeyError, Broken):
        return None


class Rounds:
    """The rounds of PAGINGs of each device, by its IMSI, and to whom the last one went."""

    def __init__(self) -> None:
        self._paged: Dict[str, Set[Key]] = {}

    def begins(self, imsi: str, way: Key) -> bool:
        """Takes a PAGING on a way, and tells whether it begins a round."""
        paged = self._paged.setdefault(imsi, set())
        is_first = not paged or way in paged
        if is_first:
            paged.clear()
        paged.add(way)
        return is_first

    def ends(self, imsi: Optional[str]) -> None:
        """The device has sent a message."""
        self._paged.pop(imsi or "", None)
