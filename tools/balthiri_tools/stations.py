"""Which base station an association of a capture is of, and which one a way of an MME goes to."""

from __future__ import annotations

from dataclasses import dataclass, field
from typing import Dict, Iterable, Optional, Set, Tuple

from .command import BadInput
from .messages import elements_of
from .packets import LAST_STATION, station_of_address
from .per import Broken
from .sctp import Captured, Key
from .values import ids_of

Pair = Tuple[Optional[int], Optional[int]]


def _own_numbers(messages: Iterable[Captured]) -> Dict[Key, int]:
    """The numbers that addresses tell, each to the first association that sends from such an address."""
    own: Dict[Key, int] = {}
    taken = set()
    for it in messages:
        number = station_of_address(it.source)
        if number and number not in taken and it.association not in own:
            own[it.association] = number
            taken.add(number)
    return own


def _others(associations: Iterable[Key], own: Dict[Key, int]) -> Iterable[Tuple[Key, int]]:
    number, taken = 0, set(own.values())
    for it in associations:
        if it not in own:
            number = next((free for free in range(number + 1, LAST_STATION + 1) if free not in taken), 0)
            if not number:
                raise BadInput(f"the capture has more than {LAST_STATION} base stations")
            yield it, number


def stations_of(messages: "list[Captured]") -> Dict[Key, int]:
    """The number of each association with one of these messages: that of an address of it, or else the least that no other has, as they come.

    An association is one base station, from however many addresses it sends; two associations are two, also behind one address.
    """
    own = _own_numbers(messages)
    return {**own, **dict(_others(dict.fromkeys(it.association for it in messages), own))}


@dataclass
class _Ends:
    """What is seen of a way: the addresses that send and that receive, and the pairs of UE S1AP IDs in its messages."""

    sources: Set[str] = field(default_factory=set)
    targets: Set[str] = field(default_factory=set)
    pairs: Set[Pair] = field(default_factory=set)

    def answers(self, other: "_Ends") -> bool:
        return bool(self.targets & other.sources and self.sources & other.targets)


def _ends_of(messages: Iterable[Captured]) -> Dict[Key, _Ends]:
    ways: Dict[Key, _Ends] = {}
    for it in messages:
        ends = ways.setdefault(it.association, _Ends())
        ends.sources.add(it.source)
        ends.targets.add(it.target)
        try:
            ends.pairs.add(ids_of(elements_of(it.message)))
        except Broken:
            pass
    return ways


def stations_by_way(messages: "list[Captured]", stations: Dict[Key, int]) -> Dict[Key, int]:
    """The base station of each way, also of those of an MME: the station between the same ports and addresses, of several that with most pairs in common."""
    ways, by_way = _ends_of(messages), dict(stations)
    for (port, to_port, tag), ends in ways.items():
        if (port, to_port, tag) in stations:
            continue
        others = [it for it in stations if it[:2] == (to_port, port) and ends.answers(ways[it])] or [it for it in stations if ends.pairs & ways[it].pairs]
        if others:
            by_way[port, to_port, tag] = stations[max(others, key=lambda it: len(ends.pairs & ways[it].pairs))]
    return by_way
