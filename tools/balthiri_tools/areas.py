"""Of which tracking areas each base station is, and so to which of them a PAGING goes.

A base station is of an area that one of its messages names (TS 36.413, 9.1.7.1 and 9.1.7.3), wherever that stands in the trace: it has told the MME its areas
before all of them (9.1.8.4).
"""

from __future__ import annotations

from typing import Dict, Iterable, List, Set

from .case_text import NO_STATION, TraceLine
from .messages import elements_of
from .per import Broken
from .printed import Down
from .values import AREAS, TAI, Area, area_of, areas_of


def _area_named(line: TraceLine) -> "List[Area]":
    try:
        return [area_of(elements_of(line.octets() or b"")[TAI])]
    except (KeyError, Broken):
        return []


class Areas:
    """The base stations of each area, by the lines of a trace that are messages of devices."""

    def __init__(self, lines: Iterable[TraceLine]) -> None:
        self._stations: Dict[Area, Set[int]] = {}
        for line in lines:
            for area in _area_named(line):
                self._stations.setdefault(area, set()).add(line.station)

    def stations_of(self, down: Down) -> List[int]:
        """Where a message to a device goes: to its base station, or to each one of the areas that it names."""
        if down.station != NO_STATION:
            return [down.station]
        try:
            areas = areas_of(elements_of(down.octets)[AREAS])
        except (KeyError, Broken):
            return []
        return sorted(set().union(*(self._stations.get(it, set()) for it in areas)))
