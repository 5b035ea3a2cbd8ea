"""The trace of a capture: the PDUs of its base stations as lines of a case text, and how much of it is none of them."""

from __future__ import annotations

from collections import Counter
from dataclasses import dataclass, field
from typing import Dict, List, Optional, Sequence

from .capture import ELSEWHERE, FRAGMENTS_MISSING, Capture
from .case_text import MOST_OCTETS_OF_A_LINE, NOTICE
from .command import counted
from .messages import identity_of, kind_of
from .notices import Rounds, paged_by
from .rows import Row
from .sctp import BREAKS_OFF, CUT, CUT_BEFORE, IN_I_DATA, NOT_WHOLE, Captured
from .stations import stations_of

OF_THE_MME, OTHER, TOO_LONG = "of the MME", "of other procedures", "too long for a line"
# What may have been lines of the trace.
LOST = (TOO_LONG, CUT, CUT_BEFORE, NOT_WHOLE, IN_I_DATA, BREAKS_OFF, FRAGMENTS_MISSING, ELSEWHERE)


@dataclass
class Trace:
    """The lines of a trace with their comments, how many PDUs and notices they are, how much was left out, by what it is, and what is said where it breaks off."""

    lines: List[str] = field(default_factory=list)
    pdus: int = 0
    notices: int = 0
    left_out: "Counter[str]" = field(default_factory=Counter)
    end: str = ""

    def add(self, it: Captured, station: int, octets: bytes, changes: Sequence[str] = ()) -> bool:
        """Takes a PDU as a line, behind a comment with its frame, its time and what was changed in it, where it is not too long for one."""
        line = f"{station} {octets.hex()}"
        if len(line) > MOST_OCTETS_OF_A_LINE:
            self.left_out[TOO_LONG] += 1
            return False
        self.pdus += 1
        self.lines += ["; ".join([f"# frame {it.frame} at {it.time}", *changes]), line]
        return True

    def add_notice(self, it: Captured, imsi: str) -> None:
        """Takes a notice for a device that a PAGING tells of as a line."""
        self.notices += 1
        self.lines += [f"# frame {it.frame} at {it.time}; the MME pages the device", f"{NOTICE} {imsi}"]

    def told_lines(self) -> str:
        """How many lines there are."""
        return counted(self.pdus, "line") + (f" and {counted(self.notices, 'notice')}" if self.notices else "") + " of a trace"

    def is_missing_lines(self, lost: Sequence[str] = LOST) -> bool:
        """Whether S1AP of a base station was left out that would have been a line, or something that may have been."""
        return bool(self.end) or any(self.left_out[it] for it in lost)

    def told_left_out(self) -> str:
        """What was left out: how much of the MME and of other procedures always, of others where there is some."""
        return "left out: " + ", ".join(f"{number} {what}" for what, number in self.left_out.items() if number or what in (OF_THE_MME, OTHER))


class _Names:
    """The IMSIs of rows, by what names a device in a message."""

    def __init__(self, rows: Sequence[Row]) -> None:
        self._imsis: Dict[object, str] = {**{it.imsi: it.imsi for it in rows}, **{it.tmsi: it.imsi for it in rows}}

    def sent_by(self, message: bytes) -> Optional[str]:
        """The IMSI of the row whose device a message that begins a connection is of."""
        named = identity_of(message)
        return self._imsis.get(named.imsi) or self._imsis.get(named.tmsi)

    def paged(self, message: bytes) -> Optional[str]:
        """The IMSI of the row whose device is paged."""
        paged = paged_by(message)
        return self._imsis.get(paged[1] if isinstance(paged, tuple) else paged)


def trace_of(capture: Capture, rows: Sequence[Row] = ()) -> Trace:
    """The trace, with a notice for each round of PAGINGs of a row's device."""
    trace, names, rounds = Trace(left_out=Counter({OF_THE_MME: 0, OTHER: 0}), end=capture.end), _Names(rows), Rounds()
    kinds = [(it, kind_of(it.message)) for it in capture.messages]
    stations = stations_of([it for it, kind in kinds if kind and kind.is_up])
    for it, kind in kinds:
        if kind and kind.is_up:
            rounds.ends(names.sent_by(it.message))
            trace.add(it, stations[it.association], it.message)
            continue
        trace.left_out[OF_THE_MME if kind else OTHER] += 1
        imsi = names.paged(it.message)
        if imsi and rounds.begins(imsi, it.association):
            trace.add_notice(it, imsi)
    trace.left_out.update(capture.left_out)
    return trace
