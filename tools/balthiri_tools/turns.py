"""Which message of which device each line of a trace is, and what the machine makes of each message.

The program prints what becomes of whole devices; which message made what is found by `counts`. A line that the program refuses is no message.
"""

from __future__ import annotations

from dataclasses import dataclass, field
from typing import Dict, List

from .case_text import CaseText
from .command import BadInput, Progress
from .counts import Asked, Counts, Message, counts_of
from .messages import Identity, identity_of
from .printed import Down, Final, Printed
from .program import Program

# Of the calls that one message makes, a call of an earlier name comes first.
ORDER_OF_CALLS = ("vectors", "location", "create", "second-create", "modify", "second-modify", "release", "delete", "purge")
PURGE = "purge"  # the one call whose answer no step awaits


@dataclass(frozen=True)
class Call:
    """A call of a peer: its lane, its number there, its words."""

    lane: str
    number: int
    words: str

    @property
    def is_awaited(self) -> bool:
        return self.words != PURGE


@dataclass
class Turn:
    """A message, and the calls and downs that it made, those of the answers to its calls among them."""

    message: Message
    calls: List[Call] = field(default_factory=list)
    downs: List[Down] = field(default_factory=list)


def _devices_by_name(case: CaseText) -> "tuple[Dict[str, int], Dict[int, int]]":
    return {it.imsi: it.device for it in case.subscribers}, {it.tmsi: it.device for it in case.subscribers}


def messages_of(case: CaseText, printed: Printed) -> List[Message]:
    """The messages of the trace in its order: the lines that the program does not refuse."""
    by_imsi, by_tmsi = _devices_by_name(case)
    counts: Dict[int, int] = {}
    messages = []
    for line in case.trace:
        if line.line in printed.refused:
            continue
        named = Identity(imsi=line.text) if line.is_notice else identity_of(line.octets() or b"")
        device = named.mme_id or by_imsi.get(named.imsi or "") or by_tmsi.get(-1 if named.tmsi is None else named.tmsi)
        if device is None:
            raise BadInput(f"line {line.line}: it cannot be told whose message it is")
        counts[device] = counts.get(device, 0) + 1
        messages.append(Message(device, counts[device], line))
    _check_counts(case, printed, counts)
    return messages


def _check_counts(case: CaseText, printed: Printed, counts: Dict[int, int]) -> None:
    finals = printed.by_imsi()
    for it in case.subscribers:
        if finals[it.imsi].messages != counts.get(it.device, 0):
            raise BadInput(f"device {it.imsi}: the program took other messages than its lines tell")


def _turn(message: Message, final: Final, before: Counts, after: Counts) -> Turn:
    """A message with the calls and downs from one count to another, of those that a device has."""
    calls = []
    for lane, first, last in (("gateway", before.gateway, after.gateway), ("subscriber", before.subscriber, after.subscriber)):
        calls += [Call(lane, number, final.calls(lane)[number - 1]) for number in range(first + 1, last + 1)]
    calls.sort(key=lambda it: ORDER_OF_CALLS.index(it.words.split(" ")[0]))
    return Turn(message, calls, final.downs[before.down : after.down])


def turns_of(program: Program, case: CaseText, printed: Printed, progress: Progress) -> List[Turn]:
    """The messages of the trace in its order, each with what it made."""
    messages = messages_of(case, printed)
    finals = {it.device: printed.by_imsi()[it.imsi] for it in case.subscribers}
    by_device: Dict[int, List[Message]] = {}
    for it in messages:
        by_device.setdefault(it.device, []).append(it)
    counts = counts_of(Asked(program, case), by_device, finals, progress)
    return [_turn(it, finals[it.device], *counts[it.device][it.number - 1 : it.number + 1]) for it in messages]
