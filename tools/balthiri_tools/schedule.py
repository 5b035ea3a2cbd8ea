"""Schedules for the messages of a trace: what is to happen to each message, and to the calls and downs that it makes.

`plain` has each thing happen once, `lossy` loses, repeats and reorders, `stops` stops replicas. The same seed gives the same schedule.
"""

from __future__ import annotations

from random import Random
from typing import List

from .case_text import MOST_EVENTS, SCHEDULE
from .command import BadInput
from .turns import Call, Message, Turn

Lines = List[str]


class Replicas:
    """The replicas 1 to a number, taken in turns."""

    def __init__(self, number: int) -> None:
        self.number = number
        self.last = 0

    def next(self) -> str:
        self.last = self.last % self.number + 1
        return str(self.last)

    def other(self, replica: str) -> str:
        """Another replica, where there is one."""
        return str(int(replica) % self.number + 1)


def _worked(replica: str) -> Lines:
    return [f"read {replica}", f"write {replica}"]


class Plain:
    """Each message is sent, taken, read, written and acknowledged once; each effect is pushed, accepted, answered and settled once."""

    def __init__(self, replicas: Replicas, random: Random) -> None:
        self.replicas, self.random = replicas, random

    def message(self, it: Message) -> Lines:
        name, replica = f"{it.device} {it.number}", self.replicas.next()
        return [f"send {name}", f"take {replica} {name}", *_worked(replica), f"reply {name}"]

    def call(self, device: int, it: Call) -> Lines:
        name, replica = f"{device} {it.lane} {it.number}", self.replicas.next()
        answered = [f"answer {replica} {name}", *_worked(replica)] if it.is_awaited else []
        return [f"push {name}", f"effect {name}", *answered, f"settle {name}"]

    def downs(self, device: int, numbers: List[int]) -> Lines:
        return [f"{word} {device} down {number}" for number in numbers for word in ("push", "effect", "settle")]


class Lossy(Plain):
    """Packets are lost and sent again, come more than once, or come in another order; replicas race for the same message."""

    def message(self, it: Message) -> Lines:
        name, replica = f"{it.device} {it.number}", self.replicas.next()
        other, sent = self.replicas.other(replica), f"send {name}"
        way = self.random.randrange(5)
        once = [sent, f"take {replica} {name}", *_worked(replica)]
        if way == 0:  # the message is lost, and sent again
            return [sent, *once, f"reply {name}"]
        if way == 1:  # the reply is lost: the message is sent again, and the stored reply given
            return [*once, sent, f"take {other} {name}", f"read {other}", f"reply {name}"]
        if way == 2:  # the message and its reply come twice
            return [*once, f"take {other} {name}", f"read {other}", f"reply {name}", f"reply {name}"]
        if way == 3:  # two replicas race
            both = replica, other
            return [sent, *(f"take {it} {name}" for it in both), *(f"read {it}" for it in both), *(f"write {it}" for it in both), f"reply {name}"]
        later = f"{it.device} {it.number + 1}"  # the next message, where there is one, overtakes
        return [f"send {later}", f"take {other} {later}", f"read {other}", *once, f"reply {name}"]

    def call(self, device: int, it: Call) -> Lines:
        name, replica = f"{device} {it.lane} {it.number}", self.replicas.next()
        other, pushed, arrives = self.replicas.other(replica), f"push {name}", f"effect {name}"
        way = self.random.randrange(4)
        answered = [f"answer {replica} {name}", *_worked(replica)] if it.is_awaited else []
        if way == 0:  # the call is lost, and pushed again
            return [pushed, pushed, arrives, *answered, f"settle {name}"]
        if way == 1:  # the call and its acknowledgement come twice
            return [pushed, arrives, arrives, *answered, f"settle {name}", f"settle {name}"]
        if way == 2 and it.is_awaited:  # two replicas race for the answer
            race = [f"{word} {at}{rest}" for word, rest in (("answer", f" {name}"), ("read", ""), ("write", "")) for at in (replica, other)]
            return [pushed, arrives, *race, f"settle {name}"]
        late = [f"answer {other} {name}", f"read {other}"] if it.is_awaited else []  # the answer comes again, late
        return [pushed, arrives, *answered, *late, f"settle {name}"]

    def downs(self, device: int, numbers: List[int]) -> Lines:
        if len(numbers) < 2 or self.random.randrange(2):
            return super().downs(device, numbers)
        pushed = [f"push {device} down {number}" for number in numbers]
        ahead = [f"effect {device} down {number}" for number in reversed(numbers)]  # the last comes first, and is dropped
        return pushed + ahead + super().downs(device, numbers)[1:]


class Stops(Plain):
    """A replica stops before it reads, before it writes, or before its reply arrives; another takes over."""

    def message(self, it: Message) -> Lines:
        name, replica = f"{it.device} {it.number}", self.replicas.next()
        other, sent = self.replicas.other(replica), f"send {it.device} {it.number}"
        once, again = [sent, f"take {replica} {name}"], [sent, f"take {other} {name}"]
        way = self.random.randrange(4)
        if way == 0:  # before it reads
            return [*once, f"stop {replica}", *again, *_worked(other), f"reply {name}"]
        if way == 1:  # between reading and writing
            return [*once, f"read {replica}", f"stop {replica}", f"write {replica}", *again, *_worked(other), f"reply {name}"]
        if way == 2:  # between its commit and its reply
            return [*once, *_worked(replica), f"stop {replica}", *again, f"read {other}", f"reply {name}"]
        return [*once, *_worked(replica), f"reply {name}"]

    def call(self, device: int, it: Call) -> Lines:
        name, replica = f"{device} {it.lane} {it.number}", self.replicas.next()
        other, way = self.replicas.other(replica), self.random.randrange(3)
        if not it.is_awaited or way == 2:
            answered = [f"answer {replica} {name}", *_worked(replica)] if it.is_awaited else []
        else:
            front = [f"answer {replica} {name}"] + ([f"read {replica}"] if way else [])
            answered = [*front, f"stop {replica}", f"answer {other} {name}", *_worked(other)]
        return [f"push {name}", f"effect {name}", *answered, f"settle {name}"]


KINDS = {"plain": Plain, "lossy": Lossy, "stops": Stops}


def schedule_of(kind: str, turns: List[Turn], seed: int, replicas: int) -> Lines:
    """The events of a schedule of this kind, a line each."""
    makes = KINDS[kind](Replicas(replicas), Random(seed))
    lines: Lines = []
    for turn in turns:
        device = turn.message.device
        lines += makes.message(turn.message)
        for call in turn.calls:
            lines += makes.call(device, call)
        lines += makes.downs(device, [it.number for it in turn.downs])
    if len(lines) > MOST_EVENTS:
        raise BadInput(f"the schedule has {len(lines)} events, and a case text takes {MOST_EVENTS}")
    return lines


def case_with(case: bytes, schedule: Lines) -> bytes:
    """The case text with a schedule behind it."""
    return case + "\n".join([SCHEDULE, *schedule, ""]).encode()
