"""How many calls and downs a device has made after each of its messages, as the program says.

The program prints what becomes of whole devices. Of short devices it is asked for the first message of each, for the first two, and so on. Of a long device
that would take a run for each message. There it is guessed what a message makes, from what a message of its kind made behind such a message before, and
the program then runs a schedule in which each guess shows: a push of the last call or down that is guessed has to be `pushed`, one of the next has to be
`void outbox`. What shows to be wrong is asked for. One such run tells of as many devices as its schedule has room for.
"""

from __future__ import annotations

from dataclasses import dataclass, field
from typing import Dict, Iterator, List, NamedTuple, Optional, Set, Tuple

from .case_text import MOST_EVENTS, CaseText, TraceLine
from .command import Progress
from .messages import kind_of, name_of, name_of_line
from .printed import Final
from .program import Program

SHORT = 24  # of so many messages what each makes is asked for
MESSAGES_A_REPLY = 4  # a device may have so many messages that no reply has acknowledged
PURGE = "purge"  # the one call whose answer no step awaits


class Counts(NamedTuple):
    """How many effects a device has on each lane."""

    gateway: int = 0
    subscriber: int = 0
    down: int = 0


LANES = Counts._fields


@dataclass(frozen=True)
class Message:
    """A line of the trace as a message of a device, numbered from 1."""

    device: int
    number: int
    line: TraceLine


def counts_in(final: Final) -> Counts:
    return Counts(len(final.gateway), len(final.subscriber), len(final.downs))


def effects_of(final: Final, lane: str) -> List[str]:
    """The names of a lane's effects, in order."""
    return [name_of(it.octets) for it in final.downs] if lane == "down" else [it.split(" ")[0] for it in final.calls(lane)]


# What a message made: the names of its effects, by lane. What a guess goes by: the message's names, and the names of those before it with what they made.
Made = Tuple[Tuple[str, ...], ...]
Sign = Tuple[object, ...]


@dataclass
class Asked:
    """The program and a case, of which it is asked for parts."""

    program: Program
    case: CaseText
    most_events: int = MOST_EVENTS

    def finals(self, messages: List[Message]) -> Dict[str, Final]:
        """What becomes of each device, where the trace has these messages alone."""
        return self.program.plain(self.case.with_trace([it.line for it in messages])).by_imsi()

    def answers(self, messages: List[Message], events: List[str]) -> List[str]:
        """What the events of a schedule come to, where the trace has these messages alone."""
        text = self.case.with_trace([it.line for it in messages]) + "\n".join(["[schedule]", *events, ""]).encode()
        lines = self.program.printed(["replay"], text).split(b"\n")[: len(events)]
        return [it.decode("latin-1").partition(": ")[2] for it in lines]


@dataclass
class Device:
    """A device: its messages, what becomes of it, and the counts after none of its messages, after one, and so on, as far as they are known or guessed."""

    imsi: str
    messages: List[Message]
    effects: Dict[str, List[str]]
    whole: Counts
    counts: List[Counts] = field(default_factory=lambda: [Counts()])

    @staticmethod
    def of(imsi: str, messages: List[Message], final: Final) -> "Device":
        return Device(imsi, messages, {lane: effects_of(final, lane) for lane in LANES}, counts_in(final))

    def made(self, number: int) -> Made:
        before, after = self.counts[number - 1 : number + 1]
        return tuple(tuple(self.effects[lane][first:last]) for lane, first, last in zip(LANES, before, after))

    def signs(self, number: int) -> List[Sign]:
        """What a guess of this message goes by, where the counts before it stand: at first two messages before it, then one."""
        before = [(_names(self.messages[it - 1]), self.made(it)) for it in (number - 1, number - 2) if it > 0]
        return [(_names(self.messages[number - 1]), *before[:far]) for far in (2, 1)]

    def takes(self, made: Made) -> bool:
        """Takes what a message is guessed to make, if that is what comes next on each lane."""
        before = self.counts[-1]
        after = Counts(*(first + len(names) for first, names in zip(before, made)))
        self.counts.append(after)
        if self.made(len(self.counts) - 1) == made:
            return True
        self.counts.pop()
        return False


@dataclass
class Seen:
    """What messages made, by their signs."""

    made: Dict[Sign, Made] = field(default_factory=dict)

    def learn(self, device: Device, number: int) -> None:
        self.made.update((it, device.made(number)) for it in device.signs(number))

    def forget(self, device: Device, number: int) -> None:
        for it in device.signs(number):
            self.made.pop(it, None)

    def guesses(self, device: Device) -> bool:
        """Adds a guess to the counts of a device, where there is one."""
        found = [self.made[it] for it in device.signs(len(device.counts)) if it in self.made]
        return bool(found) and device.takes(found[0])


def _names(message: Message) -> str:
    kind = kind_of(message.line.octets() or b"")
    return f"{kind.name if kind else ''} {name_of_line(message.line)}"


@dataclass
class Probe:
    """A schedule in which the counts of a device show, what each event is to come to, and which message it tells of."""

    device: Device
    events: List[str] = field(default_factory=list)
    expected: List[str] = field(default_factory=list)
    of_message: List[int] = field(default_factory=list)
    version: int = 0

    def add(self, number: int, event: str, answer: str) -> None:
        self.events.append(event)
        self.expected.append(answer)
        self.of_message.append(number)

    def worked(self, number: int, event: str) -> None:
        """Something is taken, read and written by replica 1."""
        self.add(number, event, "taken")
        self.add(number, "read 1", f"ready {self.version}")
        self.version += 1
        self.add(number, "write 1", f"committed {self.version}")

    def message(self, number: int) -> None:
        at = self.device.messages[0].device
        self.add(number, f"send {at} {number}", "sent")
        self.worked(number, f"take 1 {at} {number}")
        if number % MESSAGES_A_REPLY == 0:
            self.add(number, f"reply {at} {number}", f"acked {number}")
        before, after = self.device.counts[number - 1 : number + 1]
        for lane, call in self._calls(before, after):
            self.add(number, f"push {at} {lane} {call}", "pushed")
            self.add(number, f"effect {at} {lane} {call}", f"accepted {call}")
            if self.device.effects[lane][call - 1] != PURGE:
                self.worked(number, f"answer 1 {at} {lane} {call}")
        if after.down > before.down:
            self.add(number, f"push {at} down {after.down}", "pushed")
        for lane, count, whole in zip(LANES, after, self.device.whole):
            if count < whole:
                self.add(number, f"push {at} {lane} {count + 1}", "void outbox")

    def _calls(self, before: Counts, after: Counts) -> Iterator[Tuple[str, int]]:
        """The calls of a message as they follow one another: those of the subscriber server first, but a purge last."""
        calls = [("subscriber", it) for it in range(before.subscriber + 1, after.subscriber + 1)]
        calls += [("gateway", it) for it in range(before.gateway + 1, after.gateway + 1)]
        return iter(sorted(calls, key=lambda it: self.device.effects[it[0]][it[1] - 1] == PURGE))


def _probe_of(asked: Asked, device: Device) -> Tuple[Probe, int]:
    """The probe of as many messages as a schedule can show, and how many these are."""
    probe, shown = Probe(device), 0
    for number in range(1, len(device.counts)):
        probe.message(number)
        if len(probe.events) > asked.most_events:
            break
        shown = number
    del probe.events[asked.most_events :]
    return probe, shown


def _batches(asked: Asked, probes: List[Probe]) -> Iterator[List[Probe]]:
    """The probes in their order, as many at a time as a schedule has room for."""
    batch: List[Probe] = []
    for probe in probes:
        if batch and sum(len(it.events) for it in batch) + len(probe.events) > asked.most_events:
            yield batch
            batch = []
        batch.append(probe)
    if batch:
        yield batch


def _wrong_in(probe: Probe, answers: List[str]) -> Optional[int]:
    """The first message whose guess is wrong, None where all are right."""
    for number, expected, answer in zip(probe.of_message, probe.expected, answers):
        if answer != expected:
            return number
    return None


def first_wrong(asked: Asked, devices: List[Device], progress: Progress) -> List[Tuple[Optional[int], int]]:
    """Of each device the first message whose guess is wrong, None where all are right, of as many messages as a schedule can show; and how many these are.

    One run tells of as many devices as its schedule has room for."""
    made = [_probe_of(asked, it) for it in devices]
    wrong: List[Optional[int]] = []
    for batch in _batches(asked, [probe for probe, _ in made]):
        messages = [it for probe in batch for it in probe.device.messages[: len(probe.device.counts) - 1]]
        answers = asked.answers(sorted(messages, key=lambda it: it.line.line), [it for probe in batch for it in probe.events])
        for probe in batch:
            wrong.append(_wrong_in(probe, answers[: len(probe.events)]))
            del answers[: len(probe.events)]
        progress.at(len(wrong), len(devices))
    return [(number, shown) for number, (_, shown) in zip(wrong, made)]


def _next(asked: Asked, device: Device) -> Counts:
    """The counts after the message behind those whose counts are there."""
    return counts_in(asked.finals(device.messages[: len(device.counts)])[device.imsi])


def _ask(asked: Asked, device: Device, progress: Progress) -> None:
    """Asks for the counts after the next message. Where those before it were guessed wrongly, it goes back to the first that was."""
    before = counts_in(asked.finals(device.messages[: len(device.counts) - 1])[device.imsi])
    if before != device.counts[-1]:
        wrong, _ = first_wrong(asked, [device], progress)[0]
        del device.counts[wrong or len(device.counts) - 1 :]
    device.counts.append(_next(asked, device))


@dataclass
class Long:
    """A long device, and of which of its messages the counts behind them were asked for."""

    device: Device
    known: Set[int]

    def guess(self, asked: Asked, seen: Seen, progress: Progress) -> None:
        """Guesses the counts behind all messages, and asks where there is no guess."""
        device = self.device
        while len(device.counts) <= len(device.messages):
            if not seen.guesses(device):
                progress.at(len(device.counts), len(device.messages))
                _ask(asked, device, progress)
                seen.learn(device, len(device.counts) - 1)
                self.known.add(len(device.counts) - 1)

    def ends(self, wrong: Optional[int], shown: int, seen: Seen) -> bool:
        """Whether no guess that shows is wrong; else the counts from the first one on are taken back."""
        if wrong is not None and wrong not in self.known:
            del self.device.counts[wrong:]
            seen.forget(self.device, wrong)
            return False
        # of more messages than a schedule can show, and behind one that it does not show as it is, each is asked for
        del self.device.counts[min(shown, wrong or shown) + 1 :]
        return True

    def ask_for_the_rest(self, asked: Asked, progress: Progress) -> None:
        while len(self.device.counts) <= len(self.device.messages):
            progress.at(len(self.device.counts), len(self.device.messages))
            self.device.counts.append(_next(asked, self.device))


def _follow(asked: Asked, devices: List[Device], seen: Seen, progress: Progress) -> None:
    """Finds the counts of long devices behind those that are known."""
    left = [Long(it, set(range(1, len(it.counts)))) for it in devices]
    while left:
        for it in left:
            it.guess(asked, seen, progress)
        told = first_wrong(asked, [it.device for it in left], progress)
        ended = [it.ends(wrong, shown, seen) for it, (wrong, shown) in zip(left, told)]
        for it, has_ended in zip(left, ended):
            if has_ended:
                it.ask_for_the_rest(asked, progress)
        left = [it for it, has_ended in zip(left, ended) if not has_ended]


def counts_of(asked: Asked, messages: Dict[int, List[Message]], finals: Dict[int, Final], progress: Progress) -> Dict[int, List[Counts]]:
    """Of each device that has messages the counts after none of them, after one, and so on."""
    devices = {it.device: Device.of(it.imsi, messages[it.device], finals[it.device]) for it in asked.case.subscribers if it.device in messages}
    most = min(SHORT, max((len(it) for it in messages.values()), default=0))
    for number in range(1, most + 1):
        progress.at(number, most)
        after = asked.finals([it for found in messages.values() for it in found if it.number <= number])
        for device in devices.values():
            if number <= len(device.messages):
                device.counts.append(counts_in(after[device.imsi]))
    seen = Seen()
    for device in devices.values():
        for number in range(1, len(device.counts)):
            seen.learn(device, number)
    _follow(asked, [it for it in devices.values() if len(it.messages) > SHORT], seen, progress)
    return {at: device.counts for at, device in devices.items()}
