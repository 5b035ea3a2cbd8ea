"""What the MME of a capture sent in answer to each message of a device, beside what the proved machine sends."""

from __future__ import annotations

from dataclasses import dataclass, field
from functools import cached_property
from typing import Dict, Iterator, List, Optional, Tuple

from .fields import explanation, fields_of
from .learnt import NOT_IN_PROFILE
from .messages import ACTIVATE_REQUEST, PAGING, PDN_REJECT, PDN_REQUEST, SESSION_NAMES, elements_of
from .per import Broken
from .values import ids_of

EQUAL, FIELDS, CAUSE, OTHER = "equal", "other fields", "another cause", "another message"
MME_ONLY, MACHINE_ONLY, ORDER = "only the MME's", "only the machine's", "another order"
VERDICTS = (EQUAL, FIELDS, CAUSE, OTHER, MME_ONLY, MACHINE_ONLY, ORDER)
ATTACH = "Attach request"
ASKS, GRANTS, REJECTS = (SESSION_NAMES[it] for it in (PDN_REQUEST, ACTIVATE_REQUEST, PDN_REJECT))  # of a second connection
BEFORE_THE_CAPTURE = "its attach is not in the capture"
NEAR = 8  # so many messages of a device apart an answer is looked for, where it is not behind its own message

# The messages to devices that the profile has, by their names.
OF_THE_PROFILE = ("Authentication request", "Authentication reject", "Security mode command", "Attach accept", "Attach reject", "Service reject")
OF_THE_PROFILE += ("Detach accept", "Tracking area update accept", "Tracking area update reject", "InitialContextSetupRequest", "UEContextReleaseCommand", PAGING)
OF_THE_PROFILE += (GRANTS, REJECTS)


@dataclass(frozen=True)
class Sent:
    """A message to a device: its base station, its name, its octets; where the capture's MME sent it, its frame and time."""

    station: int
    name: str
    message: bytes
    frame: str = ""
    time: str = ""

    @cached_property
    def place(self) -> Tuple[str, str]:
        """The connection that it is on, by its base station and that station's number of it."""
        try:
            return str(self.station), str(ids_of(elements_of(self.message))[1])
        except Broken:
            return str(self.station), ""

    def is_like(self, other: "Sent") -> bool:
        """Whether it is the same message of the same connection, whatever its fields."""
        return self.name == other.name and self.place == other.place


@dataclass(frozen=True)
class Difference:
    """A field with its two values, and what of the profile explains that they differ."""

    name: str
    mme: str
    machine: str
    explained: str


@dataclass
class Answer:
    """One message of each, or of one of them; what explains the difference, where something does."""

    verdict: str
    mme: Optional[Sent]
    machine: Optional[Sent]
    fields: List[Difference] = field(default_factory=list)
    explained: str = ""

    @property
    def is_equal(self) -> bool:
        return self.verdict == EQUAL

    @property
    def differs(self) -> bool:
        """Whether they differ in what the profile does not explain."""
        return not self.is_equal and not self.explained


@dataclass
class Exchange:
    """A message of a base station, or a notice of the gateway, with what both sent in answer; why it is none of the machine's; why the machine may be in another
    state than the MME."""

    frame: str
    time: str
    station: int
    name: str
    out: str = ""
    state: str = ""
    mme: List[Sent] = field(default_factory=list)
    machine: List[Sent] = field(default_factory=list)
    answers: List[Answer] = field(default_factory=list)
    is_notice: bool = False

    @property
    def is_of_another_profile(self) -> bool:
        return self.out == NOT_IN_PROFILE


def set_states(exchanges: List[Exchange]) -> None:
    """Where the machine did not see the attach, or not a message since, it need not be in the state of the MME."""
    has_attached, behind = False, ""
    for it in exchanges:
        if it.out and not it.is_of_another_profile:
            behind = f"behind a message {it.out}"
        elif it.name == ATTACH and not it.out:
            has_attached, behind = True, ""
        it.state = behind or ("" if has_attached else BEFORE_THE_CAPTURE)


def _differences(mme: Sent, machine: Sent, is_learnt: bool) -> Iterator[Difference]:
    both = [{**dict(zip(("base station", "eNB-UE-S1AP-ID"), it.place)), **fields_of(it.message)} for it in (mme, machine)]
    for name in dict.fromkeys([*both[0], *both[1]]):
        values = [it.get(name, "") for it in both]
        if values[0] != values[1]:
            yield Difference(name, values[0], values[1], explanation(name, values[0], values[1], is_learnt))


def _pair(mme: Sent, machine: Sent, is_learnt: bool, order: Optional[str] = None) -> Answer:
    """Two messages of one name; where they do not come in one order, what explains that, or no text."""
    fields = list(_differences(mme, machine, is_learnt))
    told = ", ".join(dict.fromkeys(it.explained for it in fields if it.explained))
    left = [it for it in fields if not it.explained]
    if left:
        return Answer(CAUSE if [it.name for it in left] == ["cause"] else FIELDS, mme, machine, fields)
    if order is not None:
        return Answer(ORDER, mme, machine, fields, order)
    return Answer(FIELDS if fields else EQUAL, mme, machine, fields, told)


class Compared:
    """Pairs the messages of a device: of one name in one exchange, then of one name on one connection, then what is left of an exchange."""

    def __init__(self, exchanges: List[Exchange], is_learnt: bool) -> None:
        self.exchanges, self.is_learnt = exchanges, is_learnt
        self.mme: Dict[int, List[Sent]] = {at: list(it.mme) for at, it in enumerate(exchanges)}
        self.machine: Dict[int, List[Sent]] = {at: list(it.machine) for at, it in enumerate(exchanges)}
        self.at_machine: Dict[int, List[Tuple[int, Answer]]] = {at: [] for at in range(len(exchanges))}

    def run(self) -> None:
        set_states(self.exchanges)
        for at in range(len(self.exchanges)):
            self._same_names(at)
        for at in range(len(self.exchanges)):
            self._elsewhere(at)
        for at, it in enumerate(self.exchanges):
            self._rest(at, it)
            it.answers = [answer for _, answer in sorted(self.at_machine[at], key=lambda of: of[0])]

    def _add(self, at: int, answer: Answer) -> None:
        """Takes an answer in at its place in the exchange: that of the MME's message, or else behind those."""
        sent = self.exchanges[at].mme
        place = next((number for number, it in enumerate(sent) if it is answer.mme), len(sent))
        self.at_machine[at].append((place, answer))

    def _same_names(self, at: int) -> None:
        last = -1
        for machine in list(self.machine[at]):
            found = next((it for it in self.mme[at] if it.is_like(machine)), None)
            if found is None:
                continue
            place = next(number for number, it in enumerate(self.exchanges[at].mme) if it is found)
            self._add(at, _pair(found, machine, self.is_learnt, None if place > last else self.exchanges[at].state))
            last = max(last, place)
            self._drop(self.mme[at], found)
            self._drop(self.machine[at], machine)

    @staticmethod
    def _drop(sent: List[Sent], one: Sent) -> None:
        sent[:] = [it for it in sent if it is not one]

    def _elsewhere(self, at: int) -> None:
        """What the MME sent behind another message that is near, the nearest first."""
        near = sorted(range(max(0, at - NEAR), min(len(self.exchanges), at + NEAR + 1)), key=lambda to: (abs(to - at), -to))
        for machine in list(self.machine[at]):
            for to in near:
                found = next((it for it in self.mme[to] if it.is_like(machine)), None)
                if found:
                    other = self.exchanges[to]
                    told = f"the profile has no {other.name}" if other.is_of_another_profile else other.state
                    self._add(to, _pair(found, machine, self.is_learnt, told))
                    self._drop(self.mme[to], found)
                    self._drop(self.machine[at], machine)
                    break

    def _rest(self, at: int, it: Exchange) -> None:
        sent = [one for one in self.mme[at] if not self._why_alone(one, at)]
        for mme, machine in zip(sent, list(self.machine[at])):
            is_one = mme.name == machine.name
            self._add(at, _pair(mme, machine, self.is_learnt) if is_one else Answer(OTHER, mme, machine, [], self._why_other(mme, machine, it)))
            self._drop(self.mme[at], mme)
            self._drop(self.machine[at], machine)
        for mme in self.mme[at]:
            self._add(at, Answer(MME_ONLY, mme, None, [], self._why_alone(mme, at) or it.state))
        for machine in self.machine[at]:
            self._add(at, Answer(MACHINE_ONLY, None, machine, [], it.state))

    def _has_second(self, at: int) -> bool:
        """Whether the machine has granted a second connection since the device attached."""
        for it in reversed(self.exchanges[: at + 1]):
            if any(one.name == GRANTS for one in it.machine):
                return True
            if it.name == ATTACH:
                return False
        return False

    def _why_other(self, mme: Sent, machine: Sent, it: Exchange) -> str:
        """What explains that they send different messages."""
        if self.is_learnt and (mme.name, machine.name) == (GRANTS, REJECTS):
            return "the capture tells no name and address of it that a row takes"
        return it.state

    def _why_alone(self, mme: Sent, at: int) -> str:
        """What of the profile explains that the MME alone sends a message."""
        it = self.exchanges[at]
        if mme.name not in OF_THE_PROFILE:
            return f"the profile has no {mme.name}"
        if it.is_of_another_profile:
            return f"the profile has no {it.name}"
        if it.name == ASKS and not it.machine and self._has_second(at):
            return "the profile has no third connection"
        is_repeat = any(other is not mme and other.message == mme.message for other in it.mme)
        return "no timers: it is a repeat" if is_repeat else ""


def compare(exchanges: List[Exchange], is_learnt: bool) -> None:
    """Gives each exchange of a device its answers. Of a row that was learnt the peers gave one value each."""
    Compared(exchanges, is_learnt).run()
