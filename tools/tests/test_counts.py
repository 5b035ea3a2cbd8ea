"""Which message made what, of a program that only plays one: each device does what a rule of the test says."""

import unittest
from typing import Callable, Dict, List, Optional, Tuple, Type

from balthiri_tools.case_text import MOST_EVENTS, CaseText, Subscriber, TraceLine, read_case
from balthiri_tools.counts import SHORT, Asked, Counts, Message, counts_of
from balthiri_tools.printed import Down, Final, Printed
from crafted import DOWN, UP
from support import Quiet

# Of a message, by the indices in UP of the messages up to it: the effects of its step, then those of the answer to each call that is awaited.
Effect = Tuple[str, str]
Rule = Callable[[List[int]], List[List[Effect]]]

VECTORS, LOCATION, CREATE, PURGE = ("subscriber", "vectors"), ("subscriber", "location"), ("gateway", "create"), ("subscriber", "purge")
TO_DEVICE = [("down", it.hex()) for it in DOWN]


class Journal:
    """What a device made of so many messages."""

    def __init__(self) -> None:
        self.lanes: Dict[str, List[str]] = {"gateway": [], "subscriber": [], "down": []}
        self.version = 0
        self.awaited: Optional[Tuple[str, int]] = None

    def step(self, effects: List[Effect]) -> None:
        self.version += 1
        self.awaited = None
        for lane, words in effects:
            self.lanes[lane].append(words)
            if lane != "down" and words != "purge":
                self.awaited = lane, len(self.lanes[lane])


class World:
    """One device in a schedule, with one replica, as far as what is asked of it goes."""

    def __init__(self, steps: List[List[List[Effect]]]) -> None:
        self.steps, self.journal = steps, Journal()
        self.taken, self.left = 0, []  # type: int, List[List[Effect]]
        self.accepted = {"gateway": 0, "subscriber": 0}
        self.hand: Optional[Tuple[str, int]] = None

    def answer(self, event: str) -> str:
        word, *values = event.split(" ")
        return str(getattr(self, "_" + word)(*values[-2:]))

    def _send(self, *_: str) -> str:
        return "sent"

    def _reply(self, _: str, number: str) -> str:
        return f"acked {number}"

    def _take(self, _: str, number: str) -> str:
        self.hand = "message", int(number)
        return "taken"

    def _answer(self, lane: str, call: str) -> str:
        if int(call) > self.accepted[lane]:
            return "void link"
        self.hand = lane, int(call)
        return "taken"

    def _read(self, *_: str) -> str:
        assert self.hand
        if self.hand[0] == "message":
            return "waiting %s %d" % self.journal.awaited if self.journal.awaited else f"ready {self.journal.version}"
        return f"ready {self.journal.version}" if self.hand == self.journal.awaited else "old %s %d" % self.hand

    def _write(self, *_: str) -> str:
        assert self.hand
        if self.hand[0] == "message" and not self.journal.awaited:
            self.left = list(self.steps[self.taken])
            self.taken += 1
        elif self.hand != self.journal.awaited:
            return "void hand"
        self.journal.step(self.left.pop(0))
        return f"committed {self.journal.version}"

    def _push(self, lane: str, number: str) -> str:
        return "pushed" if int(number) <= len(self.journal.lanes[lane]) else "void outbox"

    def _effect(self, lane: str, call: str) -> str:
        if int(call) > len(self.journal.lanes[lane]):
            return "void link"
        self.accepted[lane] = max(self.accepted[lane], int(call))
        return f"accepted {call}"


def device_of(event: str, held: int) -> int:
    """The device that an event tells of. A read and a write are of the device whose input the replica holds."""
    word, *values = event.split(" ")
    return held if word in ("read", "write") else int(values[1] if word in ("take", "answer") else values[0])


class Played:
    """Stands for the program."""

    path = "played"

    def __init__(self, rule: Rule) -> None:
        self.rule, self.runs = rule, 0

    def steps(self, case: CaseText) -> Dict[int, List[List[List[Effect]]]]:
        kinds: Dict[int, List[int]] = {it.device: [] for it in case.subscribers}
        steps: Dict[int, List[List[List[Effect]]]] = {it.device: [] for it in case.subscribers}
        for line in case.trace:  # a station is one device
            kinds[line.station].append(UP.index(bytes.fromhex(line.text)))
            steps[line.station].append(self.rule(kinds[line.station]))
        return steps

    def finals(self, case: CaseText) -> List[Final]:
        finals = []
        for it in case.subscribers:
            steps, journal = self.steps(case)[it.device], Journal()
            for effects in (effects for step in steps for effects in step):
                journal.step(effects)
            downs = [Down(number, 1, bytes.fromhex(words)) for number, words in enumerate(journal.lanes["down"], 1)]
            finals.append(Final(it.imsi, len(steps), downs, journal.lanes["gateway"], journal.lanes["subscriber"], "session"))
        return finals

    def plain(self, octets: bytes) -> Printed:
        self.runs += 1
        return Printed(finals=self.finals(read_case(octets)))

    def printed(self, words: List[str], octets: bytes) -> bytes:
        self.runs += 1
        assert words == ["replay"]
        case = read_case(octets)
        worlds = {device: World(steps) for device, steps in self.steps(case).items()}
        text, device = b"", 0
        for it in case.schedule:
            device = device_of(it.text, device)
            text += f"event {it.number}: {worlds[device].answer(it.text)}\n".encode()
        return text


def plain_rule(kinds: List[int]) -> List[List[Effect]]:
    """Each kind makes the same each time."""
    made: List[List[List[Effect]]] = [[[VECTORS], [TO_DEVICE[0]]], [[TO_DEVICE[1]]], [[LOCATION], [CREATE], [TO_DEVICE[2]]], [[]], [[]], [[TO_DEVICE[0], PURGE]]]
    return made[kinds[-1]]


def rule_of_the_tenth(kinds: List[int]) -> List[List[Effect]]:
    """As above, but each tenth time nothing, and every seventh message a down more."""
    made = plain_rule(kinds) if kinds.count(kinds[-1]) % 10 else [[]]
    return [*made[:-1], [*made[-1], *([TO_DEVICE[1]] if len(kinds) % 7 == 0 else [])]]


class CountsOfDevices(unittest.TestCase):
    def check(self, rule: Rule, kinds: Dict[int, List[int]], most_events: int = MOST_EVENTS, played: "Type[Played]" = Played) -> int:
        """Checks what is found against the rule, and returns how often the program was asked."""
        program = played(rule)
        trace = [(device, kind) for at in range(max(map(len, kinds.values()))) for device, found in kinds.items() for kind in found[at : at + 1]]
        case = CaseText([Subscriber(it, f"{it:015}", it) for it in kinds], [TraceLine(at, device, UP[kind].hex()) for at, (device, kind) in enumerate(trace, 9)])
        case.subscriber_lines = [b'{"imsi":"%015d","tmsi":%d}' % (it, it) for it in kinds]
        messages: Dict[int, List[Message]] = {it: [] for it in kinds}
        for line in case.trace:
            messages[line.station].append(Message(line.station, len(messages[line.station]) + 1, line))
        finals = dict(zip(kinds, program.finals(case)))
        found = counts_of(Asked(program, case, most_events), messages, finals, Quiet())  # type: ignore[arg-type]
        for device, all_kinds in kinds.items():
            expected = [Counts()]
            for at in range(len(all_kinds)):
                lanes = [lane for effects in rule(all_kinds[: at + 1]) for lane, _ in effects]
                expected.append(Counts(*(count + lanes.count(lane) for lane, count in zip(Counts._fields, expected[-1]))))
            self.assertEqual(found[device], expected)
        return program.runs

    def test_short_devices_are_asked_for_each_message(self) -> None:
        self.assertEqual(self.check(plain_rule, {1: [0, 1, 2, 3, 4, 5], 2: [0, 0, 2]}), 6)
        self.assertEqual(self.check(rule_of_the_tenth, {1: [0, 1] * (SHORT // 2)}), SHORT)

    def test_a_long_device_takes_few_runs(self) -> None:
        # what each kind makes is known from its first messages, so that one schedule shows that all guesses are right
        self.assertEqual(self.check(plain_rule, {1: [0, 1, 2, 3, 4, 5] * 200}), SHORT + 1)

    def test_one_run_tells_of_many_long_devices(self) -> None:
        self.assertEqual(self.check(plain_rule, {it: [0, 1, 2, 3, 4, 5] * 10 for it in range(1, 41)}), SHORT + 1)
        # a schedule with room for two of them at a time
        self.assertEqual(self.check(plain_rule, {it: [3] * 50 for it in range(1, 6)}, most_events=450), SHORT + 3)

    def test_a_kind_that_comes_late(self) -> None:
        self.assertEqual(self.check(plain_rule, {1: [0, 1, 2] * 40 + [5] * 100 + [4, 5], 2: [3] * 50}) <= SHORT + 12, True)

    def test_wrong_guesses_are_found(self) -> None:
        for number in (100, 131):
            self.check(rule_of_the_tenth, {1: ([0, 1, 2, 3, 4, 5, 5, 2] * 20)[:number], 2: [2, 5] * 30})

    def test_beyond_what_a_schedule_can_show_each_message_is_asked_for(self) -> None:
        kinds = {1: [0, 1, 2, 3, 4, 5] * 10}
        self.assertGreater(self.check(plain_rule, kinds, most_events=300), SHORT + 20)
        self.check(rule_of_the_tenth, kinds, most_events=300)

    def test_where_no_schedule_shows_what_is_right(self) -> None:
        class Odd(Played):
            def printed(self, words: List[str], octets: bytes) -> bytes:
                return super().printed(words, octets).replace(b"event 400: ", b"event 400: void hand ")

        self.check(plain_rule, {1: [0, 1, 2, 3, 4, 5] * 20}, played=Odd)
