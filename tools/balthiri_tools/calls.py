"""What `s11` and `s6a` print, the calls of peers and their answers as GTPv2-C (TS 29.274) and as Diameter (TS 29.272), and the frames that they are."""

from __future__ import annotations

import re
from dataclasses import dataclass
from ipaddress import IPv4Address
from typing import Dict, List, Tuple

from .case_text import CaseText, Subscriber
from .command import BadInput
from .packets import S6A, S11, SUBSCRIBER_SERVER_ADDRESS, CallFrame, Interface
from .printed import Printed

CallKey = Tuple[int, str, int]  # a device, a lane, the number of a call
CallFrames = Dict[CallKey, Tuple[CallFrame, CallFrame]]  # a call and its answer

DEVICE = re.compile(r"device ([0-9]{15})")
MESSAGE = re.compile(r"(call|answer) ([1-9][0-9]*) ((?:[0-9a-f]{2})+)")
IN_TURN = ("call", "answer")


@dataclass(frozen=True)
class Lane:
    """A lane of calls: the interface that they go on, and the command that prints them as its messages."""

    name: str
    interface: Interface
    command: str

    def peer(self, subscriber: Subscriber) -> IPv4Address:
        """The address of the peer: the row's gateway, or the one subscriber server."""
        if self.interface is S6A:
            return SUBSCRIBER_SERVER_ADDRESS
        try:
            return IPv4Address(bytes.fromhex(subscriber.gateway))
        except ValueError:
            raise BadInput(f"device {subscriber.imsi}: no address of a gateway") from None


GATEWAY, SUBSCRIBER = Lane("gateway", S11, "s11"), Lane("subscriber", S6A, "s6a")
LANES_OF_CALLS = (GATEWAY, SUBSCRIBER)


def read_calls(command: str, octets: bytes) -> Dict[str, List[bytes]]:
    """The messages of each device by its IMSI, in the order of the text: its first call, the answer to it, its second call."""
    lines = octets.decode("latin-1").split("\n")
    devices: Dict[str, List[bytes]] = {}
    messages: List[bytes] = []
    is_cut = lines.pop() != ""
    for number, line in enumerate(lines, 1):
        device, message = DEVICE.fullmatch(line), MESSAGE.fullmatch(line)
        calls, is_answer = divmod(len(messages), 2)
        if device and not is_answer and device[1] not in devices:
            messages = devices[device[1]] = []
        elif message and devices and (message[1], int(message[2])) == (IN_TURN[is_answer], calls + 1):
            messages.append(bytes.fromhex(message[3]))
        else:
            raise BadInput(f"line {number} of the text of `{command}` is none that it prints there")
    if is_cut or len(messages) % 2:
        raise BadInput(f"the text of `{command}` breaks off")
    return devices


def frames_of_calls(case: CaseText, lane: Lane, octets: bytes) -> CallFrames:
    """The frames of the calls of a lane and of their answers, in the order of the text that the lane's command printed for the case."""
    devices, by_imsi = read_calls(lane.command, octets), {it.imsi: it for it in case.subscribers}
    if list(devices) != sorted(by_imsi):
        raise BadInput(f"the text of `{lane.command}` is not of this case text")
    frames: CallFrames = {}
    for imsi, messages in devices.items():
        peer = lane.peer(by_imsi[imsi])
        for number, (call, answer) in enumerate(zip(messages[::2], messages[1::2]), 1):
            pair = CallFrame(False, lane.interface, peer, call), CallFrame(True, lane.interface, peer, answer)
            frames[by_imsi[imsi].device, lane.name, number] = pair
    return frames


def check_calls(case: CaseText, printed: Printed, lane: Lane, frames: CallFrames) -> None:
    """Checks that these are the calls of the lane that `plain` or `replay` tells of."""
    finals = printed.by_imsi()
    told = {(it.device, lane.name, number) for it in case.subscribers for number, _ in enumerate(finals[it.imsi].calls(lane.name), 1)}
    if set(frames) != told:
        raise BadInput(f"the text of `{lane.command}` has other calls than the printed text")
