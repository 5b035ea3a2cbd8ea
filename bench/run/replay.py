#!/usr/bin/env python3
"""How long `replay` takes over long schedules, and how much memory: replay.py [-r RUNS] [-e EVENTS] [PROGRAM]

bench/README.md says what the schedules are. PROGRAM is echo_cli, by default as `rt run` leaves it in crates/echo_cli/out.
"""
import argparse
import itertools
import os
import tempfile

from run import ATTACH, PROGRAM, life, messages, row, run, write_case

# what a message leads to: the lanes of the calls of its steps, in order, and how many messages to the device
CALLS = {
    "attach": ["subscriber"],
    "secured": ["subscriber", "gateway"],
    "complete": ["gateway"],
    "request": ["gateway"],
}
DOWNS = {"attach": 1, "response": 1, "secured": 1, "request": 1, "service": 1}


def calls(k):
    """The lanes of the calls that message k of a life leads to."""
    again = k >= len(ATTACH) and life(k) == "done"
    return ["gateway"] if again else CALLS.get(life(k), [])


def step(arrive):
    """What arrives, by a replica's number, is taken and read by two replicas, and both write: the second is stale."""
    yield from (arrive % r for r in (1, 2))
    yield from ("%s %d" % (verb, r) for verb in ("read", "write") for r in (1, 2))


def visit(d, k, made):
    """All events that message k of device d leads to. `made` counts the effects of each lane."""
    yield "send %d %d" % (d, k + 1)
    yield from step("take %%d %d %d" % (d, k + 1))
    for lane in calls(k):
        made[lane] += 1
        effect = "%d %s %d" % (d, lane, made[lane])
        yield from ("push " + effect, "effect " + effect)
        yield from step("answer %d " + effect)
        yield "settle " + effect
    for _ in range(DOWNS.get(life(k), 0)):
        made["down"] += 1
        yield from ("%s %d down %d" % (verb, d, made["down"]) for verb in ("push", "effect", "settle"))
    yield "reply %d %d" % (d, k + 1)


def events(devices):
    """The events of devices that take turns, a message each."""
    made = [{"down": 0, "gateway": 0, "subscriber": 0} for _ in range(devices)]
    for k in itertools.count():
        for d in range(1, devices + 1):
            yield from visit(d, k, made[d - 1])


def case(devices, count):
    """A case text with so many events, and the messages that they name."""
    schedule = list(itertools.islice(events(devices), count))
    sent = [0] * (devices + 1)
    for event in schedule:
        words = event.split()
        if words[0] == "send":
            sent[int(words[1])] = int(words[2])
    text = ["[subscribers]", *(row(i) for i in range(1, devices + 1)), "[trace]"]
    for d in range(1, devices + 1):
        of = messages(d)
        text += ["1 " + of[life(k)] for k in range(sent[d])]
    return ("\n".join(text + ["[schedule]"] + schedule) + "\n").encode()


def main():
    parser = argparse.ArgumentParser(description=__doc__, formatter_class=argparse.RawDescriptionHelpFormatter)
    parser.add_argument("-r", type=int, default=5, help="runs of each, of which the least time counts")
    parser.add_argument("-e", type=int, default=65000, help="events of the long schedules")
    parser.add_argument("program", nargs="?", default=PROGRAM)
    options = parser.parse_args()
    print("best of %d, load %.1f on %d processors" % (options.r, os.getloadavg()[0], os.cpu_count()))
    print("%8s %8s %10s %8s %10s %9s %10s %9s" % ("devices", "events", "octets in", "ms", "KiB", "plain ms", "us/event", "ratio"))
    for devices, count in [(40, 1000), (40, options.e), (4000, options.e)]:
        with tempfile.NamedTemporaryFile() as text:
            size = write_case(text.name, lambda: case(devices, count))
            seconds, memory, _ = min(run(options.program, ["replay"], text.name) for _ in range(options.r))
            plain, _, _ = min(run(options.program, ["plain"], text.name) for _ in range(options.r))
            each = (seconds - plain) / count * 1e6
            print("%8d %8d %10d %8.1f %10d %9.1f %10.2f %9.2f" % (devices, count, size, seconds * 1000, memory, plain * 1000, each, seconds / plain), flush=True)


if __name__ == "__main__":
    main()
