#!/usr/bin/env python3
"""How many instructions the program takes an event, a line and a row: instructions.py [PROGRAM]

It needs valgrind. bench/README.md says what is counted. PROGRAM is echo_cli, by default as `rt run` leaves it in crates/echo_cli/out.
"""
import argparse
import re
import subprocess
import tempfile

from run import PROGRAM, case, life, row

# What these took at the commit 11fe9f1, counted in the same way.
BEFORE = {"an event of replay": 3859, "of it what plain takes": 1161, "a line of plain": 9200, "a row of plain": 49985}

DEVICES, ROUNDS = 40, 19
LINES, LIVES = 78000, 1000
ROWS = 4096


def instructions(program, words, text):
    """How many instructions one run takes over a case text, by callgrind."""
    with tempfile.NamedTemporaryFile() as given:
        given.write(text)
        given.flush()
        command = ["valgrind", "--tool=callgrind", "--callgrind-out-file=/dev/null", program, *words]
        with open(given.name, "rb") as source:
            said = subprocess.run(command, stdin=source, stdout=subprocess.DEVNULL, stderr=subprocess.PIPE, text=True, check=True).stderr
    return int(re.search(r"Collected : (\d+)", said).group(1))


def counts(program):
    """What each of these takes, by name."""
    made = ["make", "--number=1", "--devices=%d" % DEVICES, "--rounds=%d" % ROUNDS, "--text"]
    text = subprocess.run([program, *made], stdout=subprocess.PIPE, check=True).stdout
    events = len(text.split(b"[schedule]\n")[1].splitlines())
    nothing = instructions(program, ["plain"], b"[subscribers]\n")
    yield "an event of replay", (instructions(program, ["replay"], text) - nothing) / events
    yield "of it what plain takes", (instructions(program, ["plain"], text) - nothing) / events
    yield "a line of plain", (instructions(program, ["plain"], case(LINES, LIVES, life)) - nothing) / LINES
    rows = "\n".join(["[subscribers]", *(row(i) for i in range(1, ROWS + 1))]) + "\n"
    yield "a row of plain", (instructions(program, ["plain"], rows.encode()) - nothing) / ROWS


def main():
    parser = argparse.ArgumentParser(description=__doc__, formatter_class=argparse.RawDescriptionHelpFormatter)
    parser.add_argument("program", nargs="?", default=PROGRAM)
    options = parser.parse_args()
    print("%-24s %10s %10s %8s" % ("instructions", "before", "now", "ratio"))
    for name, count in counts(options.program):
        print("%-24s %10d %10.0f %8.2f" % (name, BEFORE[name], count, count / BEFORE[name]), flush=True)


if __name__ == "__main__":
    main()
