"""Runs rattle as it was called, and adds to the log what the call took. It stands as `bin/rattle` in a copy of the kit, and imports nothing beside it.

The log is named by GATE_MINUTES_LOG. A call is a line: the seconds of user and of system time, the status, the folder, rattle and its words.
Of the check that a crate's edits begin with, each function is a line before it: `function CRATE SECONDS NAME`.
"""

import os
import re
import signal
import subprocess
import sys

TICKS = os.sysconf("SC_CLK_TCK")


def add_to_log(line: str) -> None:
    name = os.environ.get("GATE_MINUTES_LOG")
    if name:
        with open(name, "ab") as log:  # one write each, so that lines of calls side by side do not mix
            log.write(line.replace("\n", " ").encode("utf-8", "replace") + b"\n")


def value_of(words: "list[str]", option: str) -> str:
    """The word behind an option, or no text where there is none."""
    at = words.index(option) + 1 if option in words else len(words)
    return words[at] if at < len(words) else ""


def is_seed(words: "list[str]") -> bool:
    """Whether a check proves a crate for its edits: those print no progress by themselves, and nothing that they print is read."""
    return words[:1] == ["check"] and os.path.basename(value_of(words, "--incremental")) == "seed" and value_of(words, "--jobs") in ("", "1")


def seconds_of(process: int) -> float:
    """The processor time of a process so far."""
    with open(f"/proc/{process}/stat", "rb") as source:
        fields = source.read().rsplit(b")", 1)[1].split()
    return (int(fields[11]) + int(fields[12])) / TICKS


def tell_functions(process: "subprocess.Popen[bytes]", crate: str) -> None:
    """Passes on what a check prints, and adds a line for each function that it tells as checked: the time since the one before it."""
    assert process.stdout is not None
    before = None
    for line in process.stdout:
        sys.stdout.buffer.write(line)
        sys.stdout.buffer.flush()
        found = re.match(rb"checked (.+), \d+ of \d+$", line.strip())
        if found:
            now = seconds_of(process.pid)
            if before is not None:  # (the first one has in it what the check loads)
                add_to_log(f"function {crate} {now - before:.2f} {found[1].decode('utf-8', 'replace')}")
            before = now


def main() -> int:
    rattle, *words = sys.argv[1:]
    shows = ["--progress"] if is_seed(words) else []
    ends = (subprocess.PIPE, subprocess.STDOUT) if shows else (None, None)
    process = subprocess.Popen([rattle, *words, *shows], stdout=ends[0], stderr=ends[1])
    if shows:
        tell_functions(process, value_of(words, "--crate-name"))
    _, ended, used = os.wait4(process.pid, 0)
    by_signal = os.WTERMSIG(ended) if os.WIFSIGNALED(ended) else 0
    status = 128 + by_signal if by_signal else os.WEXITSTATUS(ended)
    add_to_log(f"{used.ru_utime:.2f} {used.ru_stime:.2f} {status} {os.getcwd()} {rattle} {' '.join(words)}")
    if by_signal:  # rt tells a check that was killed by how it ended
        if by_signal != signal.SIGKILL:
            signal.signal(by_signal, signal.SIG_DFL)
        os.kill(os.getpid(), by_signal)
    return status


if __name__ == "__main__":
    sys.exit(main())
