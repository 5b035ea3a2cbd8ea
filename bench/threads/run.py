#!/usr/bin/env python3
"""The program with threads beside `plain`: whether it writes the same, and how long it takes.

run.py many [-n RUNS] [-w WORKERS] [-s SECONDS] CASE   many runs of one case: each writes what `plain` writes, and ends in time
run.py cases FOLDER [-s SECONDS]                       each file *.in of a folder, by 1, 2, 4 and 16 workers; `load` beside `make`
run.py time [-r RUNS] [-l LINES] [-d DEVICES]          a long case by 1, 2, 4, 8 and 16 workers, beside `plain` in the same run

bench/README.md says what is measured. --cli and --threads name other programs than those that `rt run` leaves.
"""
import argparse
import glob
import importlib.util
import os
import re
import subprocess
import sys
import tempfile

HERE = os.path.dirname(os.path.abspath(__file__))


def built(name):
    return os.path.join(HERE, "../../crates", name, "out", name)


def long_cases():
    """The case texts of bench/run."""
    spec = importlib.util.spec_from_file_location("run", os.path.join(HERE, "../run/run.py"))
    module = importlib.util.module_from_spec(spec)
    spec.loader.exec_module(module)
    return module


def told(program, words, text, seconds):
    """The code, the text and the line on standard error of one run; a run that does not end in time is told as that."""
    try:
        ended = subprocess.run([program, *words], input=text, capture_output=True, timeout=seconds)
        return ended.returncode, ended.stdout, ended.stderr
    except subprocess.TimeoutExpired:
        return "no end in %d s" % seconds, b"", b""


class Count:
    """How many runs were as wanted."""

    def __init__(self):
        self.passed = self.failed = 0

    def judge(self, name, got, wanted):
        if got == wanted:
            self.passed += 1
        else:
            self.failed += 1
            print("%s: %s %r, and not %s %r" % (name, got[0], got[2] or got[1][:80], wanted[0], wanted[2] or wanted[1][:80]))

    def end(self):
        print("%d passed, %d failed" % (self.passed, self.failed))
        return self.failed > 0


def many(options):
    with open(options.case, "rb") as case:
        text = case.read()
    wanted, count = told(options.cli, ["plain"], text, options.s), Count()
    for number in range(options.n):
        count.judge("run %d" % number, told(options.threads, ["run", "--workers=%d" % options.w], text, options.s), wanted)
    return count.end()


def cases(options):
    count = Count()
    for path in sorted(glob.glob(os.path.join(options.folder, "*.in"))):
        with open(path, "rb") as case:
            text = case.read()
        wanted = told(options.cli, ["plain"], text, options.s)
        for workers in (1, 2, 4, 16):
            words = ["run", "--workers=%d" % workers]
            count.judge("%s, %d workers" % (path, workers), told(options.threads, words, text, options.s), wanted)
    for number, devices, rounds in ((0, 1, 0), (1, 1, 0), (7, 40, 19), (9, 800, 0), (11, 1, 799), (4294967295, 16, 3)):
        words = ["--number=%d" % number, "--devices=%d" % devices, "--rounds=%d" % rounds]
        code, line, error = told(options.cli, ["make", *words], b"", options.s)
        wanted = code, re.sub(rb" events \d+ committed \d+ stale \d+", b"", line), error
        for workers in (1, 4, 16):
            own = ["load", *words, "--workers=%d" % workers]
            count.judge(" ".join(own), told(options.threads, own, b"", options.s), wanted)
    return count.end()


def time(options):
    bench = long_cases()
    print("%d devices, %d lines, best of %d, load %.1f on %d processors" % (options.d, options.l, options.r, os.getloadavg()[0], os.cpu_count()))
    print("%-16s %8s %8s %10s %14s" % ("command", "ms", "of plain", "KiB", "us a line more"))
    with tempfile.NamedTemporaryFile() as text:
        bench.write_case(text.name, lambda: bench.case(options.l, options.d, bench.life))
        ways = [("plain", options.cli, ["plain"])]
        ways += [("run, %d" % n, options.threads, ["run", "--workers=%d" % n]) for n in (1, 2, 4, 8, 16)]
        best = {}
        for _ in range(options.r):
            for name, program, words in ways:
                best[name] = min(best.get(name, (1e9,)), bench.run(program, words, text.name))
        assert len({figures[2] for figures in best.values()}) == 1, "not the same number of octets"
        for name, (seconds, memory, _) in best.items():
            more = seconds - best["plain"][0]
            print("%-16s %8.0f %8.2f %10d %14.2f" % (name, seconds * 1000, seconds / best["plain"][0], memory, more / options.l * 1e6))
    return False


def main():
    parser = argparse.ArgumentParser(description=__doc__, formatter_class=argparse.RawDescriptionHelpFormatter)
    parser.add_argument("--cli", default=built("echo_cli"))
    parser.add_argument("--threads", default=built("echo_threads"))
    ways = parser.add_subparsers(required=True)
    way = ways.add_parser("many")
    way.set_defaults(way=many)
    way.add_argument("-n", type=int, default=200, help="runs")
    way.add_argument("-w", type=int, default=16, help="workers")
    way.add_argument("-s", type=int, default=60, help="seconds that a run has")
    way.add_argument("case")
    way = ways.add_parser("cases")
    way.set_defaults(way=cases)
    way.add_argument("-s", type=int, default=60, help="seconds that a run has")
    way.add_argument("folder")
    way = ways.add_parser("time")
    way.set_defaults(way=time)
    way.add_argument("-r", type=int, default=3, help="runs of each, of which the least time counts")
    way.add_argument("-l", type=int, default=100000, help="lines of the trace")
    way.add_argument("-d", type=int, default=1000, help="devices")
    options = parser.parse_args()
    sys.exit(options.way(options))


if __name__ == "__main__":
    main()
