#!/usr/bin/env python3
"""How long the program takes over long case texts, and how much memory: run.py [-r RUNS] [-l LINES] [-d DEVICES] [PROGRAM]

bench/README.md says what the case texts are. PROGRAM is echo_cli, by default as `rt run` leaves it in crates/echo_cli/out.
"""
import argparse
import os
import subprocess
import tempfile
import time

HERE = os.path.dirname(os.path.abspath(__file__))
PROGRAM = os.path.join(HERE, "../../crates/echo_cli/out/echo_cli")

TAI = (67, 0x00, "0002f8390001")
CGI = (100, 0x40, "0002f83900000010")


def number(value):
    """A number above 65,536 values, as a whole IE body: two bits for the count of its octets less one, then the octets."""
    count = max(1, (value.bit_length() + 7) // 8)
    return bytes([(count - 1) << 6]).hex() + value.to_bytes(count, "big").hex()


def nas(text):
    return (26, 0x00, "%02x" % (len(text) // 2) + text)


def pdu(front, ies):
    """A message of its first three octets and its IEs, none of which has more than 127 octets."""
    body = "00%04x" % len(ies)
    for ie, criticality, value in ies:
        body += "%04x%02x%02x" % (ie, criticality, len(value) // 2) + value
    length = len(body) // 2
    return front + ("%02x" % length if length < 128 else "%04x" % (0x8000 | length)) + body


def digits(i):
    """The IMSI of subscriber i in an EPS mobile identity (TS 24.301, 9.9.3.12)."""
    imsi = "%015d" % (208930000000000 + i)
    return imsi[0] + "9" + "".join(imsi[k + 1] + imsi[k] for k in range(1, 15, 2))


def messages(i):
    """The messages of subscriber i, on base station 1 under the eNB-UE-S1AP-ID i, by name."""
    mme, enb = (0, 0x00, number(i)), (8, 0x00, number(i))
    answered = (0, 0x40, number(i)), (8, 0x40, number(i))

    def uplink(text):
        return pdu("000d40", [mme, enb, nas(text), CGI, (67, 0x40, TAI[2])])

    return {
        "attach": pdu("000c40", [enb, nas("07417108" + digits(i) + "02e0e000040201d011"), TAI, CGI, (134, 0x40, "30")]),
        "response": uplink("075308a0a1a2a3a4a5a6a7"),
        "secured": uplink("470000000000075e"),
        "done": pdu("200900", [*answered, (51, 0x40, "000032400a0a1fc0a8000200000002")]),
        "capability": pdu("001640", [mme, enb, (74, 0x40, "020102")]),
        "complete": uplink("270000000001074300035200c2"),
        "request": pdu("001240", [mme, enb, (2, 0x40, "0280")]),
        "released": pdu("201700", list(answered)),
        "service": pdu("000c40", [enb, nas("c7000000"), TAI, CGI, (134, 0x40, "40"), (96, 0x00, "0040%08x" % i)]),
    }


def row(i):
    return (
        '{"imsi":"%015d","tmsi":%d,"rand":"000102030405060708090a0b0c0d0e0f","autn":"101112131415161718191a1b1c1d1e1f",'
        '"res":"a0a1a2a3a4a5a6a7","key":"%s","apn":"internet","ip":"%08x","sgw":"c0a80001","teid":%d,'
        '"ambr_dl":1000000000,"ambr_ul":1000000000,"forbidden":[]}'
        % (208930000000000 + i, i, "11" * 32, 0x0A2D0000 + i, 1000 * i)
    )


ATTACH = "attach response secured done capability complete request released".split()
AGAIN = "service done request released".split()


def life(k):
    """The name of the message k of a device that attaches, and is then released and served in turns."""
    return ATTACH[k] if k < len(ATTACH) else AGAIN[(k - len(ATTACH)) % len(AGAIN)]


def case(lines, devices, name):
    """A case text: the devices send their messages in turns, message k the one that `name` gives."""
    of = [messages(i) for i in range(1, devices + 1)]
    text = ["[subscribers]", *(row(i) for i in range(1, devices + 1)), "[trace]"]
    text += ["1 " + of[n % devices][name(n // devices)] for n in range(lines)]
    return ("\n".join(text) + "\n").encode()


def write_case(path, make):
    """Writes a case text in a process of its own, since what this one holds would count as the program's memory."""
    child = os.fork()
    if child == 0:
        with open(path, "wb") as text:
            text.write(make())
        os._exit(0)
    assert os.waitpid(child, 0)[1] == 0, "no case text was written"
    return os.path.getsize(path)


def run(program, words, path):
    """Seconds and KiB of one run, and how many octets it wrote."""
    with open(path, "rb") as text, tempfile.TemporaryFile() as out:
        start = time.perf_counter()
        process = subprocess.Popen([program, *words], stdin=text, stdout=out)
        _, status, used = os.wait4(process.pid, 0)
        seconds = time.perf_counter() - start
        process.returncode = os.waitstatus_to_exitcode(status)
        assert process.returncode == 0, "%s %s ended with %d" % (program, " ".join(words), process.returncode)
        return seconds, used.ru_maxrss, out.seek(0, 2)


def main():
    parser = argparse.ArgumentParser(description=__doc__, formatter_class=argparse.RawDescriptionHelpFormatter)
    parser.add_argument("-r", type=int, default=5, help="runs of each, of which the least time counts")
    parser.add_argument("-l", type=int, default=100000, help="lines of the longest trace")
    parser.add_argument("-d", type=int, default=1000, help="devices")
    parser.add_argument("program", nargs="?", default=PROGRAM)
    options = parser.parse_args()
    print("%d devices, best of %d, load %.1f on %d processors" % (options.d, options.r, os.getloadavg()[0], os.cpu_count()))
    print("%-24s %8s %10s %8s %10s %10s" % ("command", "lines", "octets in", "ms", "KiB", "octets out"))
    for label, word, name in [
        ("plain, lives", "plain", life),
        ("plain, Service Requests", "plain", lambda k: "service"),
        ("show, Service Requests", "show", lambda k: "service"),
    ]:
        for lines in (options.l // 4, options.l // 2, options.l):
            with tempfile.NamedTemporaryFile() as text:
                size = write_case(text.name, lambda: case(lines, options.d, name))
                runs = [run(options.program, [word], text.name) for _ in range(options.r)]
                seconds, memory, out = min(runs)
                print("%-24s %8d %10d %8.0f %10d %10d" % (label, lines, size, seconds * 1000, memory, out), flush=True)


if __name__ == "__main__":
    main()
