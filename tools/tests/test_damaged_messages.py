"""What the crates of tests count of damaged messages of S1AP and NAS, beside what independent readers count (`s1ap_reader`, `nas_reader`)."""

import re
import unittest
from collections import Counter
from typing import Iterator, List, Tuple

import nas_reader
import s1ap_reader
from support import TOOLS

CRATES = TOOLS.parent / "crates"
LETTERS = "sdkiACDURMJSPB"
MESSAGE = 0


def table(crate: str, name: str, constant: str) -> List[str]:
    """The lines of a table of a crate of tests, without comments."""
    text = (CRATES / crate / "src" / f"{name}.rt").read_text()
    found = re.search(rf'const {constant}: &str = "(?:\\\n|\n)(.*?)";', text, re.DOTALL)
    assert found is not None, constant
    return [it for it in found[1].split("\n") if it and not it.startswith("#")]


def changed(octets: bytes) -> Iterator[Tuple[int, bytes]]:
    """Octets with each of them at each of its 255 other values, behind the place of the one that is."""
    for place, old in enumerate(octets):
        for value in range(256):
            if value != old:
                yield place, octets[:place] + bytes([value]) + octets[place + 1 :]


def message_of(head: str, ies: List[str]) -> bytes:
    body = bytes.fromhex(f"00{len(ies):04x}{''.join(ies)}")
    length = bytes([len(body)]) if len(body) < 128 else (0x8000 + len(body)).to_bytes(2, "big")
    return bytes.fromhex(head) + length + body


def told(octets: bytes) -> str:
    refused = s1ap_reader.refusal_of(octets)
    return "message" if refused is None else refused.text


class TheReaderOfS1ap(unittest.TestCase):
    def test_tables_by_hand(self) -> None:
        for line in table("codec_cases", "s1ap_messages_refused", "MESSAGES"):
            octets, said = line.split(" ", 1)
            with self.subTest(octets):
                self.assertEqual(told(bytes.fromhex(octets)), said)
        for line in table("codec_cases", "s1ap_messages_worked", "MESSAGES"):
            with self.subTest(line):
                self.assertEqual(told(bytes.fromhex(line.split(" ")[0])), "message")


class DamagedS1ap(unittest.TestCase):
    def test_counts(self) -> None:
        for line in table("codec_cases", "s1ap_messages_damaged", "MESSAGES"):
            words, said = line.split(": ", 1)
            head, *ies = words.split(" ")
            with self.subTest(words):
                self.assertEqual(self.said_of(head, ies), said)

    def said_of(self, head: str, ies: List[str]) -> str:
        octets = message_of(head, ies)
        cuts = sum(told(octets[:left]) == f"1 Truncated at {min(left, 3)}" for left in range(len(octets)))
        found = Counter(MESSAGE if it is None else it.number for it in (s1ap_reader.refusal_of(other) for _, other in changed(octets)))
        counts = " ".join(f"{number}:{found[number]}" for number in sorted(found))
        swaps = [ies[: at - 1] + [ies[at], ies[at - 1]] + ies[at + 1 :] for at in range(1, len(ies))]
        swapped = sum(told(message_of(head, it)) == "message" for it in swaps)
        twice = "; ".join(told(message_of(head, ies + [it])) for it in ies)
        return f"{cuts} cut, changed {counts} of {sum(found.values())}, {swapped} swapped; {twice}"


class DamagedNas(unittest.TestCase):
    def test_letters(self) -> None:
        for line in table("readers_cases", "nas_kinds_damaged", "MESSAGES"):
            octets = bytes.fromhex(line.split(" ")[0])
            words = [[nas_reader.letter_of(octets[:left]) for left in range(len(octets))]] + [[] for _ in octets]
            for place, other in changed(octets):
                words[1 + place].append(nas_reader.letter_of(other))
            with self.subTest(octets.hex()):
                self.assertEqual(" ".join([octets.hex(), *map(self.counted, words)]), line)

    def counted(self, letters: List[str]) -> str:
        return "".join(f"{it}{letters.count(it)}" for it in LETTERS if it in letters)


if __name__ == "__main__":
    unittest.main()
