"""The stored cases of the crates, and the answers expected of them, as the tests in C read them (tests/cases.h)."""

from __future__ import annotations

from pathlib import Path
from typing import Iterator, List, NamedTuple, Tuple

ROOT = Path(__file__).resolve().parent.parent.parent
#: What stands before and after a buffer that is lent, so that a write outside it shows.
GUARD = bytes([0xA5]) * 64


class Case(NamedTuple):
    """A case: its head, its vocabulary (or what a buffer begins with), a script, and the words expected."""

    head: bytes
    vocabulary: bytes
    script: bytes
    words: List[str]


def number(data: bytes) -> int:
    """The number in bytes, low byte first."""
    return int.from_bytes(data, "little")


def cases(subject: str, head_bytes: int) -> Iterator[Case]:
    """The cases of a subject; there are as many as lines."""
    directory = ROOT / "crates" / f"{subject}_cases"
    data = (directory / "stdin").read_bytes()
    lines = (directory / "stdout").read_text().splitlines()
    at = 0
    for line in lines:
        head = data[at : at + head_bytes]
        first = at + head_bytes + number(head[:2])
        second = first + (number(head[2:4]) if subject == "script" else 0)
        yield Case(head, data[at + head_bytes : first], data[first:second], line.split(" "))
        at = second
    if at != len(data) or not lines:
        raise AssertionError(f"{subject}: the cases end at {at} of {len(data)} bytes")


def lend(length: int, seed: int) -> bytes:
    """What a buffer holds before a call: byte i is 7 i + seed."""
    return bytes((7 * i + seed) % 256 for i in range(length))


def guarded(content: bytes) -> Tuple[bytearray, memoryview]:
    """Bytes between guards, and the view of them alone."""
    whole = bytearray(GUARD + content + GUARD)
    return whole, memoryview(whole)[len(GUARD) : len(GUARD) + len(content)]


def written(before: bytes, digits: str, count: int) -> bytes:
    """A buffer whose first bytes are these digits, and zeros up to the count; a dash is no digits."""
    new = b"" if digits == "-" else bytes.fromhex(digits)
    return new.ljust(count, b"\0") + before[count:]
