"""The shared object: where it is found, its eight calls, and what may be lent to them."""

from __future__ import annotations

import ctypes
import operator
import os
from ctypes import c_char_p, c_size_t, c_uint8, c_uint16, c_uint32, c_uint64, c_void_p
from pathlib import Path
from typing import Any, Dict, Final, List, Sequence, Tuple, Union

from ._refusals import Refusal

#: What can be read: these, and anything else with a contiguous buffer, as array.array and mmap.
Readable = Union[bytes, bytearray, memoryview]
#: What can be written to.
Writable = Union[bytearray, memoryview]

#: The name by which the system knows the library.
SONAME: Final = "libjudge.so.1"

#: The calls, with the names and types of their parameters as include/judge.h has them (tests/boundary.sh compares all of it).
#: What is only read is given as bytes (c_char_p), and what is written as an address (c_void_p). Each call answers 64 bits.
_CALLS: Final[Dict[str, Dict[str, Any]]] = {
    "judge_check_vocabulary": {"vocabulary": c_char_p, "vocabulary_len": c_size_t},
    "judge_record": {"vocabulary": c_char_p, "vocabulary_len": c_size_t, "number": c_uint32},
    "judge_compare": {
        "vocabulary": c_char_p,
        "vocabulary_len": c_size_t,
        "a": c_uint32,
        "b": c_uint32,
        "buffer": c_void_p,
        "buffer_len": c_size_t,
    },
    "judge_classify": {
        "vocabulary": c_char_p,
        "vocabulary_len": c_size_t,
        "survivors": c_void_p,
        "survivors_len": c_size_t,
        "taxonomy": c_void_p,
        "taxonomy_len": c_size_t,
    },
    "judge_check_script": {"vocabulary": c_char_p, "vocabulary_len": c_size_t, "script": c_char_p, "script_len": c_size_t},
    "judge_make_vocabulary": {"buffer": c_void_p, "buffer_len": c_size_t, "roles": c_uint32},
    "judge_add_term": {
        "buffer": c_void_p,
        "buffer_len": c_size_t,
        "used": c_size_t,
        "kind": c_uint8,
        "a": c_uint16,
        "b": c_uint16,
    },
    "judge_add_statement": {"buffer": c_void_p, "buffer_len": c_size_t, "used": c_size_t, "a": c_uint16, "b": c_uint16},
}


def candidates(package: Path, chosen: str) -> List[str]:
    """Where the library is looked for, in order.

    JUDGE_LIBRARY, where it is set, is the only one. Else: beside the package; in the checkout that the package is part
    of; in PREFIX/lib, where the package is in PREFIX/lib/python3.x/site-packages; where the system looks for libraries.
    """
    if chosen:
        return [chosen]
    checkout = package.parent.parent
    places = [package]
    if (checkout / "include" / "judge.h").is_file():
        places.append(checkout / "target" / "shared")
    elif package.parent.name in ("site-packages", "dist-packages"):
        places.append(checkout.parent)
    found = [str(place / SONAME) for place in places if (place / SONAME).is_file()]
    return [*found, SONAME]


def _declare(library: ctypes.CDLL) -> None:
    for name, parameters in _CALLS.items():
        call = getattr(library, name)
        call.argtypes = list(parameters.values())
        call.restype = c_uint64


def load(names: Sequence[str]) -> Tuple[ctypes.CDLL, ctypes.PyDLL]:
    """The first library of these names that can be loaded, twice: its calls let other threads run, or keep them waiting."""
    faults: List[str] = []
    for name in names:
        try:
            pair = ctypes.CDLL(name), ctypes.PyDLL(name)
            for library in pair:
                _declare(library)
            return pair
        except (OSError, AttributeError) as fault:
            faults.append(str(fault))
    raise ImportError(
        f"the judge's shared object cannot be loaded ({'; '.join(faults)}); "
        f"'make install' puts it where the system looks, and JUDGE_LIBRARY can name the file"
    )


#: FREE lets other threads run during a call, so all that it is lent has to be out of their reach. HELD keeps them waiting.
FREE, HELD = load(candidates(Path(__file__).resolve().parent, os.environ.get("JUDGE_LIBRARY", "")))


def number(name: str, value: int, bits: int) -> int:
    """A number of so many bits; ctypes would cut one that has more.

    >>> number("a", 65535, 16)
    65535
    >>> number("a", -1, 16)
    Traceback (most recent call last):
    ValueError: a is -1, and has to be from 0 to 65535
    """
    value = operator.index(value)
    if not 0 <= value < 1 << bits:
        raise ValueError(f"{name} is {value}, and has to be from 0 to {(1 << bits) - 1}")
    return value


def length(name: str, value: int) -> int:
    """A number of bytes."""
    return number(name, value, 8 * ctypes.sizeof(c_size_t))


def view(data: Readable) -> memoryview:
    """The bytes of a buffer that is contiguous."""
    seen = memoryview(data)
    if not seen.c_contiguous:
        raise BufferError("the buffer is not contiguous")
    # Nothing can be cast where a dimension is 0.
    return seen.cast("B") if seen.nbytes else memoryview(b"")


def frozen(data: Readable, most: int) -> bytes:
    """What is read: bytes that no other thread can change, with a pointer that is not null.

    Of what is longer than the library takes, just enough is kept to show that.
    """
    if type(data) is bytes:
        return data
    return bytes(view(data)[: most + 1])


class Lent:
    """A buffer that is lent for writing: its address, which is not null, and its length.

    As long as this is there, the buffer cannot be resized.
    """

    def __init__(self, name: str, data: Writable) -> None:
        if memoryview(data).readonly:
            raise TypeError(f"{name} is read-only, and is written to")
        seen = view(data)
        self.length: int = seen.nbytes
        self._bytes = seen
        # An empty buffer has no address to lend; a byte that nobody reads has.
        self._first = ctypes.c_ubyte.from_buffer(seen if self.length else bytearray(1))
        self.address: int = ctypes.addressof(self._first)

    @property
    def bytes(self) -> memoryview:
        """The bytes of the buffer."""
        return self._bytes

    def apart_from(self, other: Lent) -> None:
        """Refuses buffers that overlap: a call would write to one while it reads the other."""
        if self.address < other.address + other.length and other.address < self.address + self.length:
            raise ValueError("the buffers overlap")


def taken(answer: int) -> int:
    """An answer, unless it is a refusal."""
    if answer & 255:
        raise Refusal(answer & 255, answer >> 8 & 0xFFFFFFFF)
    return answer


def value(answer: int) -> int:
    """What an answer carries in bits 8 to 39, unless it is a refusal."""
    return taken(answer) >> 8 & 0xFFFFFFFF


