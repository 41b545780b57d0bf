"""The eight calls of the library, and their answers taken apart."""

from __future__ import annotations

import dataclasses
import enum
import struct
from collections.abc import Set as AbstractSet
from typing import Final, Iterable, Iterator, NamedTuple, Optional, Tuple

from ._library import FREE, HELD, Lent, Readable, Writable, frozen, length, number, taken, value, view
from ._limits import ATOMS, RECORD_BYTES, SCRIPT_BYTES, SURVIVOR_BYTES, TAXONOMY_BYTES, VOCABULARY_BYTES

_RECORD: Final = struct.Struct("<BBHHH")


class Kind(enum.IntEnum):
    """The kinds of terms; in brackets what A and B of their records are."""

    TOP = 1
    BOTTOM = 2
    #: (A: the label)
    NAME = 3
    #: (A: a term)
    NOT = 4
    #: (A and B: terms)
    AND = 5
    #: (A and B: terms)
    OR = 6
    #: (A: a role; B: a term)
    SOME = 7
    #: (A: a role; B: a term)
    ALL = 8


class Record(NamedTuple):
    """The fields of a vocabulary's record: a header (kind 16), a term (1 to 8, see Kind) or a statement (9)."""

    kind: int
    second: int
    a: int
    b: int
    next: int

    def __bytes__(self) -> bytes:
        """The eight bytes of the record."""
        return _RECORD.pack(*self)


class Survivors(AbstractSet[int]):
    """The elements of the interpretation that a comparison or a classification describes, from the bytes it wrote.

    A set of numbers that cannot change. Bit j of an element says whether atom j (name or restriction, in record order)
    holds at it.

    >>> survivors = Survivors(bytes([0b101]))
    >>> 2 in survivors, 1 in survivors, list(survivors), len(survivors)
    (True, False, [0, 2], 2)
    """

    __slots__ = ("_bytes",)

    def __init__(self, data: Readable) -> None:
        self._bytes: Final = bytes(view(data))

    @classmethod
    def _from_iterable(cls, elements: Iterable[int]) -> AbstractSet[int]:
        # What set operations make is a set of its own.
        return frozenset(elements)

    def __contains__(self, element: object) -> bool:
        if not isinstance(element, int) or not 0 <= element < 8 * len(self._bytes):
            return False
        return bool(self._bytes[element // 8] >> element % 8 & 1)

    def __iter__(self) -> Iterator[int]:
        return (element for element in range(8 * len(self._bytes)) if element in self)

    def __len__(self) -> int:
        return bin(int.from_bytes(self._bytes, "little")).count("1")

    def __bytes__(self) -> bytes:
        """The bytes as the library wrote them: bit t mod 8 of byte t div 8 is 1 for the element t."""
        return self._bytes

    def __hash__(self) -> int:
        return self._hash()

    def __repr__(self) -> str:
        return f"<Survivors: {len(self)}>"


class Verdict(enum.Enum):
    """Whether two terms are equal in every finite interpretation that satisfies the statements."""

    EQUAL = "equal"
    DIFFERENT = "different"


@dataclasses.dataclass(frozen=True)
class Comparison:
    """The answer of a comparison."""

    verdict: Verdict
    #: If the terms are different, the smallest survivor that belongs to just one of them.
    element: Optional[int]
    #: The number of survivors. With none, no finite interpretation satisfies the statements, and all terms are equal.
    survivors: int
    #: The number of rounds of type elimination that removed something.
    rounds: int
    #: The survivors themselves.
    interpretation: Survivors

    @property
    def equal(self) -> bool:
        """Whether the verdict is EQUAL."""
        return self.verdict is Verdict.EQUAL


class Relation(enum.IntEnum):
    """What a taxonomy says of a first name and a second."""

    #: Neither of the following.
    NEITHER = 0
    #: The second is strictly broader than the first, and no name is strictly between.
    NEAREST_BROADER = 1
    #: They are equal; a name is so with itself.
    EQUAL = 2


@dataclasses.dataclass(frozen=True)
class Classification:
    """The answer of a classification. Names are numbered from 0, in record order."""

    #: The number of survivors. With none, no finite interpretation satisfies the statements, and all names are equal.
    survivors: int
    #: The number of rounds of type elimination that removed something.
    rounds: int
    #: The survivors themselves.
    interpretation: Survivors
    #: The record of each name.
    names: Tuple[int, ...]
    #: The bytes that ``relation`` reads.
    taxonomy: bytes = dataclasses.field(repr=False)

    def relation(self, first: int, second: int) -> Relation:
        """What is said of two names."""
        return relation(self.taxonomy, len(self.names), first, second)

    def equal(self, name: int) -> Tuple[int, ...]:
        """The names that are equal to this one, itself left out."""
        return tuple(other for other in self._related(name, Relation.EQUAL) if other != name)

    def broader(self, name: int) -> Tuple[int, ...]:
        """The nearest broader names of this one."""
        return tuple(self._related(name, Relation.NEAREST_BROADER))

    def _related(self, name: int, wanted: Relation) -> Iterator[int]:
        return (other for other in range(len(self.names)) if self.relation(name, other) is wanted)


def check_vocabulary(vocabulary: Readable) -> int:
    """The vocabulary check: the number of records, header included. Refused by 1 to 8, then 28.

    >>> check_vocabulary(bytes([16, 1, 0, 0, 0, 0, 0, 0, 3, 0, 7, 0, 0, 0, 0, 0]))  # a header and a name
    2
    >>> check_vocabulary(b"")
    Traceback (most recent call last):
    judge.Refusal: refused, 1: the vocabulary's length is under 8, over 4,096 or no multiple of 8
    """
    lent = frozen(vocabulary, VOCABULARY_BYTES)
    return value(FREE.judge_check_vocabulary(lent, len(lent)))


def record(vocabulary: Readable, number: int) -> Record:
    """The record call: the fields of a record.

    Refused by 1 and 9 only, so that the records of a vocabulary that the check refuses can be looked at.

    >>> record(bytes([16, 1, 0, 0, 0, 0, 0, 0, 3, 0, 7, 0, 0, 0, 0, 0]), 1)
    Record(kind=3, second=0, a=7, b=0, next=0)
    """
    lent = frozen(vocabulary, VOCABULARY_BYTES)
    offset = value(FREE.judge_record(lent, len(lent), _u32("number", number)))
    return Record._make(_RECORD.unpack_from(lent, offset))


def compare(vocabulary: Readable, a: int, b: int, survivors: Optional[Writable] = None) -> Comparison:
    """The comparison: are the terms of records a and b equal in every finite interpretation that satisfies the statements?

    The vocabulary has at most ATOMS atoms. Different terms are an answer, no refusal. Into a buffer that is lent, the
    survivors are written as the answer has them; it needs SURVIVOR_BYTES, and a refusal leaves it as it was. Refused by 1 to
    8, 28, 10, 11, 12.

    >>> answer = compare(bytes([16, 1, 0, 0, 0, 0, 0, 0, 3, 0, 7, 0, 0, 0, 0, 0, 1, 0, 0, 0, 0, 0, 0, 0]), 1, 2)
    >>> answer.verdict, answer.element, answer.survivors, 1 in answer.interpretation
    (<Verdict.DIFFERENT: 'different'>, 0, 2, True)
    """
    lent = frozen(vocabulary, VOCABULARY_BYTES)
    buffer = _lent("survivors", survivors, SURVIVOR_BYTES)
    # A buffer of the caller's is in reach of other threads, which then wait.
    library = FREE if survivors is None else HELD
    query = _u32("a", a), _u32("b", b)
    answer = taken(library.judge_compare(lent, len(lent), *query, buffer.address, buffer.length))
    different = bool(_bits(answer, 8, 1))
    return Comparison(
        verdict=Verdict.DIFFERENT if different else Verdict.EQUAL,
        element=_bits(answer, 9, 16) if different else None,
        survivors=_bits(answer, 25, 17),
        rounds=_bits(answer, 42, 17),
        interpretation=Survivors(buffer.bytes[:SURVIVOR_BYTES]),
    )


def classify(
    vocabulary: Readable, survivors: Optional[Writable] = None, taxonomy: Optional[Writable] = None
) -> Classification:
    """The classification: which names are equal, and which are the nearest broader names of each?

    In every finite interpretation that satisfies the statements, of a vocabulary of at most ATOMS atoms. Buffers that are
    lent need SURVIVOR_BYTES and TAXONOMY_BYTES; a refusal leaves them as they were. Refused by 1 to 8, 28, 11, 12, 26.

    >>> terms = [(16, 1, 3, 0, 0), (3, 0, 7, 0, 0), (3, 0, 8, 0, 0), (9, 0, 1, 2, 0)]  # the name 7 lies within 8
    >>> answer = classify(b"".join(bytes(Record(*fields)) for fields in terms))
    >>> answer.names, answer.broader(0), answer.relation(1, 0)
    ((1, 2), (1,), <Relation.NEITHER: 0>)
    """
    lent = frozen(vocabulary, VOCABULARY_BYTES)
    first, second = _lent("survivors", survivors, SURVIVOR_BYTES), _lent("taxonomy", taxonomy, TAXONOMY_BYTES)
    first.apart_from(second)
    library = FREE if survivors is None and taxonomy is None else HELD
    buffers = first.address, first.length, second.address, second.length
    answer = taken(library.judge_classify(lent, len(lent), *buffers))
    return Classification(
        survivors=_bits(answer, 25, 17),
        rounds=_bits(answer, 42, 17),
        interpretation=Survivors(first.bytes[:SURVIVOR_BYTES]),
        names=_names(lent),
        taxonomy=bytes(second.bytes[:TAXONOMY_BYTES]),
    )


def relation(taxonomy: Readable, names: int, first: int, second: int) -> Relation:
    """What the taxonomy of a vocabulary of so many names says of two of them. Of what is no name's number: NEITHER."""
    if not (0 <= names <= ATOMS and 0 <= first < names and 0 <= second < names):
        return Relation.NEITHER
    place = first * names + second
    entry = view(taxonomy)[place : place + 1].tobytes()
    return {b"\1": Relation.NEAREST_BROADER, b"\2": Relation.EQUAL}.get(entry, Relation.NEITHER)


def check_script(vocabulary: Readable, script: Readable) -> int:
    """The script check: the number of steps of a script that proves that its header's A lies within its B.

    It is accepted exactly when it keeps the form and its chain is a derivation of at most FRAMES open frames. No refusal says
    that A does not lie within B. Refused by 1 to 8, 28, 13, 14, 10, 15 to 25.
    """
    lent, proof = frozen(vocabulary, VOCABULARY_BYTES), frozen(script, SCRIPT_BYTES)
    return value(FREE.judge_check_script(lent, len(lent), proof, len(proof)))


def make_vocabulary(buffer: Writable, roles: int) -> int:
    """Makes an empty vocabulary of so many roles, of edition 2, at the front of a buffer; answers the bytes in use, 8.

    What lies behind keeps its content; a refusal (27, then 2) writes nothing.

    >>> buffer = bytearray([9] * 12)
    >>> make_vocabulary(buffer, 2), list(buffer)
    (8, [16, 2, 0, 0, 2, 0, 0, 0, 9, 9, 9, 9])
    """
    lent = Lent("buffer", buffer)
    return value(HELD.judge_make_vocabulary(lent.address, lent.length, _u32("roles", roles)))


def add_term(buffer: Writable, used: int, kind: int, a: int = 0, b: int = 0) -> int:
    """Adds a term of kind 1 to 8 to the vocabulary in the first ``used`` bytes of a buffer; answers the bytes then in use.

    The new record's eight bytes change, and the number of atoms in a header of edition 2; no others do, and a refusal writes
    nothing. Refused by 1 to 8 and 28 for the bytes in use, 27 without room, then 3 to 7 for the new record.

    >>> buffer = bytearray(24)
    >>> used = make_vocabulary(buffer, 0)
    >>> used = add_term(buffer, used, Kind.NAME, 7)  # the name labelled 7 is record 1
    >>> used = add_term(buffer, used, Kind.NOT, 1)
    >>> check_vocabulary(buffer[:used])
    3
    """
    lent = Lent("buffer", buffer)
    fields = number("kind", kind, 8), number("a", a, 16), number("b", b, 16)
    return value(HELD.judge_add_term(lent.address, lent.length, length("used", used), *fields))


def add_statement(buffer: Writable, used: int, a: int, b: int) -> int:
    """Adds the statement that term a lies within term b, at the end of the chain.

    Answers and refuses as add_term does; the link that reaches the new record changes with it.
    """
    lent = Lent("buffer", buffer)
    terms = number("a", a, 16), number("b", b, 16)
    return value(HELD.judge_add_statement(lent.address, lent.length, length("used", used), *terms))


def _bits(answer: int, first: int, count: int) -> int:
    return answer >> first & (1 << count) - 1


def _u32(name: str, given: int) -> int:
    return number(name, given, 32)


def _lent(name: str, buffer: Optional[Writable], needed: int) -> Lent:
    """What is lent for an answer: the caller's buffer, or one of the call's own."""
    return Lent(name, bytearray(needed) if buffer is None else buffer)


def _names(vocabulary: bytes) -> Tuple[int, ...]:
    """The records of an accepted vocabulary's names."""
    kinds = vocabulary[::RECORD_BYTES]
    return tuple(record for record, kind in enumerate(kinds) if kind == Kind.NAME)
