"""The editions of a vocabulary's header, and the number of atoms, which edition 2 holds."""

from __future__ import annotations

import enum
import struct
from typing import Final

from ._calls import check_vocabulary, record
from ._library import Lent, Readable, Writable, frozen
from ._limits import VOCABULARY_BYTES
from ._refusals import Refusal, Rule

#: A number of atoms that no vocabulary has: there are at most 511.
_TOO_MANY: Final = 65535


class Edition(enum.IntEnum):
    """The edition of a vocabulary's header. Of vocabularies that differ in it alone, all calls that judge say the same."""

    #: The second byte is 1, and next is 0.
    ONE = 1
    #: The second byte is 2, and next is the number of atoms. New vocabularies have it.
    TWO = 2


def edition(vocabulary: Readable) -> Edition:
    """The edition of an accepted vocabulary.

    >>> edition(bytes([16, 1, 0, 0, 0, 0, 0, 0]))
    <Edition.ONE: 1>
    """
    lent = frozen(vocabulary, VOCABULARY_BYTES)
    check_vocabulary(lent)
    return Edition(record(lent, 0).second)


def atoms(vocabulary: Readable) -> int:
    """The number of atoms (names and restrictions) of an accepted vocabulary.

    Up to ATOMS it can be compared and classified. Edition 2 has it in the header. Of edition 1 it is the library's own count
    all the same: it is asked about a copy of edition 2 with a number that cannot be, and the place of its refusal (28) is it.

    >>> atoms(bytes([16, 1, 0, 0, 0, 0, 0, 0, 3, 0, 7, 0, 0, 0, 0, 0]))  # a header and a name
    1
    """
    lent = frozen(vocabulary, VOCABULARY_BYTES)
    if edition(lent) is Edition.TWO:
        return record(lent, 0).next
    copy = bytearray(lent)
    _write(memoryview(copy), Edition.TWO, _TOO_MANY)
    try:
        check_vocabulary(copy)
    except Refusal as refusal:
        if refusal.rule is Rule.ATOM_COUNT:
            return refusal.place
        raise
    return _TOO_MANY  # what is accepted holds the true number


def set_edition(vocabulary: Writable, edition: Edition) -> None:
    """Gives an accepted vocabulary a header of an edition, in place; a refused one stays as it is.

    No byte changes but the header's second and its next.

    >>> vocabulary = bytearray([16, 1, 0, 0, 0, 0, 0, 0, 3, 0, 7, 0, 0, 0, 0, 0])  # a header and a name
    >>> set_edition(vocabulary, Edition.TWO)
    >>> list(vocabulary[:8])
    [16, 2, 0, 0, 0, 0, 1, 0]
    """
    wanted = Edition(edition)
    lent = Lent("vocabulary", vocabulary)
    counted = atoms(lent.bytes)
    _write(lent.bytes, wanted, counted if wanted is Edition.TWO else 0)


def _write(vocabulary: memoryview, edition: Edition, following: int) -> None:
    """Writes the two fields of a header that hang on the edition."""
    struct.pack_into("<B", vocabulary, 1, edition)
    struct.pack_into("<H", vocabulary, 6, following)
