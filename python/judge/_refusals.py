"""Refusals: the table of docs/FORMATS.md, section 6."""

from __future__ import annotations

import enum
from typing import Dict, Final, Optional, Tuple


class Place(enum.Enum):
    """What the place of a refusal is."""

    #: The input as a whole; the number is 0.
    WHOLE = ""
    #: A record of the vocabulary; of one that is added, the number that it would get.
    RECORD = "at record {}"
    #: The number that was asked for.
    ASKED = "number {}"
    #: The number of atoms, as it is and not as a header has it.
    ATOMS = "{} atoms"
    #: A record of the script.
    SCRIPT_RECORD = "at script record {}"

    def words(self, number: int) -> str:
        """A place in words; empty for the whole.

        >>> Place.RECORD.words(3), Place.ATOMS.words(1), Place.WHOLE.words(0)
        ('at record 3', '1 atom', '')
        """
        words = self.value.format(number)
        return words[:-1] if self is Place.ATOMS and number == 1 else words


class Rule(enum.IntEnum):
    """The rules of the table, by their numbers.

    >>> Rule(7), Rule.LABEL.sentence
    (<Rule.LABEL: 7>, 'the name has the label of an earlier name')
    """

    VOCABULARY_LENGTH = 1
    HEADER = 2
    KIND = 3
    UNUSED_FIELD = 4
    TERM_NUMBER = 5
    ROLE = 6
    LABEL = 7
    LINK = 8
    RECORD_NUMBER = 9
    QUERY = 10
    ATOMS = 11
    LENT = 12
    SCRIPT_LENGTH = 13
    SCRIPT_HEADER = 14
    SCRIPT_KIND = 15
    UNUSED_WORD = 16
    TERM = 17
    STEP = 18
    STEP_LINK = 19
    START = 20
    EXTENSION = 21
    REDUCTION = 22
    FRAMES = 23
    OPEN = 24
    ALL_CLOSED = 25
    TAXONOMY_LENT = 26
    ROOM = 27
    ATOM_COUNT = 28

    @property
    def place(self) -> Place:
        """What the place of its refusals is."""
        return _TABLE[int(self)][0]

    @property
    def sentence(self) -> str:
        """What it refuses, as a sentence without its full stop."""
        return _TABLE[int(self)][1]

    @property
    def is_of_vocabulary(self) -> bool:
        """Whether the vocabulary check gives it (1 to 8 and 28)."""
        return self <= Rule.LINK or self is Rule.ATOM_COUNT

    @property
    def is_of_chain(self) -> bool:
        """Whether the chain of a script that keeps the form decides it (20 to 25).

        What such a script claims is not shown; it may hold all the same.
        """
        return Rule.START <= self <= Rule.ALL_CLOSED


_ROWS: Final[Tuple[Tuple[Place, str], ...]] = (
    (Place.WHOLE, "the vocabulary's length is under 8, over 4,096 or no multiple of 8"),
    (Place.WHOLE, "the vocabulary's header has a wrong kind, second byte, role count or next"),
    (Place.RECORD, "the record's kind is not 1 to 9, or its second byte is not 0"),
    (Place.RECORD, "an unused field of the record is not zero"),
    (Place.RECORD, "a term number of the record does not name an earlier term"),
    (Place.RECORD, "the record's role is not below the header's count"),
    (Place.RECORD, "the name has the label of an earlier name"),
    (Place.RECORD, "the first statement, or a statement's next, is not 0 and not a later statement"),
    (Place.ASKED, "the record number is past the end"),
    (Place.ASKED, "the number asked about is no term record"),
    (Place.ATOMS, "the vocabulary has over 12 atoms, too many to compare or to classify"),
    (Place.WHOLE, "under 512 bytes are lent for the survivors"),
    (Place.WHOLE, "the script's length is under 16, over 32,768 or no multiple of 16"),
    (Place.WHOLE, "the script's header has a wrong w0, or w4 to w7 are not zero"),
    (Place.SCRIPT_RECORD, "the script record's kind is not 1 to 5"),
    (Place.SCRIPT_RECORD, "an unused word of the script record is not zero"),
    (Place.SCRIPT_RECORD, "the term record breaks the term rule, or record 1 is absent or not the constant"),
    (Place.SCRIPT_RECORD, "the step names a query column, owner, column, position or term that does not exist for it"),
    (Place.SCRIPT_RECORD, "the first step, or a step's next, is not 0 and not a later step"),
    (Place.SCRIPT_RECORD, "the chain has no first start, or a later one"),
    (Place.SCRIPT_RECORD, "the extension's literal is not the complement of the goal"),
    (Place.SCRIPT_RECORD, "the reduction's frame is not below the last, or its goal is not the complement"),
    (Place.SCRIPT_RECORD, "the extension would open a 65th frame"),
    (Place.SCRIPT_RECORD, "the chain ends with a frame left"),
    (Place.SCRIPT_RECORD, "a step follows after all is closed"),
    (Place.WHOLE, "under 144 bytes are lent for the taxonomy"),
    (Place.RECORD, "the vocabulary has 512 records, or under 8 bytes of the buffer are free"),
    (Place.ATOMS, "the vocabulary's header, of edition 2, has a wrong number of atoms"),
)

_TABLE: Final[Dict[int, Tuple[Place, str]]] = dict(enumerate(_ROWS, start=1))
_UNLISTED: Final = (Place.WHOLE, "a refusal that the table does not have")


class Refusal(Exception):
    """A refusal: the first rule of the table that applies, and the place where it does.

    >>> refusal = Refusal(7, 3)
    >>> refusal.number, refusal.place, refusal.rule
    (7, 3, <Rule.LABEL: 7>)
    >>> refusal.sentence
    'the name has the label of an earlier name'
    >>> print(refusal)
    refused, 7, at record 3: the name has the label of an earlier name
    """

    #: The number of the rule.
    number: int
    #: The place, as ``rule.place`` says.
    place: int

    def __init__(self, number: int, place: int) -> None:
        super().__init__(number, place)
        self.number = number
        self.place = place

    @property
    def rule(self) -> Optional[Rule]:
        """The rule; None where the table has no such number."""
        return Rule(self.number) if self.number in _TABLE else None

    @property
    def sentence(self) -> str:
        """What is refused, as a sentence without its full stop."""
        return _TABLE.get(self.number, _UNLISTED)[1]

    def __str__(self) -> str:
        sort, sentence = _TABLE.get(self.number, _UNLISTED)
        words = sort.words(self.place)
        return f"refused, {self.number}{words and ', ' + words}: {sentence}"
