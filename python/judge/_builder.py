"""A vocabulary that is written record by record."""

from __future__ import annotations

from ._calls import Kind, add_statement, add_term, check_vocabulary, make_vocabulary
from ._edition import Edition, set_edition
from ._library import Readable, frozen
from ._limits import RECORD_BYTES, VOCABULARY_BYTES


class Builder:
    """A vocabulary that is written record by record, by the library's calls.

    Each method that adds a record answers its number, by which later ones name it; one that is refused changes nothing. The
    bytes are an accepted vocabulary at any time. Threads that share a builder need a lock.

    >>> terms = Builder(roles=0)
    >>> sample, returned, relief = terms.name(1), terms.name(2), terms.name(3)
    >>> both = terms.and_(sample, returned)  # returned samples
    >>> terms.statement(both, relief)        # are under relief
    5
    >>> check_vocabulary(bytes(terms))
    6
    >>> terms.not_(9)  # there is no term 9
    Traceback (most recent call last):
    judge.Refusal: refused, 5, at record 6: a term number of the record does not name an earlier term
    """

    def __init__(self, roles: int = 0) -> None:
        """An empty vocabulary of so many roles."""
        self._buffer = bytearray(VOCABULARY_BYTES)
        self._used = make_vocabulary(self._buffer, roles)

    @classmethod
    def resume(cls, vocabulary: Readable) -> Builder:
        """An accepted vocabulary, copied, to go on from.

        >>> terms = Builder.resume(bytes([16, 1, 0, 0, 0, 0, 0, 0, 3, 0, 7, 0, 0, 0, 0, 0]))
        >>> terms.not_(1)
        2
        """
        copy = frozen(vocabulary, VOCABULARY_BYTES)
        check_vocabulary(copy)
        builder = cls()
        builder._buffer[: len(copy)] = copy
        builder._used = len(copy)
        return builder

    def set_edition(self, edition: Edition) -> None:
        """Gives the vocabulary a header of an edition, which additions keep. A new one has edition 2."""
        with memoryview(self._buffer)[: self._used] as used:
            set_edition(used, edition)

    def __bytes__(self) -> bytes:
        """The vocabulary."""
        return bytes(self._buffer[: self._used])

    def __len__(self) -> int:
        """The number of records, header included."""
        return self._used // RECORD_BYTES

    def top(self) -> int:
        """Adds top, to which all elements belong."""
        return self.term(Kind.TOP)

    def bottom(self) -> int:
        """Adds bottom, to which no element belongs."""
        return self.term(Kind.BOTTOM)

    def name(self, label: int) -> int:
        """Adds a name with a label that no earlier name has."""
        return self.term(Kind.NAME, label)

    def not_(self, a: int) -> int:
        """Adds the complement of a term."""
        return self.term(Kind.NOT, a)

    def and_(self, a: int, b: int) -> int:
        """Adds the intersection of two terms."""
        return self.term(Kind.AND, a, b)

    def or_(self, a: int, b: int) -> int:
        """Adds the union of two terms."""
        return self.term(Kind.OR, a, b)

    def some(self, role: int, b: int) -> int:
        """Adds the restriction "some role to b"."""
        return self.term(Kind.SOME, role, b)

    def all(self, role: int, b: int) -> int:
        """Adds the restriction "all role to b"."""
        return self.term(Kind.ALL, role, b)

    def term(self, kind: int, a: int = 0, b: int = 0) -> int:
        """Adds a term by the fields of its record; those that the kind does not use are 0."""
        return self._grow(add_term(self._buffer, self._used, kind, a, b))

    def statement(self, a: int, b: int) -> int:
        """Adds the statement that a term lies within another, at the end of the chain."""
        return self._grow(add_statement(self._buffer, self._used, a, b))

    def _grow(self, used: int) -> int:
        """Takes the new length, and answers the number of the record that was added."""
        added = len(self)
        self._used = used
        return added
