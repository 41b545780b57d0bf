"""The calls as users make them: answers, refusals, arguments, buffers, threads."""

from __future__ import annotations

import array
import pickle
import threading
import unittest
from concurrent.futures import ThreadPoolExecutor

import judge

from .stored import ROOT

EXAMPLES = ROOT / "examples"
V = (EXAMPLES / "v.vocabulary").read_bytes()
SCRIPT = (EXAMPLES / "four-within-three.script").read_bytes()


def filled(count: int) -> judge.Builder:
    """A vocabulary of so many names."""
    terms = judge.Builder()
    for label in range(count):
        terms.name(label)
    return terms


class Answers(unittest.TestCase):
    """What the calls answer of examples/."""

    def test_different_is_an_answer(self) -> None:
        answer = judge.compare(V, 4, 3)
        self.assertEqual((answer.verdict, answer.element, answer.equal), (judge.Verdict.DIFFERENT, 4, False))
        self.assertEqual((answer.survivors, answer.rounds), (7, 0))
        self.assertEqual(set(answer.interpretation), {0, 1, 2, 4, 5, 6, 7})
        self.assertEqual(answer.interpretation & {3, 4}, {4})
        self.assertNotIn(4096, answer.interpretation)
        self.assertNotIn("4", answer.interpretation)

    def test_equal(self) -> None:
        answer = judge.compare(V, 4, 4)
        self.assertEqual((answer.verdict, answer.element, answer.equal), (judge.Verdict.EQUAL, None, True))

    def test_a_script(self) -> None:
        self.assertEqual(judge.check_script(V, SCRIPT), 3)

    def test_a_taxonomy(self) -> None:
        answer = judge.classify((EXAMPLES / "both-ways.vocabulary").read_bytes())
        self.assertEqual([answer.broader(name) for name in range(3)], [(), (), (0, 1)])
        terms = filled(2)
        terms.statement(1, 2)
        terms.statement(2, 1)
        answer = judge.classify(bytes(terms))
        self.assertEqual((answer.equal(0), answer.equal(1), answer.broader(0)), ((1,), (0,), ()))
        for first, second in ((2, 0), (0, 2), (-1, 0), (0, -1)):
            self.assertIs(answer.relation(first, second), judge.Relation.NEITHER)
        for taxonomy in (b"", bytes(3), bytes([2, 0, 7, 2])):
            self.assertIs(judge.relation(taxonomy, 2, 1, 0), judge.Relation.NEITHER)
        self.assertIs(judge.relation(bytes(144), 13, 0, 0), judge.Relation.NEITHER)

    def test_contradictions_leave_no_survivor(self) -> None:
        terms = judge.Builder()
        terms.statement(terms.top(), terms.bottom())
        answer = judge.compare(bytes(terms), 1, 2)
        self.assertEqual((answer.equal, answer.survivors, list(answer.interpretation)), (True, 0, []))

    def test_answers_are_values(self) -> None:
        self.assertEqual(judge.compare(V, 4, 3), judge.compare(bytearray(V), 4, 3))
        self.assertEqual(len({judge.compare(V, 4, 3), judge.compare(V, 4, 3), judge.compare(V, 4, 4)}), 2)
        with self.assertRaises(AttributeError):
            judge.compare(V, 4, 3).element = 5  # type: ignore[misc]


class Refusals(unittest.TestCase):
    """What is refused."""

    def test_number_place_and_words(self) -> None:
        with self.assertRaises(judge.Refusal) as caught:
            judge.check_vocabulary((EXAMPLES / "repeated-label.vocabulary").read_bytes())
        refusal = caught.exception
        self.assertEqual((refusal.number, refusal.place, refusal.rule), (7, 3, judge.Rule.LABEL))
        self.assertEqual(str(refusal), "refused, 7, at record 3: the name has the label of an earlier name")

    def test_refusals_pass_between_processes(self) -> None:
        copy = pickle.loads(pickle.dumps(judge.Refusal(28, 3)))
        self.assertEqual((type(copy), copy.number, copy.place), (judge.Refusal, 28, 3))

    def test_an_unlisted_number(self) -> None:
        refusal = judge.Refusal(200, 4)
        self.assertIsNone(refusal.rule)
        self.assertEqual(str(refusal), "refused, 200: a refusal that the table does not have")

    def test_the_sorts_of_rules(self) -> None:
        of_vocabulary = [int(rule) for rule in judge.Rule if rule.is_of_vocabulary]
        self.assertEqual(of_vocabulary, [1, 2, 3, 4, 5, 6, 7, 8, 28])
        self.assertEqual([int(rule) for rule in judge.Rule if rule.is_of_chain], [20, 21, 22, 23, 24, 25])

    def test_too_many_atoms(self) -> None:
        with self.assertRaises(judge.Refusal) as caught:
            judge.compare(bytes(filled(13)), 1, 2)
        self.assertEqual((caught.exception.number, caught.exception.place), (11, 13))
        with self.assertRaises(judge.Refusal):
            judge.classify(bytes(filled(13)))


class Arguments(unittest.TestCase):
    """Numbers and buffers that a call takes, or does not."""

    def test_numbers_are_not_cut(self) -> None:
        buffer = bytearray(judge.VOCABULARY_BYTES)
        used = judge.make_vocabulary(buffer, 0)
        before = bytes(buffer)
        calls = [
            lambda bad: judge.record(V, bad(32)),
            lambda bad: judge.compare(V, bad(32), 3),
            lambda bad: judge.compare(V, 3, bad(32)),
            lambda bad: judge.make_vocabulary(buffer, bad(32)),
            lambda bad: judge.add_term(buffer, bad(64), 1),
            lambda bad: judge.add_term(buffer, used, bad(8)),
            lambda bad: judge.add_term(buffer, used, 3, bad(16)),
            lambda bad: judge.add_term(buffer, used, 5, 1, bad(16)),
            lambda bad: judge.add_statement(buffer, bad(64), 1, 1),
            lambda bad: judge.add_statement(buffer, used, bad(16), 1),
            lambda bad: judge.add_statement(buffer, used, 1, bad(16)),
        ]
        for call in calls:
            for bad in (lambda bits: -1, lambda bits: 1 << bits, lambda bits: -(1 << bits)):
                with self.assertRaises(ValueError):
                    call(bad)
            with self.assertRaises(TypeError):
                call(lambda bits: 1.0)
            # The greatest number that fits is the library's to judge.
            try:
                call(lambda bits: (1 << bits) - 1)
            except judge.Refusal:
                pass
            else:
                buffer[:] = before
        self.assertEqual(buffer, before)

    def test_what_can_be_read(self) -> None:
        whole = b"xx" + V + b"yyy"
        for data in (V, bytearray(V), memoryview(V), memoryview(whole)[2:-3], array.array("H", V), memoryview(V).cast("I")):
            self.assertEqual(judge.check_vocabulary(data), 6)  # type: ignore[arg-type]
            self.assertEqual(judge.compare(data, 4, 3).element, 4)  # type: ignore[arg-type]
        with self.assertRaises(BufferError):
            judge.check_vocabulary(memoryview(V + V)[::2])
        for data in ("text", None, 7, [16, 1, 0, 0, 0, 0, 0, 0]):
            for call in (judge.check_vocabulary, judge.Builder.resume, judge.atoms, judge.Survivors):
                with self.assertRaises(TypeError):
                    call(data)  # type: ignore[arg-type]

    def test_empty_inputs(self) -> None:
        for empty in (b"", bytearray(), memoryview(b""), memoryview(bytearray(8))[8:]):
            for call, number in (
                (lambda: judge.check_vocabulary(empty), 1),
                (lambda: judge.record(empty, 0), 1),
                (lambda: judge.compare(empty, 1, 1), 1),
                (lambda: judge.classify(empty), 1),
                (lambda: judge.check_script(empty, SCRIPT), 1),
                (lambda: judge.check_script(V, empty), 13),
                (lambda: judge.atoms(empty), 1),
                (lambda: judge.Builder.resume(empty), 1),
            ):
                with self.assertRaises(judge.Refusal) as caught:
                    call()
                self.assertEqual(caught.exception.number, number)

    def test_empty_buffers(self) -> None:
        for empty in (bytearray(), memoryview(bytearray(8))[8:]):
            for call, number in (
                (lambda: judge.make_vocabulary(empty, 0), 27),
                (lambda: judge.add_term(empty, 0, 1), 1),
                (lambda: judge.add_term(empty, 8, 1), 1),
                (lambda: judge.add_statement(empty, 0, 1, 1), 1),
                (lambda: judge.compare(V, 4, 3, empty), 12),
                (lambda: judge.classify(V, empty), 12),
                (lambda: judge.classify(V, None, empty), 26),
                (lambda: judge.set_edition(empty, judge.Edition.TWO), 1),
            ):
                with self.assertRaises(judge.Refusal) as caught:
                    call()
                self.assertEqual(caught.exception.number, number)

    def test_long_inputs(self) -> None:
        for data in (bytes(judge.VOCABULARY_BYTES + 8), bytearray(1 << 20)):
            with self.assertRaises(judge.Refusal) as caught:
                judge.check_vocabulary(data)
            self.assertEqual(caught.exception.rule, judge.Rule.VOCABULARY_LENGTH)
        with self.assertRaises(judge.Refusal) as caught:
            judge.check_script(V, bytearray(judge.SCRIPT_BYTES + 16))
        self.assertEqual(caught.exception.rule, judge.Rule.SCRIPT_LENGTH)
        self.assertEqual(judge.check_vocabulary(bytearray(bytes(filled(511)))), judge.RECORDS)

    def test_read_only_buffers_are_not_written_to(self) -> None:
        immutable = bytes(judge.VOCABULARY_BYTES)
        before = bytes(bytearray(immutable))
        for buffer in (immutable, memoryview(immutable), memoryview(bytearray(immutable)).toreadonly()):
            for call in (
                lambda: judge.make_vocabulary(buffer, 0),
                lambda: judge.add_term(buffer, 8, 1),
                lambda: judge.add_statement(buffer, 8, 1, 1),
                lambda: judge.compare(V, 4, 3, buffer),
                lambda: judge.classify(V, buffer),
                lambda: judge.classify(V, None, buffer),
                lambda: judge.set_edition(buffer, judge.Edition.TWO),
            ):
                with self.assertRaisesRegex(TypeError, "read-only"):
                    call()
        self.assertEqual(immutable, before)

    def test_parts_of_a_buffer_are_written_alone(self) -> None:
        whole = bytearray([7] * 100)
        part = memoryview(whole)[40:56]
        self.assertEqual(judge.add_term(part, judge.make_vocabulary(part, 0), judge.Kind.TOP), 16)
        self.assertEqual(whole, bytes([7] * 40) + bytes([16, 2, 0, 0, 0, 0, 0, 0, 1, 0, 0, 0, 0, 0, 0, 0]) + bytes([7] * 44))
        with self.assertRaises(judge.Refusal) as caught:
            judge.add_term(part, 16, judge.Kind.TOP)
        self.assertEqual(caught.exception.rule, judge.Rule.ROOM)
        with self.assertRaises(BufferError):
            judge.make_vocabulary(memoryview(whole)[::2], 0)

    def test_a_refusal_leaves_buffers_as_they_were(self) -> None:
        buffer = bytearray(range(256)) * 4
        before = bytes(buffer)
        for call in (
            lambda: judge.make_vocabulary(buffer, 65),
            lambda: judge.add_term(buffer, 16, 1),
            lambda: judge.compare(V, 5, 3, buffer),
            lambda: judge.compare(b"", 4, 3, buffer),
            lambda: judge.classify(b"", buffer),
            lambda: judge.set_edition(buffer, judge.Edition.ONE),
        ):
            with self.assertRaises(judge.Refusal):
                call()
            self.assertEqual(buffer, before)

    def test_buffers_may_not_overlap(self) -> None:
        whole = bytearray(1024)
        view = memoryview(whole)
        with self.assertRaises(ValueError):
            judge.classify(V, view[:512], view[511:])
        with self.assertRaises(ValueError):
            judge.classify(V, whole, whole)
        self.assertEqual(whole, bytes(1024))
        judge.classify(V, view[:512], view[512:])
        self.assertEqual(whole[0], 0b11110111)
        # What is read is a copy where it could be written to, so that a vocabulary may be its own buffer.
        whole[: len(V)] = V
        self.assertEqual(judge.compare(view[: len(V)], 4, 3, whole).element, 4)

    def test_buffers_are_free_again(self) -> None:
        buffer = bytearray(judge.VOCABULARY_BYTES)
        used = judge.make_vocabulary(buffer, 0)
        judge.add_term(buffer, used, judge.Kind.TOP)
        with self.assertRaises(judge.Refusal):
            judge.add_term(buffer, used, 9)
        judge.compare(V, 4, 3, buffer)
        del buffer[8:]  # a buffer that is still lent cannot be resized
        self.assertEqual(len(buffer), 8)


class Editions(unittest.TestCase):
    """The editions of a header."""

    def test_there_and_back(self) -> None:
        copy = bytearray(V)
        judge.set_edition(copy, judge.Edition.TWO)
        self.assertEqual(bytes(copy), (EXAMPLES / "v2.vocabulary").read_bytes())
        self.assertEqual((judge.edition(V), judge.edition(copy)), (judge.Edition.ONE, judge.Edition.TWO))
        self.assertEqual((judge.atoms(V), judge.atoms(copy)), (3, 3))
        judge.set_edition(copy, judge.Edition.ONE)
        self.assertEqual(bytes(copy), V)

    def test_no_such_edition(self) -> None:
        copy = bytearray(V)
        with self.assertRaises(ValueError):
            judge.set_edition(copy, 3)  # type: ignore[arg-type]
        self.assertEqual(bytes(copy), V)


class Building(unittest.TestCase):
    """Vocabularies that are written."""

    def test_every_kind(self) -> None:
        terms = judge.Builder(roles=2)
        name, top, bottom = terms.name(7), terms.top(), terms.bottom()
        made = [terms.not_(name), terms.and_(top, bottom), terms.or_(name, top), terms.some(1, name), terms.all(0, bottom)]
        self.assertEqual(made, [4, 5, 6, 7, 8])
        self.assertEqual(terms.statement(4, 5), 9)
        records = [tuple(judge.record(bytes(terms), number)) for number in range(len(terms))]
        self.assertEqual(
            records,
            [
                (16, 2, 9, 2, 3),
                (3, 0, 7, 0, 0),
                (1, 0, 0, 0, 0),
                (2, 0, 0, 0, 0),
                (4, 0, 1, 0, 0),
                (5, 0, 2, 3, 0),
                (6, 0, 1, 2, 0),
                (7, 0, 1, 1, 0),
                (8, 0, 0, 3, 0),
                (9, 0, 4, 5, 0),
            ],
        )

    def test_a_refusal_changes_nothing(self) -> None:
        terms = filled(2)
        before = bytes(terms)
        for add in (lambda: terms.name(0), lambda: terms.not_(3), lambda: terms.some(0, 1), lambda: terms.statement(1, 3)):
            with self.assertRaises(judge.Refusal) as caught:
                add()
            self.assertEqual(caught.exception.place, 3)
        self.assertEqual(bytes(terms), before)

    def test_room(self) -> None:
        terms = filled(511)
        self.assertEqual(len(terms), judge.RECORDS)
        with self.assertRaises(judge.Refusal) as caught:
            terms.top()
        self.assertEqual(caught.exception.rule, judge.Rule.ROOM)

    def test_going_on(self) -> None:
        terms = judge.Builder.resume(bytearray(V))
        self.assertEqual(terms.not_(3), 6)
        terms.set_edition(judge.Edition.TWO)
        self.assertEqual(judge.record(bytes(terms), 0), judge.Record(16, 2, 5, 0, 3))
        with self.assertRaises(judge.Refusal):
            judge.Builder.resume(V[:-1])


class Threads(unittest.TestCase):
    """Several calls at once."""

    def test_each_thread_gets_its_own_answer(self) -> None:
        inputs = [bytes(filled(count)) for count in range(1, 13)] * 40
        with ThreadPoolExecutor(8) as pool:
            answers = list(pool.map(judge.classify, inputs))
        self.assertEqual([answer.survivors for answer in answers], [2**count for count in range(1, 13)] * 40)

    def test_a_buffer_that_others_write_to(self) -> None:
        """A call reads the one vocabulary or the other, and never a part of each."""
        both = []
        for within in ((1, 2), (2, 1)):
            terms = filled(12)
            terms.statement(*within)
            both.append(bytes(terms))
        wanted = [judge.compare(vocabulary, 1, 2) for vocabulary in both]
        shared, stop = bytearray(both[0]), threading.Event()

        def write() -> None:
            while not stop.is_set():
                for vocabulary in both:
                    shared[:] = vocabulary

        writer = threading.Thread(target=write)
        writer.start()
        try:
            found = [judge.compare(shared, 1, 2) for _ in range(500)]
        finally:
            stop.set()
            writer.join()
        self.assertNotEqual(*wanted)
        self.assertEqual([answer for answer in found if answer not in wanted], [])

    def test_the_stack_that_is_said_is_enough(self) -> None:
        before = threading.stack_size(judge.STACK_BYTES + 256 * 1024)
        try:
            with ThreadPoolExecutor(1) as pool:
                answer = pool.submit(judge.classify, bytes(filled(12))).result()
        finally:
            threading.stack_size(before)
        self.assertEqual(answer.survivors, 4096)


if __name__ == "__main__":
    unittest.main()
