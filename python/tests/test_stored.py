"""Every stored case through the package: the answers, and every byte of what is lent."""

from __future__ import annotations

import unittest
from typing import Callable, Tuple, Union

import judge

from .stored import GUARD, Case, cases, guarded, lend, number, written

#: What a call answers: a refusal's number and place, or what else there is.
Answer = Union[Tuple[str, int, int], object]


def answered(call: Callable[[], object]) -> Answer:
    """What a call answers, be it a refusal."""
    try:
        return call()
    except judge.Refusal as refusal:
        return ("refused", refusal.number, refusal.place)


def refused(case: Case) -> Tuple[str, int, int]:
    """The refusal that a case's words say."""
    return ("refused", int(case.words[1]), int(case.words[2]))


class Stored(unittest.TestCase):
    """The five subjects."""

    def expect(self, whole: bytearray, wanted: bytes) -> None:
        """The buffer has to hold this, and the guards around it what they held."""
        self.assertEqual(whole, GUARD + wanted + GUARD)

    def test_vocabularies_and_records(self) -> None:
        for case in cases("vocabulary", 6):
            counted, located = case.words[:2], case.words[2:4]
            wanted = int(counted[1]) if counted[0] == "0" else ("refused", *map(int, counted))
            self.assertEqual(answered(lambda: judge.check_vocabulary(case.vocabulary)), wanted)
            record = answered(lambda: bytes(judge.record(case.vocabulary, number(case.head[2:6]))))
            fields = bytes(map(int, case.words[4:])) if located[0] == "0" else ("refused", *map(int, located))
            self.assertEqual(record, fields)

    def test_comparisons(self) -> None:
        for case in cases("comparison", 13):
            before = lend(number(case.head[10:12]), case.head[12])
            whole, buffer = guarded(before)
            a, b = number(case.head[2:6]), number(case.head[6:10])
            answer = answered(lambda: judge.compare(case.vocabulary, a, b, buffer))
            if not isinstance(answer, judge.Comparison):
                self.assertEqual(answer, refused(case))
                self.expect(whole, before)
                continue
            element = int(case.words[1]) if case.words[0] == "different" else None
            self.assertEqual((answer.verdict.value, answer.element), (case.words[0], element))
            counts, digits = case.words[-5:-3], case.words[-3]
            self.assertEqual([answer.survivors, answer.rounds], list(map(int, counts)))
            after = written(before, digits, judge.SURVIVOR_BYTES)
            self.expect(whole, after)
            self.assertEqual(bytes(answer.interpretation), after[: judge.SURVIVOR_BYTES])
            self.assertEqual(len(answer.interpretation), answer.survivors)
            self.assertTrue(element is None or element in answer.interpretation)
            # The same with a buffer of the call's own.
            self.assertEqual(judge.compare(case.vocabulary, a, b), answer)

    def test_classifications(self) -> None:
        for case in cases("classification", 7):
            seed = case.head[6]
            lengths = number(case.head[2:4]), number(case.head[4:6])
            before = lend(lengths[0], seed), lend(lengths[1], 255 - seed)
            (first, survivors), (second, taxonomy) = map(guarded, before)
            answer = answered(lambda: judge.classify(case.vocabulary, survivors, taxonomy))
            if not isinstance(answer, judge.Classification):
                self.assertEqual(answer, refused(case))
                self.expect(first, before[0])
                self.expect(second, before[1])
                continue
            self.assertEqual([answer.survivors, answer.rounds], list(map(int, case.words[1:3])))
            self.expect(first, written(before[0], case.words[3], judge.SURVIVOR_BYTES))
            self.expect(second, written(before[1], case.words[4], judge.TAXONOMY_BYTES))
            self.assertEqual(len(answer.interpretation), answer.survivors)
            names = len(answer.names)
            entries = [answer.relation(i, j) for i in range(names) for j in range(names)]
            self.assertEqual(bytes(entries).ljust(judge.TAXONOMY_BYTES, b"\0"), answer.taxonomy)
            self.assertEqual(judge.classify(case.vocabulary), answer)

    def test_scripts(self) -> None:
        for case in cases("script", 4):
            wanted = int(case.words[1]) if case.words[0] == "accepted" else refused(case)
            self.assertEqual(answered(lambda: judge.check_script(case.vocabulary, case.script)), wanted)

    def test_writings(self) -> None:
        for case in cases("writer", 19):
            before = case.vocabulary + lend(len(case.vocabulary) + number(case.head[2:4]), case.head[4])[len(case.vocabulary) :]
            whole, buffer = guarded(before)
            answer = answered(lambda: self.write(case.head, buffer))
            changes = case.words[3:-2] if case.words[0] == "refused" else case.words[2:-2]
            wanted = bytearray(before)
            for place, digits in (change.split(":") for change in changes if change != "-"):
                wanted[int(place) : int(place) + len(digits) // 2] = bytes.fromhex(digits)
            self.expect(whole, bytes(wanted))
            self.assertEqual(answer, refused(case) if case.words[0] == "refused" else int(case.words[1]))
            if isinstance(answer, int):
                self.assertEqual(judge.check_vocabulary(buffer[:answer]), answer // judge.RECORD_BYTES)

    def write(self, head: bytes, buffer: memoryview) -> int:
        """The call that a head says."""
        call, kind, a, b, used = head[5], head[6], number(head[7:9]), number(head[9:11]), number(head[11:19])
        if call == 0:
            return judge.make_vocabulary(buffer, number(head[7:11]))
        if call == 1:
            return judge.add_term(buffer, used, kind, a, b)
        return judge.add_statement(buffer, used, a, b)


if __name__ == "__main__":
    unittest.main()
