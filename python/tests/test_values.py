"""Values: their ranges, their texts, and that no number is bent to fit."""

from __future__ import annotations

import doctest
import pickle
import unittest
from typing import Any

import mbrumzheg
from mbrumzheg import account
from mbrumzheg import Contracts, Identity, Level, ParseError, Premium, Refusal, Refused, Reports, Reset, Root, Time, UnitOfRoot, Verdict, raw, record, unit, values, view


class Values(unittest.TestCase):
    """Numbers with ranges, and cases with words."""

    def test_a_number_outside_its_range_is_refused(self) -> None:
        ranges: list[tuple[Any, Refusal, list[int]]] = [
            (Time, Refusal.BAD_TIME, [-1, 86_400_000, 1 << 70]),
            (Root, Refusal.UNKNOWN, [-1, 64]),
            (Premium, Refusal.BAD_AMOUNT, [0, 100_000_001]),
            (Contracts, Refusal.BAD_AMOUNT, [0, 1_000_001, -5]),
            (Identity, Refusal.UNKNOWN, [-1, 65_536]),
            (Reports, Refusal.BAD_AMOUNT, [0, 17]),
        ]
        for kind, refusal, wrong in ranges:
            for number in wrong:
                with self.assertRaises(Refused) as caught:
                    kind(number)
                self.assertEqual(caught.exception.refusal, refusal)
            self.assertEqual([kind(kind.LEAST), kind(kind.MOST)], [kind.LEAST, kind.MOST])

    def test_what_is_written_is_read_again(self) -> None:
        several: list[Any] = [Time(n) for n in range(0, 86_400_000, 79_199)] + [Time(1), Time(999), Time(86_399_999)]
        several += [Time.from_us(us) for us in (1, 999, 1_001, 10_250, 86_399_999_999)]
        several += [Premium(n) for n in range(1, 100_000_001, 99_991)] + [Premium(n) for n in (10, 100, 1_000, 10_000, 100_000_000)]
        several += [Contracts(n) for n in range(1, 1_000_001, 9_973)] + [Root(n) for n in range(64)] + [*UnitOfRoot, *Reset, *Verdict]
        several += [Identity(n) for n in (0, 1, 65_535)] + [Reports(n) for n in range(1, 17)]
        for value in several:
            self.assertEqual(type(value).parse(str(value)), value)
            again = pickle.loads(pickle.dumps(value))
            self.assertEqual((again, type(again)), (value, type(value)))

    def test_texts_are_as_a_person_writes_them(self) -> None:
        self.assertEqual([str(Premium(n)) for n in (1, 100, 150, 70_000, 100_000_000)], ["0.0001", "0.01", "0.0150", "7.00", "10000.00"])
        self.assertEqual([int(Premium.parse(text)) for text in ("7", "7.0", "$7.0000", "07.00")], [70_000] * 4)
        self.assertEqual(int(Time.parse("9:05:00.5")), 32_700_500)
        self.assertEqual((Time.parse("09:30:00.0001").us, str(Time(34_200_250, 125))), (34_200_000_100, "09:30:00.250125"))
        self.assertEqual((str(Time(34_200_250)), f"{Time(0):>14}"), ("09:30:00.250", "  00:00:00.000"))
        self.assertEqual((f"{Verdict.FREE:<5}|", f"{Contracts(1_200):,}", f"{Refusal.UNSOUND}"[:15]), ("free |", "1,200", "refused with 2:"))
        self.assertEqual((str(Level()), str(Level(Root(3))), str(Verdict.FIRM_LOCKED)), ("firm", "root 3", "firm locked"))

    def test_a_time_has_microseconds_beyond_its_milliseconds(self) -> None:
        time = Time.from_us(10_250)
        self.assertEqual((int(time), time.ms, time.micros, time.us), (10, 10, 250, 10_250))
        self.assertEqual(Time(10), 10)
        self.assertNotEqual(time, Time(10))
        self.assertNotEqual(time, 10)
        self.assertTrue(Time(10) < time < Time(11) and time > 10 and time >= time and time <= 11 and not time < Time(10))
        self.assertEqual(len({Time(10), time, Time(10, 250), 10}), 2)
        for ms, micros in ((10, 1_000), (10, -1), (86_400_000, 0)):
            self.assertRaises(Refused, Time, ms, micros)
        self.assertRaises(Refused, Time.from_us, 86_400_000_000)

    def test_other_texts_are_no_values(self) -> None:
        wrong: list[tuple[Any, list[str]]] = [
            (Time, ["", "9", "09:60", "09:30:60", "09:30:00.", "09:30:00.0000000", "+9:30", "009:30", " 09:30", "9:", ":30", "09:30\n", "٠٩:٣٠"]),
            (Premium, ["", "$", ".5", "7.", "7.00000", "7,00", "-7", "+7", "7e2", " 7", "1234567890123", "7\n"]),
            (Contracts, ["", "1.0", "+1", "-1", "1,000", "1_000", "one", " 1"]),
            (Root, ["", "x", "-1"]),
            (Identity, ["", "x", "+1"]),
            (Reports, ["", "one", " 1"]),
            (UnitOfRoot, ["", "call", "calls front"]),
            (Reset, ["", "all", "0"]),
            (Verdict, ["", "locked"]),
        ]
        for kind, texts in wrong:
            for text in texts:
                with self.assertRaises(ParseError, msg=repr(text)) as caught:
                    kind.parse(text)
                self.assertIsNone(caught.exception.__cause__, repr(text))

    def test_a_text_out_of_range_has_its_refusal_as_cause(self) -> None:
        out: list[tuple[Any, str, Refusal]] = [(Time, "24:00:00.000001", Refusal.BAD_TIME), (Premium, "10000.01", Refusal.BAD_AMOUNT)]
        out += [(Contracts, "0", Refusal.BAD_AMOUNT), (Root, "64", Refusal.UNKNOWN)]
        out += [(Identity, "65536", Refusal.UNKNOWN), (Reports, "17", Refusal.BAD_AMOUNT)]
        for kind, text, refusal in out:
            with self.assertRaises(ParseError) as caught:
                kind.parse(text)
            self.assertIsInstance(caught.exception.__cause__, Refused)
            self.assertEqual(getattr(caught.exception.__cause__, "refusal"), refusal)

    def test_no_number_is_bent_to_fit(self) -> None:
        memory = raw.memory()
        self.assertEqual(raw.arm(memory, b"ABCD,abs_vol,XYZ,1000")[0], 0)
        for number in (-1, 1 << 64, (1 << 64) + 5):
            self.assertRaises(OverflowError, raw.offer, memory, 0, 0, 0, 10_000, number)
        self.assertRaises(TypeError, raw.offer, memory, 0, 0, 0, 10_000, 5.0)
        self.assertEqual(raw.offer(memory, 0, 0, 0, 10_000, (1 << 64) - 1), (14, 0, 0, 0, 0))

    def test_the_examples_in_the_texts_run(self) -> None:
        for module in (mbrumzheg, account, record, unit, values, view):
            done = doctest.testmod(module)
            self.assertEqual(done.failed, 0)
            self.assertGreater(done.attempted, 0)
        done = doctest.testfile("../README.md")
        self.assertEqual(done.failed, 0)
        self.assertGreater(done.attempted, 10)
