"""Orders sent away, what is reported of them, and their closing."""

from __future__ import annotations

import unittest
from dataclasses import replace

from mbrumzheg import Answer, Closing, Contracts, Event, Identity, Level, Offer, Premium, Refusal, Refused, Report, Reports, Reset, Root, Sending, Time, Unit
from mbrumzheg import UnitOfRoot, Verdict, from_record16, narrow, raw

SENDING = Sending(Time(0), Root(0), UnitOfRoot.PUTS_FRONT, Premium.parse("1.00"), Contracts(150), Identity(7), Reports(2))
OFFER = Offer(Time(0), Root(0), UnitOfRoot.PUTS_FRONT, Premium.parse("1.00"), Contracts(1))


def report(contracts: int, identity: int = 7) -> Report:
    return Report(Time(0), Identity(identity), Contracts(contracts))


class Away(unittest.TestCase):
    """The methods send, report and close."""

    def refused(self, refusal: int, call: object, *words: object) -> None:
        assert callable(call)
        with self.assertRaises(Refused) as caught:
            call(*words)
        self.assertEqual(caught.exception.refusal, refusal)

    def test_reports_are_counted_past_limits_and_under_locks(self) -> None:
        unit = Unit().arm("ABCD,abs_vol,XYZ,100\nABCD,rate_vol,,120,1000,T")
        self.assertEqual(unit.send(SENDING), Verdict.FREE)
        self.assertEqual(unit.report(report(120)), Answer(Verdict.FREE, 120, True, False))
        self.assertEqual(unit.send(replace(SENDING, identity=Identity(8))), Verdict.ROOT_LOCKED)
        self.refused(Refusal.IDENTITY_CLASH, unit.report, report(1, 8))
        self.refused(Refusal.OVER_REPORTED, unit.report, report(31))
        unit.lockout(Time(0), Level())
        self.assertEqual(unit.report(report(30)), Answer(Verdict.FREE, 30, True, True))
        self.assertEqual([unit.remaining(Time(0), 0, UnitOfRoot.PUTS_FRONT), unit.remaining(Time(0), 1, UnitOfRoot.CALLS_FRONT)], [0, 0])
        self.refused(Refusal.OVER_REPORTED, unit.report, report(1))
        self.refused(Refusal.IDENTITY_CLASH, unit.send, SENDING)
        self.assertEqual(unit.close(Closing(Time(0), Identity(7))), Verdict.FREE)
        self.refused(Refusal.IDENTITY_CLASH, unit.close, Closing(Time(0), Identity(7)))

    def test_sendings_keep_places_and_closing_gives_them_back(self) -> None:
        unit = Unit().arm("ABCD,rate_vol,XYZ,1000000,1000")
        for identity in range(63):
            self.assertEqual(unit.send(replace(SENDING, identity=Identity(identity), reports=Reports(8))), Verdict.FREE)
        self.refused(Refusal.LOG_FULL, unit.send, replace(SENDING, identity=Identity(63), reports=Reports(9)))
        self.assertEqual(unit.send(replace(SENDING, identity=Identity(63), reports=Reports(8))), Verdict.FREE)
        before = unit.memory()
        self.refused(Refusal.LOG_FULL, unit.offer, OFFER)
        self.refused(Refusal.REGISTER_FULL, unit.send, replace(SENDING, identity=Identity(64)))
        self.assertEqual(unit.memory(), before)
        self.assertEqual(unit.order(Time(0), Root(0), Reset.BOTH), Verdict.FREE)
        self.refused(Refusal.LOG_FULL, unit.offer, OFFER)
        unit.close(Closing(Time(0), Identity(0)))
        self.assertEqual([unit.offer(OFFER).grant for _ in range(8)], [1] * 8)
        self.refused(Refusal.LOG_FULL, unit.offer, OFFER)
        self.assertEqual(Unit.adopt(unit.memory()).report(report(150, 63)).grant, 150)

    def test_numbers_out_of_range_are_refused_in_order(self) -> None:
        memory = raw.memory()
        self.assertEqual([raw.send(memory, *[0] * 7)[0], raw.report(memory, 0, 0, 0)[0], raw.close(memory, 0, 0)[0]], [4] * 3)
        raw.arm(memory, b"ABCD,abs_vol,XYZ,100")
        raw.order(memory, 5, 0, 0)
        for numbers, refusal in [((4, 1, 4, 0, 0, 65_536, 0), 12), ((5, 1, 0, 0, 0, 0, 0), 13), ((5, 0, 0, 0, 0, 65_536, 0), 13), ((5, 0, 0, 1, 1, 0, 17), 14)]:
            self.assertEqual(raw.send(memory, *numbers), (refusal, 0, 0, 0, 0), numbers)
        for three, refusal in [((4, 65_536, 0), 12), ((5, 65_536, 0), 13), ((5, 0, 0), 14), ((5, 0, 1), 18)]:
            self.assertEqual(raw.report(memory, *three), (refusal, 0, 0, 0, 0), three)
        for two, refusal in [((4, 65_536), 12), ((5, 65_536), 13), ((5, 0), 18)]:
            self.assertEqual(raw.close(memory, *two), (refusal, 0, 0, 0, 0), two)

    def test_they_are_events_whose_record_has_16_bytes(self) -> None:
        unit = Unit().arm("ABCD,abs_vol,XYZ,100")
        events: list[Event] = [SENDING, report(100), Closing(Time(0), Identity(7))]
        self.assertEqual([unit.answer(event) for event in events], [Answer(Verdict.FREE), Answer(Verdict.FREE, 100, True), Answer(Verdict.FREE)])
        for event in events:
            self.refused(Refusal.FAULTY_RECORD, event.to_record)
            self.assertEqual(from_record16(event.to_record16()), event)
            self.refused(Refusal.UNFIT, narrow, event.to_record16())
