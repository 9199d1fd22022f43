"""Records of both forms: events that come back, microseconds, refusals, and moving from one form to the other."""

from __future__ import annotations

import unittest
from typing import Callable

from mbrumzheg import Closing, Contracts, Event, Identity, Level, Lockout, Offer, Order, Premium, Refusal, Refused, Report, Reports, Reset, Root, Sending
from mbrumzheg import Time, Unit, UnitOfRoot, from_record, from_record16, narrow, raw, records, records16, widen

WIDTHS = (4, 37, 6, 2, 27, 20, 4, 1, 16, 5, 6)
LATE = Time.from_us(86_399_999_999)


def offer(time: Time, contracts: int, root: int = 0) -> Offer:
    """At $7, calls of the front months."""
    return Offer(time, Root(root), UnitOfRoot.CALLS_FRONT, Premium(70_000), Contracts(contracts))


def packed(*fields: int) -> bytes:
    """Fields as the request's widths lay them out."""
    number = 0
    for width, field in zip(WIDTHS, fields):
        number = number << width | field
    return number.to_bytes(16, "big")


SENDING = Sending(Time(8, 1), Root(5), UnitOfRoot.PUTS_TRAILING, Premium(100_000_000), Contracts(1_000_000), Identity(65_535), Reports(16))
# events that the old form has, and events that it has no place for
OLD: list[Event] = [Order(Time(1), Root(63), Reset.BOTH), offer(Time(86_399_999), 1_000_000, 63), Lockout(Time(2), Level(Root(5))), Lockout(Time(3), Level())]
NEW: list[Event] = [Order(LATE, Root(63)), Order(Time(0), Root(0), Reset.T), Order(Time(0), Root(0), Reset.TE), SENDING]
NEW += [Report(LATE, Identity(0), Contracts(1)), Closing(Time(0), Identity(7)), Lockout(Time(1, 999), Level())]


class Records(unittest.TestCase):
    """Records of 16 bytes, and of the old 12."""

    def refused(self, refusal: Refusal, call: Callable[..., object], *words: object) -> None:
        """The call is refused so."""
        with self.assertRaises(Refused) as caught:
            call(*words)
        self.assertEqual(caught.exception.refusal, refusal)

    def test_records_of_all_kinds_come_back(self) -> None:
        for event in OLD + NEW:
            self.assertEqual(from_record16(event.to_record16()), event)
        stretch = b"".join(event.to_record16() for event in OLD + NEW)
        self.assertEqual(list(records16(stretch + b"\0")), [*OLD, *NEW, Refusal.FAULTY_RECORD])
        self.refused(Refusal.FAULTY_RECORD, from_record16, b"\xff" * 16)
        self.refused(Refusal.FAULTY_RECORD, from_record16, OLD[0].to_record())

    def test_fields_stand_where_the_request_puts_them(self) -> None:
        self.assertEqual(offer(Time(10), 200).to_record16(), packed(1, 10_000, 0, 0, 70_000, 200, 0, 0, 0, 0, 0))
        self.assertEqual(SENDING.to_record16(), packed(3, 8_001, 5, 3, 100_000_000, 1_000_000, 0, 0, 65_535, 16, 0))
        self.assertEqual(raw.read_record16(SENDING.to_record16()), (0, SENDING.numbers(), (0, 0)))
        for wrong in [(6, 0), (0, 86_400_000_000), (0, 0, 0, 1), (0, 0, 0, 0, 0, 0, 7), (0, 0, 0, 0, 0, 0, 0, 0, 1), (5, 0, 1), (5, 0, 0, 0, 0, 0, 0, 0, 7, 0, 1)]:
            self.refused(Refusal.FAULTY_RECORD, from_record16, packed(*wrong, *[0] * (11 - len(wrong))))
        for reports in (0, 17):
            self.refused(Refusal.FAULTY_RECORD, from_record16, packed(3, 0, 0, 0, 1, 1, 0, 0, 0, reports, 0))

    def test_the_old_form_has_a_record_for_some(self) -> None:
        for event in OLD:
            self.assertEqual(from_record(event.to_record()), event)
            self.assertEqual((widen(event.to_record()), narrow(event.to_record16())), (event.to_record16(), event.to_record()))
        self.assertEqual(offer(Time(10), 200).to_record().hex(), "400000500001117000" + "0c8000")
        stretch = b"".join(event.to_record() for event in OLD)
        self.assertEqual(list(records(stretch + b"\0")), [*OLD, Refusal.FAULTY_RECORD])
        for event in NEW:
            self.refused(Refusal.FAULTY_RECORD, event.to_record)
            self.refused(Refusal.UNFIT, narrow, event.to_record16())
        for call, size in ((from_record, 12), (widen, 12), (narrow, 16)):
            self.refused(Refusal.FAULTY_RECORD, call, b"\xff" * size)

    def test_refusals_come_in_their_order(self) -> None:
        room, order = raw.room(11), OLD[0]
        self.assertEqual([raw.narrow(NEW[0].to_record16(), room)[0], raw.narrow(order.to_record16(), room)[0], raw.narrow(b"", room)[0]], [20, 1, 16])
        self.assertEqual([raw.widen(order.to_record(), raw.room(15))[0], raw.widen(b"", room)[0]], [1, 16])
        self.assertEqual([raw.write_record16(order.numbers(), raw.room(15))[0], raw.write_record16((6, *order.numbers()[1:]), room)[0]], [1, 16])
        self.assertEqual(bytes(room), bytes(11))

    def test_a_unit_goes_by_whole_milliseconds(self) -> None:
        unit = Unit().arm("ABCD,abs_vol,XYZ,1000")
        self.assertEqual([unit.answer(Order(Time.from_us(us), Root(0))).verdict.passes for us in (1_999, 1_001)], [True, True])
        self.assertEqual(unit.clock, Time(1))
        self.refused(Refusal.BAD_TIME, unit.answer, Order(Time.from_us(999), Root(0)))
