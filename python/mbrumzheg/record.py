"""The records of events, read one by one or one after the other, and moved from one form to the other.

>>> from mbrumzheg import Order, Root, Time, from_record16, narrow, widen
>>> order = Order(Time.parse("09:30:00.000250"), Root(0))
>>> from_record16(order.to_record16()) == order
True
>>> old = Order(Time.parse("09:30"), Root(0)).to_record()
>>> len(old), len(widen(old)), narrow(widen(old)) == old
(12, 16, True)
"""

from __future__ import annotations

from typing import Callable, Iterator, Union

from . import raw
from .event import Closing, Event, Lockout, Offer, Order, Report, Sending
from .refusal import Refusal, Refused
from .values import Contracts, Identity, Level, Premium, Reports, Reset, Root, Time, UnitOfRoot

RECORD16_SIZE = raw.RECORD16_SIZE
RECORD_SIZE = raw.RECORD_SIZE


def _event(numbers: raw.Event16Numbers) -> Event:
    """The event of a record's numbers."""
    kind, us, root, unit, premium, contracts, reset, level, identity, reports = numbers
    time = Time.from_us(us)
    if kind == 0:
        return Order(time, Root(root), Reset(reset))
    if kind == 1:
        return Offer(time, Root(root), UnitOfRoot(unit), Premium(premium), Contracts(contracts))
    if kind == 2:
        return Lockout(time, Level() if level else Level(Root(root)))
    if kind == 3:
        order = (time, Root(root), UnitOfRoot(unit), Premium(premium), Contracts(contracts))
        return Sending(*order, Identity(identity), Reports(reports))
    if kind == 4:
        return Report(time, Identity(identity), Contracts(contracts))
    return Closing(time, Identity(identity))


def from_record16(record: bytes) -> Event:
    """The event of a record; refused with FAULTY_RECORD for any bytes that no event has."""
    refusal, numbers, _ = raw.read_record16(record)
    if refusal:
        raise Refused(Refusal(refusal))
    return _event(numbers)


def from_record(record: bytes) -> Event:
    """The event of a record of the old form; refused with FAULTY_RECORD for any bytes that no event has."""
    refusal, (kind, ms, root, unit, premium, contracts, reset, level) = raw.read_record(record)
    if refusal:
        raise Refused(Refusal(refusal))
    return _event((kind, ms * 1_000, root, unit, premium, contracts, reset, level, 0, 0))


def _read(stretch: bytes, size: int, read: Callable[[bytes], Event]) -> Iterator[Union[Event, Refusal]]:
    for start in range(0, len(stretch), size):
        try:
            yield read(stretch[start : start + size])
        except Refused as refused:
            yield refused.refusal


def records16(stretch: bytes) -> Iterator[Union[Event, Refusal]]:
    """The records in a stretch of bytes, one after the other: the event of each, or its refusal, as a short last one has."""
    return _read(stretch, RECORD16_SIZE, from_record16)


def records(stretch: bytes) -> Iterator[Union[Event, Refusal]]:
    """The same of records of the old form."""
    return _read(stretch, RECORD_SIZE, from_record)


def widen(record: bytes) -> bytes:
    """A record of the old form as one with microseconds; refused with FAULTY_RECORD for any bytes that no event has."""
    room = raw.room(RECORD16_SIZE)
    refusal = raw.widen(record, room)[0]
    if refusal:
        raise Refused(Refusal(refusal))
    return bytes(room)


def narrow(record: bytes) -> bytes:
    """A record as one of the old form; refused with FAULTY_RECORD for any bytes that no event has, with UNFIT for an event that the old form has no record
    for."""
    room = raw.room(RECORD_SIZE)
    refusal = raw.narrow(record, room)[0]
    if refusal:
        raise Refused(Refusal(refusal))
    return bytes(room)
