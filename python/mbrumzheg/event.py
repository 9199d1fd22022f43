"""What happens to a unit, what it answers, and the records of events."""

from __future__ import annotations

from dataclasses import dataclass
from typing import Union

from . import raw
from .refusal import Refusal, Refused
from .values import Contracts, Identity, Level, Premium, Reports, Reset, Root, Time, UnitOfRoot, Verdict


class _Recorded:
    """An event with its records."""

    def numbers(self) -> raw.Event16Numbers:
        """The event's numbers, as the library takes them."""
        raise NotImplementedError

    def to_record16(self) -> bytes:
        """The event's record, of 16 bytes."""
        room = raw.room(raw.RECORD16_SIZE)
        refusal = raw.write_record16(self.numbers(), room)[0]
        if refusal:
            raise Refused(Refusal(refusal))
        return bytes(room)

    def to_record(self) -> bytes:
        """The event's record in the old form; refused with FAULTY_RECORD for what 12 bytes have no place for: a time that is not in whole milliseconds, a reset
        above BOTH, and orders sent away, their reports and their closings."""
        kind, us, root, unit, premium, contracts, reset, level, identity, reports = self.numbers()
        room = raw.room(raw.RECORD_SIZE)
        refusal: int = Refusal.FAULTY_RECORD
        if us % 1_000 == identity == reports == 0:
            refusal = raw.write_record((kind, us // 1_000, root, unit, premium, contracts, reset, level), room)[0]
        if refusal:
            raise Refused(Refusal(refusal))
        return bytes(room)


@dataclass(frozen=True)
class Order(_Recorded):
    """An order, with the reset that it asks for."""

    time: Time
    root: Root
    reset: Reset = Reset.NONE

    def numbers(self) -> raw.Event16Numbers:
        return (0, self.time.us, self.root, 0, 0, 0, self.reset, 0, 0, 0)


@dataclass(frozen=True)
class Offer(_Recorded):
    """An offered fill."""

    time: Time
    root: Root
    unit: UnitOfRoot
    premium: Premium
    contracts: Contracts

    def numbers(self) -> raw.Event16Numbers:
        return (1, self.time.us, self.root, self.unit, self.premium, self.contracts, 0, 0, 0, 0)


@dataclass(frozen=True)
class Lockout(_Recorded):
    """A lockout by the user."""

    time: Time
    level: Level

    def numbers(self) -> raw.Event16Numbers:
        level, root = self.level.numbers()
        return (2, self.time.us, root, 0, 0, 0, 0, level, 0, 0)


@dataclass(frozen=True)
class Sending(_Recorded):
    """An order that is sent to an away market; its fills are counted at its premium."""

    time: Time
    root: Root
    unit: UnitOfRoot
    premium: Premium
    contracts: Contracts
    identity: Identity
    reports: Reports

    def numbers(self) -> raw.Event16Numbers:
        return (3, self.time.us, self.root, self.unit, self.premium, self.contracts, 0, 0, self.identity, self.reports)


@dataclass(frozen=True)
class Report(_Recorded):
    """A fill that an away market reports."""

    time: Time
    identity: Identity
    contracts: Contracts

    def numbers(self) -> raw.Event16Numbers:
        return (4, self.time.us, 0, 0, 0, self.contracts, 0, 0, self.identity, 0)


@dataclass(frozen=True)
class Closing(_Recorded):
    """The closing of an order sent away."""

    time: Time
    identity: Identity

    def numbers(self) -> raw.Event16Numbers:
        return (5, self.time.us, 0, 0, 0, 0, 0, 0, self.identity, 0)


Event = Union[Order, Offer, Lockout, Sending, Report, Closing]
"""An event of the day."""


@dataclass(frozen=True)
class Answer:
    """What an event that was not refused is answered. The grant is above 0, and something trips, for offers and reports alone."""

    verdict: Verdict
    grant: int = 0
    root_trip: bool = False
    firm_trip: bool = False

    def cuts(self, offered: Contracts) -> bool:
        """Whether an offer of so many contracts was cut: it passed, and less was granted."""
        return self.verdict.passes and self.grant < offered
