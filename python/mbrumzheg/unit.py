"""The unit: its memory, and the calls on it."""

from __future__ import annotations

import ctypes
from dataclasses import dataclass
from typing import Optional, Union

from . import raw
from ._accounted import Accounted
from ._judged import accepted, judged
from .event import Answer, Closing, Event, Lockout, Offer, Order, Report, Sending
from .refusal import Refusal, Refused
from .values import Level, Reset, Root, Time, UnitOfRoot, Verdict
from .view import View


@dataclass(frozen=True)
class Status:
    """How the roots stand: how many are tripped, locked by the user and locked at all, and the lowest locked one."""

    tripped: int
    locked_by_user: int
    locked: int
    lowest_locked: Optional[Root]


class Unit(View, Accounted):
    """A risk unit on memory of its own, not armed at first: until `arm` has accepted a profile, the library refuses every call with NOT_ARMED.

    >>> from mbrumzheg import Contracts, Offer, Premium, Time, Unit, UnitOfRoot
    >>> unit = Unit().arm("ABCD,abs_vol,XYZ,1000")
    >>> offer = Offer(Time.parse("09:30"), unit.root_named("XYZ"), UnitOfRoot.CALLS_FRONT, Premium.parse("7.00"), Contracts(1200))
    >>> unit.offer(offer)
    Answer(verdict=<Verdict.FREE: 0>, grant=1000, root_trip=True, firm_trip=False)
    """

    def __init__(self) -> None:
        self._memory = raw.memory()

    @classmethod
    def adopt(cls, memory: bytes) -> Unit:
        """A unit on a copy of saved memory, armed or not, after the library's own check of the whole state. Refused with NO_ROOM or UNSOUND."""
        unit = cls()
        unit._memory = (ctypes.c_uint64 * (len(memory) // 8)).from_buffer_copy(memory)
        refusal = raw.status(unit._memory)[0]
        if refusal not in (0, Refusal.NOT_ARMED):
            raise Refused(Refusal(refusal))
        return unit

    def memory(self) -> bytes:
        """A copy of the unit's memory, which `adopt` takes again: numbers of eight bytes in the machine's order."""
        return bytes(self._memory)

    def copy(self) -> Unit:
        """Another unit in the same state, to try on it what comes next."""
        return Unit.adopt(self.memory())

    def arm(self, profile: Union[str, bytes]) -> Unit:
        """Arms the unit from a profile's text, and gives it back. A refusal says which line is at fault, and leaves the unit as it was."""
        text = profile.encode() if isinstance(profile, str) else bytes(profile)
        refusal, line, *_ = raw.arm(self._memory, text)
        if refusal:
            raise Refused(Refusal(refusal), line or None)
        return self

    def clear(self) -> None:
        """Sets the state to zeros; the unit has to be armed again."""
        accepted(raw.clear(self._memory))

    def order(self, time: Time, root: Root, reset: Reset = Reset.NONE) -> Verdict:
        """An order: the reset comes first, then the verdict."""
        return judged(raw.order(self._memory, time, root, reset)).verdict

    def lockout(self, time: Time, level: Level) -> Verdict:
        """Locks a root or the firm by the user's hand; it answers FREE."""
        return judged(raw.lockout(self._memory, time, *level.numbers())).verdict

    def offer(self, offer: Offer) -> Answer:
        """An offered fill, cut to what the rules allow."""
        return judged(raw.offer(self._memory, offer.time, offer.root, offer.unit, offer.premium, offer.contracts))

    def send(self, sending: Sending) -> Verdict:
        """Sends an order away. It gets the verdict of an order without a reset; at FREE alone the register, which holds 64, takes it up, and with a rate rule in
        the profile a place of the log is kept for each report that may come."""
        order = (sending.root, sending.unit, sending.premium, sending.contracts, sending.identity, sending.reports)
        return judged(raw.send(self._memory, sending.time, *order)).verdict

    def report(self, report: Report) -> Answer:
        """A fill of an order sent away. It is counted as it was filled, at the premium of its sending, whether anything is locked or not, and uses one of the
        order's reports. The grant is its contracts. A rule trips if an absolute one is then at its limit or above, or a rate rule above; this is answered also
        where the level had tripped before."""
        return judged(raw.report(self._memory, report.time, report.identity, report.contracts))

    def close(self, closing: Closing) -> Verdict:
        """Closes an order sent away: its identity is free again, and so are the places that were kept for reports that did not come. It answers FREE."""
        return judged(raw.close(self._memory, closing.time, closing.identity)).verdict

    def answer(self, event: Event) -> Answer:
        """Any event."""
        if isinstance(event, Order):
            return Answer(self.order(event.time, event.root, event.reset))
        if isinstance(event, Lockout):
            return Answer(self.lockout(event.time, event.level))
        if isinstance(event, Sending):
            return Answer(self.send(event))
        if isinstance(event, Report):
            return self.report(event)
        if isinstance(event, Closing):
            return Answer(self.close(event))
        return self.offer(event)

    def remaining(self, time: Time, rule: int, unit: UnitOfRoot) -> int:
        """What remains of a rule's limit on a unit at a time: ten-thousandths of a dollar, contracts or executions, by the rule's type. Rules are numbered
        from 0 by line. Neither the clock nor anything else changes.

        Refused with UNKNOWN for a rule that the profile does not have, and for a unit that is not the rule's: for a firm rule any but CALLS_FRONT, which is 0,
        for a rule of one unit any but its own. A rule of a whole root has all four; `Scope.units` names those of each.
        """
        return accepted(raw.remaining(self._memory, time, rule, unit))[1]

    def status(self) -> Status:
        """How the roots stand."""
        _, tripped, locked_by_user, locked, lowest = accepted(raw.status(self._memory))
        return Status(tripped, locked_by_user, locked, Root(lowest) if lowest <= Root.MOST else None)

    def __repr__(self) -> str:
        if not self.armed:
            return "<Unit, not armed>"
        return f"<Unit of firm {self.firm}, rules: {self.rule_count}, roots: {self.root_count}, clock {self.clock}>"
