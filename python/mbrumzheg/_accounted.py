"""The calls of a unit that keep an account."""

from __future__ import annotations

from typing import TYPE_CHECKING

from . import raw
from ._judged import judged
from .account import Account
from .event import Answer, Closing, Event, Lockout, Offer, Order, Report, Sending
from .values import Level, Reset, Root, Time, Verdict

if TYPE_CHECKING:
    from ._rows import Memory


class Accounted:
    """Each does what the plain call does, and counts what is not refused in an account."""

    _memory: Memory

    def accounted_order(self, account: Account, time: Time, root: Root, reset: Reset = Reset.NONE) -> Verdict:
        """`order`, counted in an account."""
        return judged(raw.accounted_order(self._memory, account.numbers, time, root, reset)).verdict

    def accounted_lockout(self, account: Account, time: Time, level: Level) -> Verdict:
        """`lockout`, which an account does not count."""
        return judged(raw.accounted_lockout(self._memory, account.numbers, time, *level.numbers())).verdict

    def accounted_offer(self, account: Account, offer: Offer) -> Answer:
        """`offer`, counted in an account."""
        return judged(raw.accounted_offer(self._memory, account.numbers, offer.time, offer.root, offer.unit, offer.premium, offer.contracts))

    def accounted_send(self, account: Account, sending: Sending) -> Verdict:
        """`send`, counted in an account as an order."""
        order = (sending.root, sending.unit, sending.premium, sending.contracts, sending.identity, sending.reports)
        return judged(raw.accounted_send(self._memory, account.numbers, sending.time, *order)).verdict

    def accounted_report(self, account: Account, report: Report) -> Answer:
        """`report`, counted in an account in a column of its own and as trips."""
        return judged(raw.accounted_report(self._memory, account.numbers, report.time, report.identity, report.contracts))

    def accounted_close(self, account: Account, closing: Closing) -> Verdict:
        """`close`, which an account does not count."""
        return judged(raw.accounted_close(self._memory, account.numbers, closing.time, closing.identity)).verdict

    def accounted_answer(self, account: Account, event: Event) -> Answer:
        """Any event, counted in an account."""
        if isinstance(event, Order):
            return Answer(self.accounted_order(account, event.time, event.root, event.reset))
        if isinstance(event, Lockout):
            return Answer(self.accounted_lockout(account, event.time, event.level))
        if isinstance(event, Sending):
            return Answer(self.accounted_send(account, event))
        if isinstance(event, Report):
            return self.accounted_report(account, event)
        if isinstance(event, Closing):
            return Answer(self.accounted_close(account, event))
        return self.accounted_offer(account, event)
