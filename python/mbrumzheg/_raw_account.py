"""The calls that keep the day's account, as the library exports them: its numbers are lent beside the memory. Each answers as the plain call does, refuses with
1 for a short account too, with 2 for one that has a figure above 10^18, and with 21, before the event is applied, where a figure would pass that."""

from __future__ import annotations

from typing import TYPE_CHECKING

from ._rows import NewRow, Row, library, numbers, u64

if TYPE_CHECKING:
    from ._rows import Memory

ACCOUNT_SIZE = 520
"""How many 64-bit numbers an account takes. More may be lent; the rest is neither read nor written."""


def accounted_order(lent: Memory, account: Memory, time: int, root: int, reset: int) -> Row:
    """An order: refusal, verdict."""
    row = NewRow()
    library.mbrumzheg_accounted_order(lent, len(lent), account, len(account), u64(time), u64(root), u64(reset), row)
    return numbers(row)


def accounted_lockout(lent: Memory, account: Memory, time: int, level: int, root: int) -> Row:
    """A lockout by the user: refusal, verdict."""
    row = NewRow()
    library.mbrumzheg_accounted_lockout(lent, len(lent), account, len(account), u64(time), u64(level), u64(root), row)
    return numbers(row)


def accounted_offer(lent: Memory, account: Memory, time: int, root: int, unit: int, premium: int, contracts: int) -> Row:
    """An offered fill: refusal, verdict, grant, root trip, firm trip."""
    row = NewRow()
    library.mbrumzheg_accounted_offer(lent, len(lent), account, len(account), *map(u64, (time, root, unit, premium, contracts)), row)
    return numbers(row)


def accounted_send(lent: Memory, account: Memory, time: int, root: int, unit: int, premium: int, contracts: int, identity: int, reports: int) -> Row:
    """An order sent away: refusal, verdict."""
    row = NewRow()
    order = (time, root, unit, premium, contracts, identity, reports)
    library.mbrumzheg_accounted_send(lent, len(lent), account, len(account), *map(u64, order), row)
    return numbers(row)


def accounted_report(lent: Memory, account: Memory, time: int, identity: int, contracts: int) -> Row:
    """A report of an order sent away: refusal, verdict, its contracts, root trip, firm trip."""
    row = NewRow()
    library.mbrumzheg_accounted_report(lent, len(lent), account, len(account), u64(time), u64(identity), u64(contracts), row)
    return numbers(row)


def accounted_close(lent: Memory, account: Memory, time: int, identity: int) -> Row:
    """The closing of an order sent away: refusal, verdict."""
    row = NewRow()
    library.mbrumzheg_accounted_close(lent, len(lent), account, len(account), u64(time), u64(identity), row)
    return numbers(row)
