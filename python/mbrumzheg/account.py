"""The day's account: for each root, and for the firm, what an evening's table shows.

>>> from mbrumzheg import Account, Column, Contracts, Offer, Premium, Reset, Time, Unit, UnitOfRoot
>>> unit, account = Unit().arm("ABCD,abs_vol,XYZ,1000"), Account()
>>> xyz = unit.root_named("XYZ")
>>> granted = unit.accounted_offer(account, Offer(Time(0), xyz, UnitOfRoot.CALLS_FRONT, Premium.parse("7.00"), Contracts(1200)))
>>> verdict = unit.accounted_order(account, Time(1), xyz)
>>> account.root(xyz)
Figures(accepted=0, rejected=1, fills=1, contracts=1000, notional=70000000, cuts=1, trips=1, away_reports=0)
>>> account.firm().contracts, account.firm()[Column.CUTS]
(1000, 1)
"""

from __future__ import annotations

import ctypes
from enum import IntEnum
from typing import TYPE_CHECKING, NamedTuple, Optional

from . import raw
from .refusal import Refusal, Refused
from .values import Root

if TYPE_CHECKING:
    from ._rows import Memory

FIRM_ROW = 64


class Column(IntEnum):
    """A column of an account: orders and sendings that passed, and those that were rejected; offers that were granted something, their contracts, and premium
    times contracts in ten-thousandths of a dollar; offers that were not locked out and got less than was offered; root trips, in the firm's row firm trips;
    reports of orders sent away, which are counted there and as trips alone."""

    ACCEPTED = 0
    REJECTED = 1
    FILLS = 2
    CONTRACTS = 3
    NOTIONAL = 4
    CUTS = 5
    TRIPS = 6
    AWAY_REPORTS = 7

    @property
    def text(self) -> str:
        """What it has, in words."""
        return f"{self.name.lower()} orders" if self <= Column.REJECTED else self.name.lower().replace("_", " ")


class Figures(NamedTuple):
    """A row of an account, by column."""

    accepted: int = 0
    rejected: int = 0
    fills: int = 0
    contracts: int = 0
    notional: int = 0
    cuts: int = 0
    trips: int = 0
    away_reports: int = 0


class Account:
    """An account, begun at zeros. The accounted calls of a Unit count in it what they do not refuse; it knows nothing of the unit, and is handed on where a unit
    is armed again. A call that would bring a figure past 10^18 is refused with ACCOUNT_FULL, and nothing is applied."""

    def __init__(self) -> None:
        self._numbers: Memory = raw.memory(raw.ACCOUNT_SIZE)

    @classmethod
    def adopt(cls, memory: bytes) -> Account:
        """An account that goes on from saved numbers, as `memory` had them. Refused with NO_ROOM for fewer; a figure above 10^18 is refused by the next call,
        with UNSOUND."""
        if len(memory) < 8 * raw.ACCOUNT_SIZE:
            raise Refused(Refusal.NO_ROOM)
        account = cls()
        account._numbers = (ctypes.c_uint64 * raw.ACCOUNT_SIZE).from_buffer_copy(memory)
        return account

    def memory(self) -> bytes:
        """A copy of its numbers, which `adopt` takes again: eight bytes each, in the machine's order."""
        return bytes(self._numbers)

    @property
    def numbers(self) -> Memory:
        """The numbers that calls are lent: row after row, the roots' and then the firm's."""
        return self._numbers

    def _row(self, row: int) -> Figures:
        return Figures(*self._numbers[row * len(Column) : (row + 1) * len(Column)])

    def root(self, root: Root) -> Figures:
        """The figures of a root."""
        return self._row(Root(root))

    def firm(self) -> Figures:
        """The figures of the firm."""
        return self._row(FIRM_ROW)

    def table(self) -> list[tuple[Optional[Root], Figures]]:
        """All rows: the 64 roots' by number, then the firm's, which has no root."""
        rows: list[tuple[Optional[Root], Figures]] = [(Root(row), self._row(row)) for row in range(FIRM_ROW)]
        return [*rows, (None, self.firm())]
