"""The numbers that calls take and answer, each with a type, a range and a text of its own.

>>> Time.parse("09:30")
Time.parse('09:30:00.000')
>>> int(Premium.parse("$7.5")), str(Premium(70_000))
(75000, '7.00')
>>> UnitOfRoot.parse("call front")
<UnitOfRoot.CALLS_FRONT: 0>
>>> Verdict.ROOT_LOCKED.text
's: RiskMgmtSymLevel'
"""

from __future__ import annotations

import re
from dataclasses import dataclass
from enum import IntEnum
from typing import Optional, Type, TypeVar

from . import raw
from ._ranged import ParseError, Ranged
from ._time import Time
from .refusal import Refusal

__all__ = ["Contracts", "Identity", "Level", "ParseError", "Premium", "Reports", "Reset", "Root", "Time", "UnitOfRoot", "Verdict"]

_W = TypeVar("_W", bound="_Worded")


class Root(Ranged):
    """The number of a root, 0 to 63, in order of first appearance in the profile."""

    MOST = 63
    _refusal = Refusal.UNKNOWN
    _wanted = "root number: it is 0 to 63"


class Premium(Ranged):
    """A premium in ten-thousandths of a dollar, 1 to 100,000,000."""

    LEAST = 1
    MOST = 100_000_000
    _refusal = Refusal.BAD_AMOUNT
    _wanted = "premium: it is written in dollars with at most four places, like 7.00, and is 0.0001 to 10000.00"

    @property
    def ten_thousandths(self) -> int:
        """The ten-thousandths of a dollar."""
        return int(self)

    def __str__(self) -> str:
        whole, part = divmod(int(self), 10_000)
        return f"{whole}.{part:04}" if part % 100 else f"{whole}.{part // 100:02}"

    def __format__(self, form: str) -> str:
        return format(str(self), form)

    @classmethod
    def _read(cls, text: str) -> Optional[int]:
        dollars = re.fullmatch(r"\$?([0-9]{1,12})(?:\.([0-9]{1,4}))?", text)
        return int(dollars[1]) * 10_000 + int((dollars[2] or "").ljust(4, "0")) if dollars else None


class Contracts(Ranged):
    """A number of contracts, 1 to 1,000,000."""

    LEAST = 1
    MOST = 1_000_000
    _refusal = Refusal.BAD_AMOUNT
    _wanted = "number of contracts: it is 1 to 1000000"


class Identity(Ranged):
    """The identity of an order sent away, 0 to 65,535."""

    MOST = 65_535
    _refusal = Refusal.UNKNOWN
    _wanted = "identity: it is 0 to 65535"


class Reports(Ranged):
    """How many reports an order sent away may have, 1 to 16."""

    LEAST = 1
    MOST = 16
    _refusal = Refusal.BAD_AMOUNT
    _wanted = "number of reports: it is 1 to 16"


class _Worded(IntEnum):
    """One of a few cases, each with a number and words."""

    def __str__(self) -> str:
        return _WORDS[type(self)][self]

    def __format__(self, form: str) -> str:
        return format(str(self), form)

    @classmethod
    def parse(cls: Type[_W], text: str) -> _W:
        """The case that words stand for; ParseError if there is none."""
        for case in cls:
            if str(case) == text:
                return case
        raise ParseError(f"'{text}' is none of: {', '.join(map(str, cls))}")


class UnitOfRoot(_Worded):
    """One of the four units of a root: calls or puts, of the front two months or of the trailing months."""

    CALLS_FRONT = 0
    CALLS_TRAILING = 1
    PUTS_FRONT = 2
    PUTS_TRAILING = 3


class Reset(_Worded):
    """What an order resets before it is judged: nothing, its root, the firm (roots stay as they are), or both. T, E and TE lift the trip and the lockout of
    its root, of the firm and of both, and forget nothing that was counted."""

    NONE = 0
    SYMBOL = 1
    FIRM = 2
    BOTH = 3
    T = 4
    E = 5
    TE = 6


class Verdict(_Worded):
    """How an order or an offer was judged."""

    FREE = 0
    FIRM_LOCKED = 1
    ROOT_LOCKED = 2

    @property
    def passes(self) -> bool:
        """Whether the order or offer may pass."""
        return self is Verdict.FREE

    @property
    def text(self) -> Optional[str]:
        """The text of a rejection, as the library writes it; none for a pass."""
        room = raw.room(raw.TEXT_SIZE)
        refusal, written, *_ = raw.text(self, room)
        return None if refusal else bytes(room[:written]).decode("ascii")


_WORDS = {
    UnitOfRoot: ("call front", "call trailing", "put front", "put trailing"),
    Reset: ("none", "symbol", "firm", "both", "t", "e", "te"),
    Verdict: ("free", "firm locked", "root locked"),
}


@dataclass(frozen=True)
class Level:
    """What a lockout locks: one root, or the whole firm if there is none."""

    root: Optional[Root] = None

    def numbers(self) -> tuple[int, int]:
        """The level's number, and the root's that goes with it: 0 for the firm."""
        return (1, 0) if self.root is None else (0, int(self.root))

    def __str__(self) -> str:
        return "firm" if self.root is None else f"root {self.root}"
