"""The rules of an armed unit, as the library tells them by their numbers."""

from __future__ import annotations

from dataclasses import dataclass
from enum import IntEnum
from typing import Optional

from .event import Offer
from .raw import RuleRow
from .values import Root, UnitOfRoot

# limits of notional are told in whole dollars; a firm rule has no root, and one that covers all four units no unit
_DOLLAR = 10_000
_NO_ROOT, _ALL_UNITS = 64, 4


class Measure(IntEnum):
    """What a rule counts: premium times contracts in ten-thousandths of a dollar, contracts, or executions."""

    NOTIONAL = 0
    VOLUME = 1
    COUNT = 2


@dataclass(frozen=True)
class Scope:
    """Which fills a rule covers: those of one unit of a root, of all four units of a root if there is no unit, each counted for itself, and every fill of the
    firm if there is no root."""

    root: Optional[Root] = None
    unit: Optional[UnitOfRoot] = None

    def covers(self, offer: Offer) -> bool:
        """Whether an offer is among them."""
        return self.root in (None, offer.root) and self.unit in (None, offer.unit)

    def units(self) -> tuple[UnitOfRoot, ...]:
        """The units for which a rule of this scope keeps a count of its own, as `remaining` takes them. A firm rule keeps one for all fills, and that is the
        count of unit 0."""
        if self.root is None:
            return (UnitOfRoot(0),)
        return tuple(UnitOfRoot) if self.unit is None else (self.unit,)


@dataclass(frozen=True)
class Rule:
    """A rule of the profile. Its limit is in its measure, as `remaining` answers it, and a rule of a whole root has as much for each unit; its window is in
    milliseconds, and an absolute rule has none."""

    number: int
    measure: Measure
    limit: int
    window: Optional[int]
    scope: Scope

    @property
    def type_name(self) -> str:
        """The type as a profile has it, like rate_vol."""
        return ("abs_" if self.window is None else "rate_") + ("ntnl", "vol", "count")[self.measure]


def rule_of(number: int, row: RuleRow) -> Rule:
    """The rule of a row that was not refused."""
    _, rule_type, limit, window, root, unit = row
    measure = Measure(rule_type % 3)
    scope = Scope(None if root == _NO_ROOT else Root(root), None if unit == _ALL_UNITS else UnitOfRoot(unit))
    return Rule(number, measure, limit * (_DOLLAR if measure is Measure.NOTIONAL else 1), window if rule_type < 3 else None, scope)
