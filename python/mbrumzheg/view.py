"""What may be asked of an armed unit beside its events: clock, names, marks, rules and their text. The library answers for roots' names, rules and text; the
rest is read from the memory by the map in docs/MEMORY.md, which is tested against the second program, not proved."""

from __future__ import annotations

from dataclasses import dataclass
from typing import TYPE_CHECKING, Optional

from . import _place, raw
from .refusal import Refusal, Refused
from .rule import Rule, rule_of
from .values import Root, Time

if TYPE_CHECKING:
    from ._rows import Memory


@dataclass(frozen=True)
class Marks:
    """Why a root or the firm is locked: by a tripped rule, by the user, by both or not at all."""

    tripped: bool = False
    locked_by_user: bool = False

    @property
    def locked(self) -> bool:
        """Whether it is locked at all."""
        return self.tripped or self.locked_by_user


def _name(number: int) -> str:
    """The name that a number stands for: its bytes in base 256, the first on top."""
    return number.to_bytes(8, "big").lstrip(b"\0").decode("ascii")


class View:
    """The reading part of a unit. On a unit that is not armed, each raises Refused with NOT_ARMED."""

    _memory: Memory

    @property
    def armed(self) -> bool:
        """Whether the unit was armed: check it before the first order passes."""
        return self._memory[_place.MARK] == 1

    def _at(self, place: int) -> int:
        if not self.armed:
            raise Refused(Refusal.NOT_ARMED)
        return self._memory[place]

    @property
    def clock(self) -> Time:
        """The time of the last event that was not refused."""
        return Time(self._at(_place.CLOCK))

    @property
    def firm(self) -> str:
        """The firm's name."""
        return _name(self._at(_place.FIRM))

    @property
    def rule_count(self) -> int:
        """How many rules the profile has."""
        return self._at(_place.RULE_COUNT)

    @property
    def root_count(self) -> int:
        """How many roots the profile has."""
        return self._at(_place.ROOT_COUNT)

    def rules(self) -> list[Rule]:
        """The rules of the profile, by number."""
        return [self.rule(number) for number in range(self.rule_count)]

    def rule(self, number: int) -> Rule:
        """A rule by its number; one that the profile does not have raises Refused with UNKNOWN."""
        row = raw.rule(self._memory, number)
        if row[0]:
            raise Refused(Refusal(row[0]))
        return rule_of(number, row)

    def roots(self) -> list[tuple[Root, str]]:
        """The roots with their names, by number."""
        return [(Root(number), self.root_name(Root(number))) for number in range(self.root_count)]

    def root_name(self, root: Root) -> str:
        """The name of a root; one that the profile does not have raises Refused with UNKNOWN."""
        room = raw.room(raw.NAME_SIZE)
        refusal, length = raw.root_name(self._memory, root, room)[:2]
        if refusal:
            raise Refused(Refusal(refusal))
        return bytes(room[:length]).decode("ascii")

    def root_named(self, name: str) -> Optional[Root]:
        """The root of a name; none if the profile does not have it."""
        refusal, root = raw.root_named(self._memory, name.encode())[:2]
        if refusal == Refusal.UNKNOWN:
            return None
        if refusal:
            raise Refused(Refusal(refusal))
        return Root(root)

    def profile(self) -> str:
        """The rules that are active as a profile's text: a line a rule, in their order, with no leading zeros, with windows as they take effect, and with no
        empty fields at its end. A unit armed with it has the same rules, roots and numbers.

        >>> from mbrumzheg import Unit
        >>> Unit().arm("ABCD,rate_vol,XYZ,0500,\\nABCD,abs_ntnl,,20000,any,T").profile()
        'ABCD,rate_vol,XYZ,500,100\\nABCD,abs_ntnl,,20000,,T\\n'
        """
        room = raw.room(raw.PROFILE_MOST)
        refusal, size = raw.profile(self._memory, room)[:2]
        if refusal:
            raise Refused(Refusal(refusal))
        return bytes(room[:size]).decode("ascii")

    @property
    def firm_marks(self) -> Marks:
        """The firm's marks."""
        return Marks(self._at(_place.FIRM_TRIPPED) == 1, self._at(_place.FIRM_LOCKED) == 1)

    def root_marks(self, root: Root) -> Marks:
        """A root's marks."""
        return Marks(bool(self._at(_place.ROOTS_TRIPPED) >> root & 1), bool(self._at(_place.ROOTS_LOCKED) >> root & 1))
