"""The time of an event."""

from __future__ import annotations

import re
from operator import index
from typing import Optional, Type, TypeVar

from ._ranged import Ranged
from .refusal import Refusal, Refused

_T = TypeVar("_T", bound="Time")


class Time(Ranged):
    """A time of the trading day in milliseconds, 0 to 86,399,999, and the microseconds beyond them, 0 to 999. The rules count in whole milliseconds, so every
    call goes by these; the microseconds stand in records alone. Two times are equal if both are."""

    MOST = 86_399_999
    _refusal = Refusal.BAD_TIME
    _wanted = "time: it is written 09:30, 09:30:00, 09:30:00.250 or 09:30:00.250125, and is 00:00 to 23:59:59.999999"

    micros: int

    def __new__(cls: Type[_T], ms: int, micros: int = 0) -> _T:
        if not 0 <= index(micros) <= 999:
            raise Refused(cls._refusal)
        time = super().__new__(cls, ms)
        time.micros = index(micros)
        return time

    @classmethod
    def from_us(cls: Type[_T], us: int) -> _T:
        """The time of so many microseconds of the day."""
        return cls(us // 1_000, us % 1_000)

    @property
    def ms(self) -> int:
        """The milliseconds of the day, what is beyond them dropped."""
        return int(self)

    @property
    def us(self) -> int:
        """The microseconds of the day."""
        return int(self) * 1_000 + self.micros

    def __eq__(self, other: object) -> bool:
        return isinstance(other, int) and self.us == _us(other)

    def __ne__(self, other: object) -> bool:
        return not self == other

    def __lt__(self, other: int) -> bool:
        return self.us < _us(other)

    def __le__(self, other: int) -> bool:
        return self.us <= _us(other)

    def __gt__(self, other: int) -> bool:
        return self.us > _us(other)

    def __ge__(self, other: int) -> bool:
        return self.us >= _us(other)

    def __hash__(self) -> int:
        return hash((int(self), self.micros)) if self.micros else hash(int(self))

    def __str__(self) -> str:
        ms = int(self)
        parts = f"{ms % 1_000 * 1_000 + self.micros:06}" if self.micros else f"{ms % 1_000:03}"
        return f"{ms // 3_600_000:02}:{ms // 60_000 % 60:02}:{ms // 1_000 % 60:02}.{parts}"

    def __repr__(self) -> str:
        return f"Time.parse('{self}')"

    def __format__(self, form: str) -> str:
        return format(str(self), form)

    @classmethod
    def _made(cls: Type[_T], number: int) -> _T:
        return cls.from_us(number)

    @classmethod
    def _read(cls, text: str) -> Optional[int]:
        face = re.fullmatch(r"([0-9]{1,2}):([0-5]?[0-9])(?::([0-5]?[0-9])(?:\.([0-9]{1,6}))?)?", text)
        if face is None:
            return None
        hours, minutes, seconds, parts = face.groups("0")
        return (int(hours) * 3_600 + int(minutes) * 60 + int(seconds)) * 1_000_000 + int(parts.ljust(6, "0"))


def _us(number: int) -> int:
    """The microseconds of a time, or of so many milliseconds."""
    return number.us if isinstance(number, Time) else number * 1_000
