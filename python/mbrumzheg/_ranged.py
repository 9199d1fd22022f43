"""Numbers with a range and a text."""

from __future__ import annotations

import re
from operator import index
from typing import ClassVar, Optional, Type, TypeVar

from .refusal import Refusal, Refused

_N = TypeVar("_N", bound="Ranged")


class ParseError(ValueError):
    """A text that is no value of the type that it was read for. If its form is right and it is out of range, the refusal is its cause."""


class Ranged(int):
    """A number within a range; outside of it the type's refusal is raised."""

    LEAST: ClassVar[int] = 0
    MOST: ClassVar[int]
    _refusal: ClassVar[Refusal]
    _wanted: ClassVar[str]

    def __new__(cls: Type[_N], number: int) -> _N:
        number = index(number)
        if not cls.LEAST <= number <= cls.MOST:
            raise Refused(cls._refusal)
        return super().__new__(cls, number)

    def __repr__(self) -> str:
        return f"{type(self).__name__}({int(self)})"

    def __str__(self) -> str:
        return str(int(self))

    @classmethod
    def parse(cls: Type[_N], text: str) -> _N:
        """The value that a text stands for; ParseError if it is none."""
        number = cls._read(text)
        if number is None:
            raise ParseError(f"no {cls._wanted}")
        try:
            return cls._made(number)
        except Refused as refused:
            raise ParseError(f"no {cls._wanted}") from refused

    @classmethod
    def _made(cls: Type[_N], number: int) -> _N:
        return cls(number)

    @classmethod
    def _read(cls, text: str) -> Optional[int]:
        return int(text) if re.fullmatch("[0-9]{1,12}", text) else None
