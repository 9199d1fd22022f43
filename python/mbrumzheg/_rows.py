"""What every call of the library takes and gives: numbers of 64 bits, rooms of bytes, and rows."""

from __future__ import annotations

import ctypes
from operator import index
from typing import TYPE_CHECKING, Tuple

from . import _place
from ._library import load

if TYPE_CHECKING:
    # numbers of 64 bits that are lent to a call, and bytes to write to
    Memory = ctypes.Array[ctypes.c_uint64]
    Room = ctypes.Array[ctypes.c_uint8]

Row = Tuple[int, int, int, int, int]
"""An answer: five numbers, the refusal first (0 if the call was not refused)."""

library = load()
NewRow = ctypes.c_uint64 * 5


def memory(length: int = _place.SIZE) -> Memory:
    """Memory of so many numbers, all 0."""
    return (ctypes.c_uint64 * length)()


def room(length: int) -> Room:
    """Room for so many bytes, all 0."""
    return (ctypes.c_uint8 * length)()


def u64(number: int) -> int:
    """A number that a call can take; ctypes itself would drop what does not fit."""
    number = index(number)
    if not 0 <= number < 1 << 64:
        raise OverflowError(f"{number} is no number of 64 bits without a sign")
    return number


def numbers(row: ctypes.Array[ctypes.c_uint64]) -> Row:
    """A row as a tuple."""
    first, second, third, fourth, fifth = row
    return first, second, third, fourth, fifth
