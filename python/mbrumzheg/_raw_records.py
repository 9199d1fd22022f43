"""Event records as the library exports them: with microseconds, of the old form, and moved from one to the other."""

from __future__ import annotations

import ctypes
from typing import TYPE_CHECKING, Tuple

from ._rows import NewRow, Row, library, numbers, u64

if TYPE_CHECKING:
    from ._rows import Room

RECORD16_SIZE = 16
"""How many bytes a record has."""
RECORD_SIZE = 12
"""How many bytes a record of the old form has."""

Event16Numbers = Tuple[int, int, int, int, int, int, int, int, int, int]
"""An event's numbers: kind, time in microseconds, root, unit, premium, contracts, reset, level, identity, reports. One that its kind does not use is 0."""
Event16Row = Tuple[int, Event16Numbers, Tuple[int, int]]
"""What reading a record answers: refusal, the event's numbers, and two that are 0."""
EventNumbers = Tuple[int, int, int, int, int, int, int, int]
"""An event's numbers as a record of the old form has them, the time in milliseconds: without identity and reports."""

_Event16Row = ctypes.c_uint64 * 13
_EventRow = ctypes.c_uint64 * 9


def read_record16(record: bytes) -> Event16Row:
    """Reads an event record: refusal, the event's numbers (zeros if refused), and two that are 0."""
    row = _Event16Row()
    library.mbrumzheg_read_record16(record, len(record), row)
    refusal, kind, time, root, unit, premium, contracts, reset, level, identity, reports, first, second = row
    return refusal, (kind, time, root, unit, premium, contracts, reset, level, identity, reports), (first, second)


def write_record16(event: Event16Numbers, into: Room) -> Row:
    """Writes an event's record to the first 16 bytes of the room: refusal."""
    row = NewRow()
    library.mbrumzheg_write_record16(*map(u64, event), into, len(into), row)
    return numbers(row)


def read_record(record: bytes) -> tuple[int, EventNumbers]:
    """Reads an event record of the old form: refusal, and the event's numbers (zeros if refused)."""
    row = _EventRow()
    library.mbrumzheg_read_record(record, len(record), row)
    refusal, kind, time, root, unit, premium, contracts, reset, level = row
    return refusal, (kind, time, root, unit, premium, contracts, reset, level)


def write_record(event: EventNumbers, into: Room) -> Row:
    """Writes an event's record of the old form to the first 12 bytes of the room: refusal."""
    row = NewRow()
    library.mbrumzheg_write_record(*map(u64, event), into, len(into), row)
    return numbers(row)


def widen(record: bytes, into: Room) -> Row:
    """Moves a record of the old form to the first 16 bytes of the room, as one with microseconds: refusal."""
    row = NewRow()
    library.mbrumzheg_widen(record, len(record), into, len(into), row)
    return numbers(row)


def narrow(record: bytes, into: Room) -> Row:
    """Moves a record to the first 12 bytes of the room, as one of the old form: refusal."""
    row = NewRow()
    library.mbrumzheg_narrow(record, len(record), into, len(into), row)
    return numbers(row)
