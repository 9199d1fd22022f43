"""The calls as the library exports them: numbers and bytes in, a row of numbers out, the refusal first.

Nothing here can go wrong in memory: the library checks every number and the whole state itself. The class Unit is the better way in; these functions are for
whoever has numbers, as a comparison with another program does.
"""

from __future__ import annotations

import ctypes
from typing import TYPE_CHECKING, Tuple

from . import _place
from ._raw_account import ACCOUNT_SIZE, accounted_close, accounted_lockout, accounted_offer, accounted_order, accounted_report, accounted_send
from ._raw_records import RECORD16_SIZE, RECORD_SIZE, Event16Numbers, Event16Row, EventNumbers
from ._raw_records import narrow, read_record, read_record16, widen, write_record, write_record16
from ._rows import NewRow as _Row
from ._rows import Row, memory, room
from ._rows import library as _library
from ._rows import numbers as _numbers
from ._rows import u64 as _u64

if TYPE_CHECKING:
    from ._rows import Memory, Room

__all__ = [
    "ACCOUNT_SIZE",
    "PROFILE_MOST",
    "RECORD16_SIZE",
    "RECORD_SIZE",
    "SIZE",
    "Event16Numbers",
    "Event16Row",
    "EventNumbers",
    "NAME_SIZE",
    "TEXT_SIZE",
    "Row",
    "RuleRow",
    "accounted_close",
    "accounted_lockout",
    "accounted_offer",
    "accounted_order",
    "accounted_report",
    "accounted_send",
    "arm",
    "clear",
    "close",
    "lockout",
    "memory",
    "narrow",
    "offer",
    "order",
    "profile",
    "read_record",
    "read_record16",
    "remaining",
    "report",
    "room",
    "root_name",
    "root_named",
    "rule",
    "send",
    "status",
    "text",
    "widen",
    "write_record",
    "write_record16",
]

SIZE = _place.SIZE
"""How many 64-bit numbers the state takes. More may be lent; the rest is neither read nor written."""
TEXT_SIZE = 20
"""How many bytes of room Text asks for."""
NAME_SIZE = 6
"""How many bytes of room a root's name asks for."""
PROFILE_MOST = 12_544
"""The most bytes that a profile written back has."""

RuleRow = Tuple[int, int, int, int, int, int]
"""A rule: refusal, type, limit, window, root, unit."""

_RuleRow = ctypes.c_uint64 * 6


def arm(lent: Memory, profile: bytes) -> Row:
    """Arms memory from a profile: refusal, line, firm's name as a number, rules, roots."""
    row = _Row()
    _library.mbrumzheg_arm(lent, len(lent), profile, len(profile), row)
    return _numbers(row)


def clear(lent: Memory) -> Row:
    """Sets the state to zeros, whatever it held: refusal."""
    row = _Row()
    _library.mbrumzheg_clear(lent, len(lent), row)
    return _numbers(row)


def order(lent: Memory, time: int, root: int, reset: int) -> Row:
    """An order: refusal, verdict."""
    row = _Row()
    _library.mbrumzheg_order(lent, len(lent), _u64(time), _u64(root), _u64(reset), row)
    return _numbers(row)


def lockout(lent: Memory, time: int, level: int, root: int) -> Row:
    """A lockout by the user: refusal, verdict."""
    row = _Row()
    _library.mbrumzheg_lockout(lent, len(lent), _u64(time), _u64(level), _u64(root), row)
    return _numbers(row)


def offer(lent: Memory, time: int, root: int, unit: int, premium: int, contracts: int) -> Row:
    """An offered fill: refusal, verdict, grant, root trip, firm trip."""
    row = _Row()
    _library.mbrumzheg_offer(lent, len(lent), _u64(time), _u64(root), _u64(unit), _u64(premium), _u64(contracts), row)
    return _numbers(row)


def send(lent: Memory, time: int, root: int, unit: int, premium: int, contracts: int, identity: int, reports: int) -> Row:
    """An order sent away: refusal, verdict."""
    row = _Row()
    _library.mbrumzheg_send(lent, len(lent), *map(_u64, (time, root, unit, premium, contracts, identity, reports)), row)
    return _numbers(row)


def report(lent: Memory, time: int, identity: int, contracts: int) -> Row:
    """A report of an order sent away: refusal, verdict, its contracts, root trip, firm trip."""
    row = _Row()
    _library.mbrumzheg_report(lent, len(lent), _u64(time), _u64(identity), _u64(contracts), row)
    return _numbers(row)


def close(lent: Memory, time: int, identity: int) -> Row:
    """The closing of an order sent away: refusal, verdict."""
    row = _Row()
    _library.mbrumzheg_close(lent, len(lent), _u64(time), _u64(identity), row)
    return _numbers(row)


def remaining(lent: Memory, time: int, rule: int, unit: int) -> Row:
    """What remains of a rule's limit on a unit (0 for a firm rule): refusal, the number."""
    row = _Row()
    _library.mbrumzheg_remaining(lent, len(lent), _u64(time), _u64(rule), _u64(unit), row)
    return _numbers(row)


def status(lent: Memory) -> Row:
    """How the roots stand: refusal, tripped, locked by the user, locked at all, the lowest locked root (64 if none)."""
    row = _Row()
    _library.mbrumzheg_status(lent, len(lent), row)
    return _numbers(row)


def root_named(lent: Memory, name: bytes) -> Row:
    """The number of the root that has a name: refusal, the root."""
    row = _Row()
    _library.mbrumzheg_root_named(lent, len(lent), name, len(name), row)
    return _numbers(row)


def root_name(lent: Memory, root: int, into: Room) -> Row:
    """Writes the name of a root to the front of a room of at least 6 bytes: refusal, how many bytes."""
    row = _Row()
    _library.mbrumzheg_root_name(lent, len(lent), _u64(root), into, len(into), row)
    return _numbers(row)


def rule(lent: Memory, number: int) -> RuleRow:
    """A rule by its number: refusal; type (0 rate_ntnl, 1 rate_vol, 2 rate_count, 3 abs_ntnl, 4 abs_vol, 5 abs_count); limit in whole dollars,
    contracts or executions; window (0 for an absolute rule); root (64 for a firm rule); unit (4 for all four)."""
    row = _RuleRow()
    _library.mbrumzheg_rule(lent, len(lent), _u64(number), row)
    refusal, rule_type, limit, window, root, unit = row
    return refusal, rule_type, limit, window, root, unit


def profile(lent: Memory, into: Room) -> Row:
    """Writes the rules that are active as a profile's text to the front of a room: refusal, how many bytes; with 1 for a room that is short, how many it
    takes."""
    row = _Row()
    _library.mbrumzheg_profile(lent, len(lent), into, len(into), row)
    return _numbers(row)


def text(verdict: int, into: Room) -> Row:
    """Writes the text for verdict 1 or 2 into the room: refusal, how many bytes."""
    row = _Row()
    _library.mbrumzheg_text(_u64(verdict), into, len(into), row)
    return _numbers(row)


def _check_size() -> None:
    """A library whose state has another size is not the one that this package is for."""
    if (clear(memory(SIZE - 1))[0], clear(memory(SIZE))[0]) != (1, 0):
        raise ImportError(f"the library that was loaded does not keep its state in {SIZE} numbers, so it is of another version")


_check_size()
