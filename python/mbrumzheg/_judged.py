"""Rows of calls as answers."""

from __future__ import annotations

from . import raw
from .event import Answer
from .refusal import Refusal, Refused
from .values import Verdict


def accepted(row: raw.Row) -> raw.Row:
    """The row of a call that was not refused."""
    if row[0]:
        raise Refused(Refusal(row[0]))
    return row


def judged(row: raw.Row) -> Answer:
    """The answer in a row."""
    _, verdict, grant, root_trip, firm_trip = accepted(row)
    return Answer(Verdict(verdict), grant, root_trip == 1, firm_trip == 1)
