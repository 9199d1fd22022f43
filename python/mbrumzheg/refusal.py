"""Why a call was refused."""

from __future__ import annotations

from enum import IntEnum
from typing import Optional


class Refusal(IntEnum):
    """A refusal: its number from 1 to 21. A refused call changes nothing."""

    NO_ROOM = 1
    UNSOUND = 2
    ARMED_ALREADY = 3
    NOT_ARMED = 4
    PROFILE_LENGTH = 5
    MALFORMED = 6
    OTHER_FIRM = 7
    OUT_OF_RANGE = 8
    LEVEL_CLASH = 9
    UNIT_CLASH = 10
    TOO_MANY = 11
    BAD_TIME = 12
    UNKNOWN = 13
    BAD_AMOUNT = 14
    LOG_FULL = 15
    FAULTY_RECORD = 16
    REGISTER_FULL = 17
    IDENTITY_CLASH = 18
    OVER_REPORTED = 19
    UNFIT = 20
    ACCOUNT_FULL = 21

    @property
    def sentence(self) -> str:
        """What it means, in a sentence without its first capital and full stop."""
        return _SENTENCES[self]

    def __str__(self) -> str:
        return f"refused with {int(self)}: {self.sentence}"

    def __format__(self, form: str) -> str:
        return format(str(self), form)


_SENTENCES = {
    Refusal.NO_ROOM: "the lent memory has fewer than 2,763 numbers, the account fewer than 520, or the room is shorter than the call asks for",
    Refusal.UNSOUND: "the memory is marked, but what stands in it is no sound state, or a figure of the account is above 10^18",
    Refusal.ARMED_ALREADY: "the memory's armed mark is not 0, so clear it before arming",
    Refusal.NOT_ARMED: "the memory is not armed, so no rule stands behind this call",
    Refusal.PROFILE_LENGTH: "the profile is empty or longer than 65,536 bytes",
    Refusal.MALFORMED: "the line has too few or too many fields, a field of wrong length or characters, or an unknown type",
    Refusal.OTHER_FIRM: "the line names another firm than the first line does",
    Refusal.OUT_OF_RANGE: "the line's limit or time limit is out of range",
    Refusal.LEVEL_CLASH: "the line has a root and also T for the firm, or neither",
    Refusal.UNIT_CLASH: "the line sets one of call/put and month without the other, or sets them in a firm rule",
    Refusal.TOO_MANY: "the line is one rule or one root more than a profile may have",
    Refusal.BAD_TIME: "the time is no time of the day, or earlier than the unit's clock",
    Refusal.UNKNOWN: "the root, unit, rule, level, reset, verdict or identity is not known here",
    Refusal.BAD_AMOUNT: "the premium is not within $0.0001 to $10,000, the contracts not within 1 to 1,000,000, or the reports not within 1 to 16",
    Refusal.LOG_FULL: "fills inside the longest window and places kept for reports leave too few of the log's 512 places",
    Refusal.FAULTY_RECORD: "the event record is not 16 bytes (12 in the old form), or a field in it is out of range or not 0 where it must be",
    Refusal.REGISTER_FULL: "64 orders sent away are open, so the register has no place for another",
    Refusal.IDENTITY_CLASH: "an order of this identity is open already or, for a report or a closing, none is",
    Refusal.OVER_REPORTED: "the report has more contracts than are open, or the order has no report left",
    Refusal.UNFIT: "the record does not fit the old form: its kind is above 2, its time not in whole milliseconds, or its reset above 3",
    Refusal.ACCOUNT_FULL: "a figure of the account would pass 10^18, so the event was not applied",
}


class Refused(Exception):
    """A call was refused, and has changed nothing. A refused Arm says which line of the profile is at fault, from 1, if one is."""

    def __init__(self, refusal: Refusal, line: Optional[int] = None) -> None:
        super().__init__(refusal, line)
        self.refusal = refusal
        self.line = line

    def __str__(self) -> str:
        if self.line is None:
            return str(self.refusal)
        return f"refused with {int(self.refusal)} at line {self.line}: {self.refusal.sentence}"
