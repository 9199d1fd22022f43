"""Replays a day, cell by cell: what the rules did to each fill, how near each rule came to its limit, and what another limit would have granted.

    python3 examples/replay_day.py [PROFILE RECORDS]

RECORDS is a file of 16-byte records, or of their digits to base 16 with comments, as sample-data/records.hex. Without words it replays the sample that
ships in the repository. The cells are those of a notebook: `# %%` begins one.
"""

from __future__ import annotations

import re
import sys
from pathlib import Path
from typing import NamedTuple, Optional, Union

from mbrumzheg import Answer, Event, Lockout, Offer, Order, Refusal, Refused, Report, Root, Sending, Unit, records16

# %% The day: a profile and its records


def read_records(path: Path) -> bytes:
    """The bytes of a file of records, or of one that has them to base 16."""
    content = path.read_bytes()
    if path.suffix != ".hex":
        return content
    return bytes.fromhex(re.sub(r"#.*|\s", "", content.decode()))


class Passed(NamedTuple):
    """A record's place, its event, and what the unit answered, or the refusal of either."""

    place: int
    event: Optional[Event]
    answer: Union[Answer, Refusal]


def replay(unit: Unit, stretch: bytes) -> list[Passed]:
    """Every record of a day on a unit; a refused one changes nothing, and the day goes on."""
    day = []
    for place, read in enumerate(records16(stretch), 1):
        if isinstance(read, Refusal):
            day.append(Passed(place, None, read))
            continue
        try:
            day.append(Passed(place, read, unit.answer(read)))
        except Refused as refused:
            day.append(Passed(place, read, refused.refusal))
    return day


# %% What happened, in words


def name(unit: Unit, root: Root) -> str:
    """A root's name, or its number if the profile does not have it."""
    return dict(unit.roots()).get(root, f"root {root}")


def subject(unit: Unit, event: Event) -> str:
    """What an event is about."""
    if isinstance(event, Offer):
        return f"offer {event.contracts} {event.unit} at {event.premium} on {name(unit, event.root)}"
    if isinstance(event, Order):
        return f"order on {name(unit, event.root)}, reset {event.reset}"
    if isinstance(event, Lockout):
        return f"lockout of {'the firm' if event.level.root is None else name(unit, event.level.root)}"
    if isinstance(event, Sending):
        return f"order {event.identity} of {event.contracts} sent away on {name(unit, event.root)}"
    if isinstance(event, Report):
        return f"report of {event.contracts} on order {event.identity}"
    return f"closing of order {event.identity}"


def outcome(passed: Passed) -> str:
    """What became of it."""
    if isinstance(passed.answer, Refusal):
        return str(passed.answer)
    answer = passed.answer
    if not answer.verdict.passes:
        return f"rejected, {answer.verdict.text}"
    if isinstance(passed.event, (Offer, Report)):
        trips = [level for level, tripped in (("root", answer.root_trip), ("firm", answer.firm_trip)) if tripped]
        done = "granted" if isinstance(passed.event, Offer) else "counted"
        cut = " (cut)" if answer.cuts(passed.event.contracts) else ""
        return f"{done} {answer.grant}{cut}" + (f", tripped: {' and '.join(trips)}" if trips else "")
    return "locked" if isinstance(passed.event, Lockout) else "passed"


def print_day(unit: Unit, day: list[Passed]) -> None:
    """The day, a line an event."""
    for passed in day:
        if passed.event is None:
            print(f"{passed.place:4} {'':12} {outcome(passed)}")
        else:
            print(f"{passed.place:4} {passed.event.time} {subject(unit, passed.event)}: {outcome(passed)}")


# %% How near each rule came to its limit


def left_now(unit: Unit) -> list[int]:
    """Of each rule, what is left of it where it has counted most: a rule of a whole root counts each unit for itself."""
    return [min(unit.remaining(unit.clock, rule.number, of) for of in rule.scope.units()) for rule in unit.rules()]


def least_left(profile: str, stretch: bytes) -> list[int]:
    """Of each rule, the least that was left after any event of the day."""
    unit = Unit().arm(profile)
    least = left_now(unit)
    for read in records16(stretch):
        if not isinstance(read, Refusal):
            try:
                unit.answer(read)
            except Refused:
                continue
            least = [min(before, now) for before, now in zip(least, left_now(unit))]
    return least


# %% What another limit would have granted


def granted(day: list[Passed]) -> int:
    """All contracts that a day granted at home; what was reported from away markets is no grant."""
    return sum(passed.answer.grant for passed in day if isinstance(passed.answer, Answer) and not isinstance(passed.event, Report))


def doubled(profile: str, rule: int) -> str:
    """The profile with one rule's limit doubled."""
    lines = profile.splitlines()
    fields = lines[rule].split(",")
    fields[3] = str(2 * int(fields[3]))
    lines[rule] = ",".join(fields)
    return "\n".join(lines)


# %% All of it


def main(words: list[str]) -> None:
    """Replays the day that the words name, or the sample."""
    sample = Path(__file__).parents[2] / "sample-data"
    profile_file, records_file = map(Path, words) if words else (sample / "profile", sample / "records.hex")
    profile, stretch = profile_file.read_text(), read_records(records_file)
    unit = Unit().arm(profile)
    print(unit)
    day = replay(unit, stretch)
    print_day(unit, day)
    print(f"granted {granted(day)} contracts in all")
    print("rule  least left  contracts granted if its limit were doubled")
    for rule, left in enumerate(least_left(profile, stretch)):
        other = granted(replay(Unit().arm(doubled(profile, rule)), stretch))
        print(f"{rule:4}  {left:10}  {other}  {profile.splitlines()[rule]}")


if __name__ == "__main__":
    main(sys.argv[1:])
