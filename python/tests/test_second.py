"""The package against the independent second program: days of calls from seeds, and files of records.

SECOND names the folder of the programs `second`, `second-evening` and `second-fuzz`.
"""

from __future__ import annotations

import os
import subprocess
import tempfile
import unittest
from collections import Counter
from pathlib import Path
from typing import Callable, Optional, Tuple

from mbrumzheg import Account, Closing, Event, Level, Lockout, Marks, Measure, Offer, Order, Refusal, Refused, Report, Rule, Sending, Unit, raw, records16
from mbrumzheg import Contracts, Identity, Premium, Reports, Reset, Root, Time, UnitOfRoot

SECOND = Path(os.environ.get("SECOND", Path(__file__).parents[2] / "target/cargo/release"))
# first seed, days, and calls a day: many short days, some long ones, and one that fills the log faster than its resets empty it
DAYS = [(1, 400, 300), (1_001, 19, 3_000), (1_045, 1, 10_000)]
FILES, RECORDS = 40, 1_000


def fuzz(*words: object) -> bytes:
    """What the second program's generator writes."""
    return subprocess.run([SECOND / "second-fuzz", *map(str, words)], check=True, stdout=subprocess.PIPE).stdout


def event(word: str, numbers: list[int]) -> Optional[Event]:
    """The event that a call's numbers make; none where one of them is no value, so that only the raw call can take them."""
    try:
        if word == "order":
            return Order(Time(numbers[0]), Root(numbers[1]), Reset(numbers[2]))
        if word == "lockout":
            time, level, root = numbers
            return Lockout(Time(time), Level(Root(root)) if level == 0 else Level()) if level == 0 or (level, root) == (1, 0) else None
        if word == "offer":
            time, root, unit, premium, contracts = numbers
            return Offer(Time(time), Root(root), UnitOfRoot(unit), Premium(premium), Contracts(contracts))
        if word == "send":
            time, root, unit, premium, contracts, identity, reports = numbers
            order = (Time(time), Root(root), UnitOfRoot(unit), Premium(premium), Contracts(contracts))
            return Sending(*order, Identity(identity), Reports(reports))
        if word == "report":
            return Report(Time(numbers[0]), Identity(numbers[1]), Contracts(numbers[2]))
        if word == "close":
            return Closing(Time(numbers[0]), Identity(numbers[1]))
    except (Refused, ValueError):
        pass
    return None


def row_of(unit: Unit, happened: Event) -> list[int]:
    """An event's answer as the row that the library gave."""
    try:
        answer = unit.answer(happened)
    except Refused as refused:
        return [refused.refusal, 0, 0, 0, 0]
    return [0, answer.verdict, answer.grant, answer.root_trip, answer.firm_trip]


class Pair:
    """One day on the raw calls and on the class beside them."""

    def __init__(self, test: unittest.TestCase, seen: Counter[str]) -> None:
        self.test, self.seen = test, seen
        self.memory, self.unit = raw.memory(), Unit()

    def call(self, line: str) -> None:
        """Runs the call of a line and compares the row, then the same by the class where it has that call for these numbers."""
        said, _, wanted = line.partition(" = ")
        word, *rest = said.split()
        expected = list(map(int, wanted.split()))
        row = self.run_raw(word, rest)
        self.test.assertEqual(list(row[: len(expected)]), expected, line)
        self.test.assertFalse(any(row[len(expected) :]), line)
        self.seen[f"{word} {row[0]}"] += 1
        self.run_typed(word, rest, row)
        self.test.assertEqual(bytes(self.memory), self.unit.memory(), line)

    def run_raw(self, word: str, rest: list[str]) -> raw.Row:
        if word == "arm":
            return raw.arm(self.memory, profile(rest[0]))
        numbers = list(map(int, rest))
        if word == "text":
            return raw.text(numbers[0], raw.room(numbers[1]))
        if word == "profile":
            return raw.profile(self.memory, raw.room(numbers[0]))
        call: Callable[..., raw.Row] = getattr(raw, word)
        return call(self.memory, *numbers)

    def run_typed(self, word: str, rest: list[str], row: raw.Row) -> None:
        """The same call by the class; one that it has no values for was refused, and changed nothing."""
        if word == "arm":
            self.same(lambda: self.armed(profile(rest[0])), row)
        elif word == "clear":
            self.unit.clear()
        elif word == "status":
            self.same(self.status, row)
        elif word == "profile":
            # the class has room enough, so it answers where the call alone was short of room
            self.same(lambda: [0, len(self.unit.profile()), 0, 0, 0], (0, *row[1:]) if row[0] == Refusal.NO_ROOM else row)
        elif word == "remaining":
            time, rule, unit = map(int, rest)
            if time <= Time.MOST and unit in list(UnitOfRoot):
                self.same(lambda: [0, self.unit.remaining(Time(time), rule, UnitOfRoot(unit)), 0, 0, 0], row)
            else:
                self.test.assertNotEqual(row[0], 0)
        elif word in ("order", "lockout", "offer", "send", "report", "close"):
            happened = event(word, list(map(int, rest)))
            if happened is None:
                self.test.assertNotEqual(row[0], 0)
            else:
                self.seen["typed"] += 1
                self.test.assertEqual(row_of(self.unit, happened), list(row), happened)

    def armed(self, text: bytes) -> list[int]:
        """Arms the unit, whose rules are then those of the lines; gives the row."""
        self.unit.arm(text)
        names = [name for _, name in self.unit.roots()]
        lines = text.decode("latin-1").rstrip("\n").split("\n")
        self.test.assertEqual([fields(rule, names) for rule in self.unit.rules()], list(map(written, lines)))
        self.test.assertEqual([self.unit.root_named(name) for name in names], list(range(len(names))))
        again = Unit().arm(self.unit.profile())
        self.test.assertEqual((again.memory(), again.profile()), (self.unit.memory(), self.unit.profile()))
        return [0, 0, int.from_bytes(self.unit.firm.encode(), "big"), self.unit.rule_count, self.unit.root_count]

    def status(self) -> list[int]:
        status = self.unit.status()
        lowest = 64 if status.lowest_locked is None else status.lowest_locked
        return [0, status.tripped, status.locked_by_user, status.locked, lowest]

    def same(self, call: Callable[[], list[int]], row: raw.Row) -> None:
        """The class answers the row, or raises its refusal with its line."""
        try:
            self.test.assertEqual(call(), list(row))
        except Refused as refused:
            self.test.assertEqual([refused.refusal, refused.line or 0, 0, 0, 0], list(row))

    def stands(self, line: str) -> None:
        """Clock, names and marks are the second program's."""
        words = line.split()[1:]
        self.test.assertEqual(self.unit.armed, bool(words))
        if not words:
            self.test.assertRaises(Refused, lambda: self.unit.clock)
            return
        marks = [(words[n], Marks(words[n + 1] == "1", words[n + 2] == "1")) for n in range(2, len(words), 3)]
        self.test.assertEqual([self.unit.clock, self.unit.rule_count], [int(words[0]), int(words[1])])
        own = [(name, self.unit.root_marks(root)) for root, name in self.unit.roots()]
        self.test.assertEqual([(self.unit.firm, self.unit.firm_marks), *own], marks)
        self.seen["stands armed"] += 1


Fields = Tuple[str, str, int, Optional[int], str, str]


def fields(rule: Rule, names: list[str]) -> Fields:
    """A rule's type, root, limit, window, call/put and month."""
    root = "" if rule.scope.root is None else names[rule.scope.root]
    call_put, month = ("", "") if rule.scope.unit is None else ("CCPP"[rule.scope.unit], "FTFT"[rule.scope.unit])
    limit = rule.limit // 10_000 if rule.measure is Measure.NOTIONAL else rule.limit
    return rule.type_name, root, limit, rule.window, call_put, month


def written(line: str) -> Fields:
    """The same of a line of an accepted profile."""
    _, kind, root, limit, window, _, call_put, month = (line.split(",") + [""] * 8)[:8]
    return kind, root, int(limit), max(int(window or 0), 100) if kind.startswith("rate_") else None, call_put, month


def profile(word: str) -> bytes:
    """A profile's text from its digits to base 16."""
    return b"" if word == "-" else bytes.fromhex(word)


class Second(unittest.TestCase):
    """Days of calls and files of records."""

    def test_days_of_calls_are_answered_alike(self) -> None:
        seen: Counter[str] = Counter()
        pair = Pair(self, seen)
        for line in b"".join(fuzz("days", *days) for days in DAYS).decode().splitlines():
            word = line.split()[0]
            seen[word] += 1
            if word == "day":
                pair = Pair(self, seen)
            elif word == "stands":
                pair.stands(line)
            else:
                pair.call(line)
        wanted = ["arm 0", "arm 3", "clear 0", "remaining 0", "remaining 12", "remaining 13", "status 0", "status 4", "text 0", "text 1", "profile 0", "profile 1", "profile 4"]
        wanted += [f"offer {refusal}" for refusal in (0, 4, 12, 13, 14, 15)] + ["lockout 0", "order 0", "typed", "stands armed"]
        wanted += [f"send {refusal}" for refusal in (0, 12, 13, 14, 15, 17, 18)] + [f"report {refusal}" for refusal in (0, 12, 13, 14, 18, 19)]
        wanted += [f"close {refusal}" for refusal in (0, 12, 13, 18)]
        self.assertEqual((seen["day"], [word for word in wanted if not seen[word]]), (sum(days for _, days, _ in DAYS), []), seen)

    def test_records_are_read_and_answered_as_the_program_does(self) -> None:
        armed = 0
        for seed in range(FILES):
            text, stretch = fuzz("profile", seed), fuzz("records", seed, RECORDS)
            with tempfile.TemporaryDirectory() as folder:
                Path(folder, "profile").write_bytes(text)
                done = subprocess.run([SECOND / "second"], cwd=folder, input=stretch, check=True, stdout=subprocess.PIPE)
            lines = self.lines(text, stretch)
            self.assertEqual(lines, done.stdout.decode().splitlines(), f"seed {seed}")
            armed += len(lines) > 1
        self.assertGreater(armed, FILES // 4)

    def test_the_evenings_table_is_the_second_programs(self) -> None:
        armed = 0
        for seed in range(FILES):
            text, stretch = fuzz("profile", seed), fuzz("records", seed, RECORDS)
            with tempfile.TemporaryDirectory() as folder:
                Path(folder, "profile").write_bytes(text)
                done = subprocess.run([SECOND / "second-evening"], cwd=folder, input=stretch, check=True, stdout=subprocess.PIPE)
            lines = self.evening(text, stretch)
            self.assertEqual(lines, done.stdout.decode().splitlines(), f"seed {seed}")
            armed += not lines[0].startswith("refused")
        self.assertGreater(armed, FILES // 4)

    def evening(self, text: bytes, stretch: bytes) -> list[str]:
        """The table of a day, by this package: a line a root, then the firm's."""
        try:
            unit = Unit().arm(text)
        except Refused as refused:
            return [f"refused {int(refused.refusal)} {refused.line or 0}"]
        account = Account()
        for read in records16(stretch):
            if not isinstance(read, Refusal):
                try:
                    unit.accounted_answer(account, read)
                except Refused:
                    pass
        rows = [(name, account.root(root)) for root, name in unit.roots()]
        return [" ".join([name, *map(str, figures)]) for name, figures in [*rows, (unit.firm, account.firm())]]

    def lines(self, text: bytes, stretch: bytes) -> list[str]:
        """The program's lines, by this package."""
        try:
            unit = Unit().arm(text)
        except Refused as refused:
            return [f"refused {int(refused.refusal)} {refused.line or 0}"]
        lines = [f"armed {unit.firm} {unit.rule_count} {unit.root_count}"]
        for place, read in enumerate(records16(stretch), 1):
            row = [read, 0, 0, 0, 0] if isinstance(read, Refusal) else row_of(unit, read)
            lines.append(" ".join(map(str, map(int, [place, *row]))))
        return lines
