"""Units: refusals and what they leave, saved memory, marks, and the names that the header for C has."""

from __future__ import annotations

import re
import unittest
from dataclasses import replace
from pathlib import Path

from mbrumzheg import Answer, Column, Contracts, Level, Marks, Offer, Order, Premium, Refusal, Refused, Reset, Root, Status, Time, Unit, UnitOfRoot
from mbrumzheg import Verdict, ACCOUNT_SIZE, PROFILE_MOST, RECORD16_SIZE, RECORD_SIZE, SIZE, __version__, raw

EXAMPLE = "ABCD,abs_vol,XYZ,1000,0"
REPOSITORY = Path(__file__).parents[2]


def offer(ms: int, contracts: int, root: int = 0) -> Offer:
    return Offer(Time(ms), Root(root), UnitOfRoot.CALLS_FRONT, Premium.parse("7.00"), Contracts(contracts))


def left(unit: Unit) -> list[list[int]]:
    """What is left of each rule on each of its units."""
    return [[unit.remaining(unit.clock, rule.number, of) for of in rule.scope.units()] for rule in unit.rules()]


class Units(unittest.TestCase):
    """The class Unit."""

    def refused(self, refusal: int, call: object, *words: object) -> Refused:
        assert callable(call)
        with self.assertRaises(Refused) as caught:
            call(*words)
        self.assertEqual(caught.exception.refusal, refusal)
        return caught.exception

    def test_the_example(self) -> None:
        unit = Unit().arm(EXAMPLE)
        self.assertEqual([unit.offer(offer(0, 950)).grant, unit.offer(offer(10, 200)).grant], [950, 50])
        self.assertEqual(unit.order(Time(20), Root(0)), Verdict.ROOT_LOCKED)
        self.assertEqual((Verdict.ROOT_LOCKED.text, Verdict.FIRM_LOCKED.text), ("s: RiskMgmtSymLevel", "f: RiskMgmtFirmLevel"))
        self.assertIsNone(Verdict.FREE.text)
        unit.clear()
        self.refused(Refusal.NOT_ARMED, unit.offer, offer(30, 1))
        self.assertEqual(repr(unit), "<Unit, not armed>")

    def test_a_unit_that_is_not_armed_passes_nothing(self) -> None:
        unit = Unit()
        for call in (lambda: unit.order(Time(0), Root(0)), lambda: unit.offer(offer(0, 1)), lambda: unit.lockout(Time(0), Level()), unit.status):
            self.refused(Refusal.NOT_ARMED, call)
        self.refused(Refusal.NOT_ARMED, unit.remaining, Time(0), 0, UnitOfRoot(0))
        for view in ("clock", "firm", "rule_count", "root_count", "firm_marks"):
            self.refused(Refusal.NOT_ARMED, getattr, unit, view)
        self.refused(Refusal.NOT_ARMED, unit.root_marks, Root(0))

    def test_a_refused_profile_names_its_line_and_leaves_the_unit(self) -> None:
        unit = Unit()
        for profile, refusal, line in [("", 5, None), (f"{EXAMPLE}\n\n", 6, 2), (f"{EXAMPLE}\nABCE,abs_vol,XYZ,1", 7, 2), ("ABCD,abs_vol,XYZ,0", 8, 1)]:
            refused = self.refused(refusal, unit.arm, profile)
            self.assertEqual(refused.line, line)
            self.assertEqual(unit.memory(), bytes(8 * SIZE))
        self.assertEqual(str(refused), "refused with 8 at line 1: the line's limit or time limit is out of range")
        self.refused(Refusal.ARMED_ALREADY, unit.arm(EXAMPLE).arm, EXAMPLE)

    def test_refusals_change_nothing_and_a_reset_gives_room_back(self) -> None:
        unit = Unit().arm("ABCD,rate_vol,XYZ,1000000,60000")
        for ms in range(512):
            self.assertEqual(unit.offer(offer(ms, 1)).grant, 1)
        before = unit.memory()
        self.refused(Refusal.LOG_FULL, unit.offer, offer(1_000, 1))
        self.refused(Refusal.BAD_TIME, unit.order, Time(510), Root(0), Reset.BOTH)
        self.refused(Refusal.UNKNOWN, unit.offer, offer(1_000, 1, root=1))
        self.refused(Refusal.UNKNOWN, unit.remaining, Time(1_000), 1, UnitOfRoot(0))
        self.assertEqual(unit.memory(), before)
        self.assertEqual(unit.order(Time(1_000), Root(0), Reset.SYMBOL), Verdict.FREE)
        self.refused(Refusal.LOG_FULL, unit.offer, offer(1_000, 1))
        self.assertEqual(unit.order(Time(1_000), Root(0), Reset.BOTH), Verdict.FREE)
        self.assertEqual(unit.offer(offer(1_000, 1)).grant, 1)

    def test_saved_memory_is_tested_before_it_is_taken(self) -> None:
        unit = Unit().arm(EXAMPLE)
        unit.offer(offer(5, 10))
        again = Unit.adopt(unit.memory())
        self.assertEqual((again.armed, again.clock, again.remaining(Time(5), 0, UnitOfRoot(0))), (True, 5, 990))
        other = unit.copy()
        other.offer(offer(6, 990))
        self.assertEqual((other.root_marks(Root(0)).tripped, unit.root_marks(Root(0)).tripped), (True, False))
        self.refused(Refusal.NO_ROOM, Unit.adopt, unit.memory()[:-1])
        damaged = bytearray(unit.memory())
        damaged[-1] = 7
        self.refused(Refusal.UNSOUND, Unit.adopt, bytes(damaged))
        self.assertFalse(Unit.adopt(bytes(8 * SIZE)).armed)
        self.assertEqual(raw.status(raw.memory(0)), (1, 0, 0, 0, 0))

    def test_each_unit_counts_for_itself(self) -> None:
        unit = Unit().arm("ABCD,abs_vol,XYZ,100\nABCD,rate_vol,XYZ,90,60000,,P,T\nABCD,abs_vol,,500,,T")
        for of, contracts in zip(UnitOfRoot, (10, 20, 30, 40)):
            answer = unit.offer(replace(offer(0, contracts), unit=of))
            self.assertEqual((answer.grant, answer.root_trip), (contracts, False))
        self.assertEqual(left(unit), [[90, 80, 70, 60], [50], [400]])
        for rule, of in [(1, UnitOfRoot.CALLS_FRONT), (2, UnitOfRoot.PUTS_FRONT), (3, UnitOfRoot.CALLS_FRONT)]:
            self.refused(Refusal.UNKNOWN, unit.remaining, Time(0), rule, of)
        self.assertEqual(raw.remaining(unit._memory, 0, 0, 4), (13, 0, 0, 0, 0))
        self.assertTrue(unit.offer(replace(offer(0, 80), unit=UnitOfRoot.CALLS_TRAILING)).root_trip)
        self.assertEqual([unit.offer(replace(offer(0, 1), unit=of)).verdict for of in UnitOfRoot], [Verdict.ROOT_LOCKED] * 4)
        self.assertEqual(unit.order(Time(0), Root(0), Reset.SYMBOL), Verdict.FREE)
        self.assertEqual(left(unit), [[100] * 4, [90], [320]])

    def test_locks_are_lifted_without_forgetting(self) -> None:
        locked, none = Marks(True, True), Marks()
        for reset, of_root, of_firm, remains in [
            (Reset.SYMBOL, none, locked, [[10], [0]]),
            (Reset.FIRM, locked, none, [[0], [10]]),
            (Reset.BOTH, none, none, [[10], [10]]),
            (Reset.T, none, locked, [[0], [0]]),
            (Reset.E, locked, none, [[0], [0]]),
            (Reset.TE, none, none, [[0], [0]]),
        ]:
            unit = Unit().arm("ABCD,abs_vol,XYZ,10,,,C,F\nABCD,abs_vol,,10,,T")
            self.assertTrue(unit.offer(offer(0, 10)).firm_trip)
            unit.lockout(Time(1), Level(Root(0)))
            unit.lockout(Time(1), Level())
            verdict = Verdict.FIRM_LOCKED if of_firm.locked else Verdict.ROOT_LOCKED if of_root.locked else Verdict.FREE
            self.assertEqual(unit.order(Time(2), Root(0), reset), verdict, str(reset))
            self.assertEqual((unit.root_marks(Root(0)), unit.firm_marks, left(unit)), (of_root, of_firm, remains), str(reset))
        self.assertEqual((unit.offer(offer(3, 1)), raw.order(unit._memory, 3, 0, 7)[0]), (Answer(Verdict.FREE, 0, True, True), 13))

    def test_status_and_marks_agree(self) -> None:
        unit = Unit().arm("ABCD,abs_vol,XYZ,1000\nABCD,abs_vol,QQQ,1000\nABCD,abs_vol,SPY,1")
        self.assertEqual(unit.roots(), [(0, "XYZ"), (1, "QQQ"), (2, "SPY")])
        self.assertEqual((unit.root_named("SPY"), unit.root_named("IBM"), unit.root_named(""), unit.root_named("é")), (2, None, None, None))
        self.assertEqual((unit.root_name(Root(1)), unit.rule(2).type_name, unit.rule(2).limit), ("QQQ", "abs_vol", 1))
        self.refused(Refusal.UNKNOWN, unit.root_name, Root(3))
        self.refused(Refusal.UNKNOWN, unit.rule, 3)
        self.refused(Refusal.NOT_ARMED, Unit().root_named, "SPY")
        self.refused(Refusal.NOT_ARMED, Unit().rule, 0)
        self.assertEqual(unit.status(), Status(0, 0, 0, None))
        self.assertTrue(unit.offer(offer(5, 1_001)).cuts(Contracts(1_001)))
        unit.lockout(Time(6), Level(Root(0)))
        unit.lockout(Time(7), Level(Root(2)))
        self.assertEqual(unit.status(), Status(1, 2, 2, Root(0)))
        self.assertEqual([unit.root_marks(Root(n)) for n in range(3)], [Marks(True, True), Marks(), Marks(False, True)])
        unit.lockout(Time(8), Level())
        self.assertEqual((unit.firm_marks, unit.order(Time(9), Root(1))), (Marks(False, True), Verdict.FIRM_LOCKED))
        self.assertEqual(repr(unit), "<Unit of firm ABCD, rules: 3, roots: 3, clock 00:00:00.009>")

    def test_the_rules_are_written_back(self) -> None:
        given = "AB,rate_ntnl,Q,100000000000,,<any>\nAB,abs_count,XYZ123,0007,any,,P,F\nAB,rate_count,,2,00101,T,,\nAB,abs_ntnl,,1,,T"
        written = "AB,rate_ntnl,Q,100000000000,100\nAB,abs_count,XYZ123,7,,,P,F\nAB,rate_count,,2,101,T\nAB,abs_ntnl,,1,,T\n"
        unit = Unit().arm(given)
        self.assertEqual(unit.profile(), written)
        again = Unit().arm(written)
        self.assertEqual((again.memory(), again.profile()), (unit.memory(), written))
        unit.offer(offer(5, 1))
        before = unit.memory()
        self.assertEqual((unit.profile(), unit.memory()), (written, before))
        self.refused(Refusal.NOT_ARMED, Unit().profile)

    def test_room_for_a_profile_is_asked_for_by_its_size(self) -> None:
        lent, room = raw.memory(), raw.room(22)
        self.assertEqual(raw.profile(lent, raw.room(0)), (4, 0, 0, 0, 0))
        raw.arm(lent, EXAMPLE.encode())
        self.assertEqual(raw.profile(raw.memory(SIZE - 1), room), (1, 0, 0, 0, 0))
        self.assertEqual((raw.profile(lent, raw.room(21)), raw.profile(lent, raw.room(0))), ((1, 22, 0, 0, 0), (1, 22, 0, 0, 0)))
        self.assertEqual((raw.profile(lent, room), bytes(room)), ((0, 22, 0, 0, 0), b"ABCD,abs_vol,XYZ,1000\n"))
        longest = "".join(f"ABCD,rate_ntnl,LONG{n // 6:02},100000000000,86400000,,C,T\n" for n in range(256))
        self.assertEqual((Unit().arm(longest).profile(), len(longest)), (longest, PROFILE_MOST))
        lent[SIZE - 1] = 7
        self.assertEqual(raw.profile(lent, raw.room(0)), (2, 0, 0, 0, 0))

    def test_python_and_c_have_the_same_names_and_words(self) -> None:
        header, numbers, words = ((REPOSITORY / f"include/mbrumzheg{part}.h").read_text() for part in ("", "_numbers", "_words"))
        named = {name: int(number) for name, number in re.findall(r"MBRUMZHEG_(\w+) = (\d+)", numbers)}
        for refusal in Refusal:
            self.assertEqual(named[refusal.name], refusal)
            self.assertIn(f'case MBRUMZHEG_{refusal.name}: return "{refusal.sentence}";', words)
        self.assertEqual([named[case.name] for case in [*UnitOfRoot, *Verdict]], [*UnitOfRoot, *Verdict])
        self.assertEqual([named[f"RESET_{case.name}"] for case in Reset], list(Reset))
        self.assertEqual([named[f"COLUMN_{column.name}"] for column in Column], list(Column))
        for column in Column:
            self.assertIn(f'case MBRUMZHEG_COLUMN_{column.name}: return "{column.text}";', words)
        self.assertIn(f"#define MBRUMZHEG_SIZE {SIZE}\n", header)
        self.assertIn(f"#define MBRUMZHEG_ACCOUNT_SIZE {ACCOUNT_SIZE}\n", header)
        self.assertIn(f"#define MBRUMZHEG_PROFILE_MOST {PROFILE_MOST}\n", header)
        self.assertIn(f"#define MBRUMZHEG_RECORD16_BYTES {RECORD16_SIZE}\n", header)
        self.assertIn(f"#define MBRUMZHEG_RECORD_BYTES {RECORD_SIZE}\n", header)
        self.assertIn(f"#define MBRUMZHEG_LAST_STAMP {Time(Time.MOST, 999).us}\n", header)
        self.assertIn(f'#define MBRUMZHEG_VERSION "{__version__}"\n', header)
