"""The bench table: twelve short runs whose answers are known."""

from __future__ import annotations

import unittest

from mbrumzheg import Contracts, Offer, Premium, Reset, Root, Time, Unit, UnitOfRoot, Verdict

ROOT = Root(0)


def offered(unit: Unit, ms: int, dollars: int, contracts: int, of: UnitOfRoot = UnitOfRoot.CALLS_FRONT) -> tuple[int, bool, bool]:
    """Grant, root trip and firm trip of an offer that passes."""
    answer = unit.offer(Offer(Time(ms), ROOT, of, Premium(dollars * 10_000), Contracts(contracts)))
    assert answer.verdict.passes
    return answer.grant, answer.root_trip, answer.firm_trip


class Bench(unittest.TestCase):
    """The lines B1 to B12."""

    def left(self, unit: Unit, ms: int, *rules: int) -> list[int]:
        return [unit.remaining(Time(ms), rule, UnitOfRoot.CALLS_FRONT) for rule in rules]

    def test_b1_notional_a_minute(self) -> None:
        unit = Unit().arm("ABCD,rate_ntnl,XYZ,1000,60000")
        self.assertEqual(offered(unit, 0, 7, 140), (140, False, False))
        self.assertEqual(offered(unit, 10, 7, 3), (2, True, False))
        self.assertEqual(self.left(unit, 10, 0), [60_000])

    def test_b2_three_rules_and_a_reset(self) -> None:
        unit = Unit().arm("ABCD,rate_vol,MSFT,500,1000\nABCD,rate_vol,MSFT,20000,60000\nABCD,abs_ntnl,MSFT,100000")
        for second in range(37):
            self.assertEqual(offered(unit, second * 1_000, 2 if second < 12 else 1, 500), (500, False, False))
        self.assertEqual(offered(unit, 37_000, 1, 100), (100, False, False))
        self.assertEqual(offered(unit, 38_000, 1, 400), (400, False, False))
        self.assertEqual(self.left(unit, 38_500, 0, 1, 2), [100, 1_000, 750_000_000])
        self.assertEqual(offered(unit, 38_500, 1, 200), (100, True, False))
        self.assertEqual(unit.order(Time(38_500), ROOT), Verdict.ROOT_LOCKED)
        self.assertEqual(unit.order(Time(38_500), ROOT, Reset.SYMBOL), Verdict.FREE)
        self.assertEqual(self.left(unit, 38_500, 0, 1, 2), [500, 20_000, 1_000_000_000])

    def test_b3_b4_a_limit_just_reached(self) -> None:
        for profile, trips in [("ABCD,abs_vol,XYZ,1000", True), ("ABCD,rate_vol,XYZ,1000,1000", False)]:
            unit = Unit().arm(profile)
            self.assertEqual(offered(unit, 0, 1, 950), (950, False, False))
            self.assertEqual(offered(unit, 1, 1, 50), (50, trips, False))

    def test_b5_b6_the_eleventh_fill_around_the_end_of_the_second(self) -> None:
        for ms, answer in [(999, (0, True, False)), (1_000, (5, False, False))]:
            unit = Unit().arm("ABCD,rate_count,XYZ,10,1000")
            for place in range(10):
                self.assertEqual(offered(unit, place, 1, 5), (5, False, False))
            self.assertEqual(offered(unit, ms, 1, 5), answer)

    def test_b7_the_tenth_fill_trips_an_absolute_count(self) -> None:
        unit = Unit().arm("ABCD,abs_count,XYZ,10")
        for place in range(9):
            self.assertEqual(offered(unit, place, 1, 5), (5, False, False))
        self.assertEqual(offered(unit, 9, 1, 5), (5, True, False))

    def test_b8_one_contract_too_dear(self) -> None:
        for kind in ["rate_ntnl", "abs_ntnl"]:
            unit = Unit().arm(f"ABCD,{kind},XYZ,1000,60000")
            self.assertEqual(offered(unit, 0, 7, 140), (140, False, False))
            self.assertEqual(offered(unit, 1, 21, 1), (0, True, False))

    def test_b9_b10_root_and_firm(self) -> None:
        for firm, firm_trip, verdict in [(10, True, Verdict.FIRM_LOCKED), (12, False, Verdict.ROOT_LOCKED)]:
            unit = Unit().arm(f"ABCD,rate_vol,XYZ,10,1000\nABCD,rate_vol,,{firm},1000,T")
            self.assertEqual(offered(unit, 0, 1, 5), (5, False, False))
            self.assertEqual(offered(unit, 1, 1, 8), (5, True, firm_trip))
            self.assertEqual(unit.order(Time(1), ROOT), verdict)

    def test_b11_the_shortest_window(self) -> None:
        for typed, window in [("", 100), ("0", 100), ("99", 100), ("101", 101)]:
            unit = Unit().arm(f"ABCD,rate_vol,XYZ,10,{typed}")
            self.assertEqual(offered(unit, 0, 1, 4), (4, False, False))
            self.assertEqual(self.left(unit, window - 1, 0) + self.left(unit, window, 0), [6, 10])

    def test_b12_each_unit_counts_for_itself(self) -> None:
        unit = Unit().arm("ABCD,abs_vol,XYZ,100")
        self.assertEqual(offered(unit, 0, 1, 60), (60, False, False))
        self.assertEqual(offered(unit, 1, 1, 60, UnitOfRoot.PUTS_TRAILING), (60, False, False))
