"""The day's account: what is counted where, what is refused, and that it changes no answer."""

from __future__ import annotations

import unittest
from dataclasses import replace

from mbrumzheg import ACCOUNT_SIZE, SIZE, Account, Closing, Column, Contracts, Event, Figures, Identity, Level, Lockout, Offer, Order, Premium, Refusal
from mbrumzheg import Refused, Report, Reports, Reset, Root, Sending, Time, Unit, UnitOfRoot, Verdict, raw

PROFILE = "ABCD,abs_vol,XYZ,100\nABCD,abs_vol,Q,1000\nABCD,abs_vol,,150,,T"
MOST = 10**18
X, Q = Root(0), Root(1)
OFFER = Offer(Time(0), X, UnitOfRoot.CALLS_FRONT, Premium.parse("7.00"), Contracts(60))
SENDING = Sending(Time(6), Q, UnitOfRoot.CALLS_FRONT, Premium.parse("1.00"), Contracts(90), Identity(7), Reports(2))
# what each event is to the account stands beside it
DAY: list[Event] = [
    OFFER,  # a fill
    replace(OFFER, time=Time(1)),  # cut to 40, and the root trips
    replace(OFFER, time=Time(2)),  # locked out: nowhere
    Order(Time(3), X),  # rejected
    Order(Time(4), X, Reset.T),  # accepted
    replace(OFFER, time=Time(5), contracts=Contracts(1)),  # granted 0: a cut and no fill, a trip
    Order(Time(4), X),  # refused with 12: nowhere
    SENDING,  # accepted
    replace(SENDING, root=X, identity=Identity(8)),  # rejected, its root is locked
    Report(Time(7), Identity(7), Contracts(80)),  # of Q: 180 of the firm's 150, which trips
    Closing(Time(8), Identity(7)),  # nowhere
    Lockout(Time(9), Level(Q)),  # nowhere
]


class Accounts(unittest.TestCase):
    """The class Account, and the calls that keep it."""

    def refused(self, refusal: Refusal, unit: Unit, account: Account, event: Event) -> None:
        """The event is refused so, and changes nothing."""
        before = unit.memory(), account.memory()
        with self.assertRaises(Refused) as caught:
            unit.accounted_answer(account, event)
        self.assertEqual((caught.exception.refusal, before), (refusal, (unit.memory(), account.memory())))

    def test_an_evenings_table(self) -> None:
        unit, plain, account = Unit().arm(PROFILE), Unit().arm(PROFILE), Account()
        for event in DAY:
            try:
                self.assertEqual(unit.accounted_answer(account, event), plain.answer(event))
            except Refused as refused:
                self.assertEqual(refused.refusal, Refusal.BAD_TIME)
        self.assertEqual(unit.memory(), plain.memory())
        self.assertEqual(account.root(X), Figures(1, 2, 2, 100, 7_000_000, 2, 2, 0))
        self.assertEqual(account.root(Q), Figures(accepted=1, away_reports=1))
        self.assertEqual(account.firm(), Figures(2, 2, 2, 100, 7_000_000, 2, 1, 1))
        table = account.table()
        self.assertEqual((len(table), table[0], table[64], table[63]), (65, (X, account.root(X)), (None, account.firm()), (Root(63), Figures())))
        self.assertEqual([account.firm()[column] for column in Column], list(account.firm()))
        self.assertEqual(Account.adopt(account.memory()).table(), table)

    def test_each_call_keeps_it(self) -> None:
        unit, account = Unit().arm(PROFILE), Account()
        self.assertEqual(unit.accounted_order(account, Time(0), X), Verdict.FREE)
        self.assertEqual(unit.accounted_offer(account, OFFER).grant, 60)
        self.assertEqual(unit.accounted_send(account, SENDING), Verdict.FREE)
        self.assertEqual(unit.accounted_report(account, Report(Time(6), Identity(7), Contracts(1))).grant, 1)
        self.assertEqual(unit.accounted_close(account, Closing(Time(6), Identity(7))), Verdict.FREE)
        self.assertEqual(unit.accounted_lockout(account, Time(6), Level()), Verdict.FREE)
        self.assertEqual(unit.accounted_order(account, Time(6), X), Verdict.FIRM_LOCKED)
        self.assertEqual(account.firm(), Figures(2, 1, 1, 60, 4_200_000, 0, 0, 1))

    def test_a_figure_at_its_end_is_not_passed(self) -> None:
        tries: list[tuple[Column, Event, int]] = [(Column.ACCEPTED, Order(Time(1), X, Reset.BOTH), 1), (Column.FILLS, OFFER, 1)]
        for column, event, adds in [*tries, (Column.CONTRACTS, OFFER, 60)]:
            unit, account = Unit().arm(PROFILE), Account()
            account.numbers[column] = MOST - adds + 1
            self.refused(Refusal.ACCOUNT_FULL, unit, account, event)
            account.numbers[column] = MOST + 1
            self.refused(Refusal.UNSOUND, unit, account, event)
            account.numbers[column] = MOST - adds
            unit.accounted_answer(account, event)
            self.assertEqual(account.root(X)[column], MOST)

    def test_refusals_come_in_their_order(self) -> None:
        memory, account = raw.memory(), raw.memory(ACCOUNT_SIZE)
        self.assertEqual(raw.accounted_order(raw.memory(SIZE - 1), account, 0, 0, 0)[0], 1)
        self.assertEqual(raw.accounted_order(memory, raw.memory(ACCOUNT_SIZE - 1), 0, 0, 0)[0], 1)
        account[ACCOUNT_SIZE - 1] = MOST + 1
        self.assertEqual(raw.accounted_close(memory, account, 0, 0)[0], 4)
        raw.arm(memory, PROFILE.encode())
        late = 86_400_000

        def every() -> list[int]:
            rows = [raw.accounted_order(memory, account, late, 0, 0), raw.accounted_lockout(memory, account, late, 0, 0)]
            rows += [raw.accounted_offer(memory, account, late, 0, 0, 1, 1), raw.accounted_send(memory, account, late, 0, 0, 1, 1, 1, 1)]
            return [row[0] for row in [*rows, raw.accounted_report(memory, account, late, 0, 1), raw.accounted_close(memory, account, late, 0)]]

        self.assertEqual(every(), [2] * 6)
        account[ACCOUNT_SIZE - 1] = MOST
        self.assertEqual(every(), [12] * 6)
        self.assertRaises(OverflowError, raw.accounted_order, memory, account, -1, 0, 0)
        with self.assertRaises(Refused) as caught:
            Account.adopt(bytes(8 * ACCOUNT_SIZE - 1))
        self.assertEqual(caught.exception.refusal, Refusal.NO_ROOM)
