"""The lines of c/example.c, from Python: its first offers and its order."""

from mbrumzheg import Contracts, Offer, Premium, Reset, Time, Unit, UnitOfRoot

unit = Unit().arm("ABCD,abs_vol,XYZ,1000,0")
root = unit.root_named("XYZ")
print("armed", unit.firm, unit.rule_count, unit.root_count)
for place, ms, contracts in [(1, 0, 950), (2, 10, 200)]:
    answer = unit.offer(Offer(Time(ms), root, UnitOfRoot.CALLS_FRONT, Premium(70_000), Contracts(contracts)))
    print(place, 0, int(answer.verdict), answer.grant, int(answer.root_trip), int(answer.firm_trip))
verdict = unit.order(Time(20), root, Reset.NONE)
print(3, 0, int(verdict), 0, 0, 0)
print(verdict.text)
