"""A risk unit for order gateways, over the proved library: it arms from a member's profile, takes the orders and offered fills of one firm during one trading
day, and cuts each fill to what the member's rules allow. This package is for desks that replay days; the names are those of the crate for Rust.

**Check the armed mark before you pass the first order.** A unit that is not armed refuses every order and offer.

>>> from mbrumzheg import Reset, Time, Unit
>>> unit = Unit().arm("ABCD,rate_count,XYZ,10,1000")
>>> unit
<Unit of firm ABCD, rules: 1, roots: 1, clock 00:00:00.000>
>>> print(unit.order(Time.parse("09:30"), unit.root_named("XYZ"), Reset.NONE))
free
"""

from . import raw
from .account import Account, Column, Figures
from .event import Answer, Closing, Event, Lockout, Offer, Order, Report, Sending
from .raw import ACCOUNT_SIZE, PROFILE_MOST, SIZE
from .record import RECORD16_SIZE, RECORD_SIZE, from_record, from_record16, narrow, records, records16, widen
from .refusal import Refusal, Refused
from .rule import Measure, Rule, Scope
from .unit import Status, Unit
from .values import Contracts, Identity, Level, ParseError, Premium, Reports, Reset, Root, Time, UnitOfRoot, Verdict
from .view import Marks

__version__ = "0.2.0"

__all__ = [
    "ACCOUNT_SIZE",
    "PROFILE_MOST",
    "RECORD16_SIZE",
    "RECORD_SIZE",
    "SIZE",
    "Account",
    "Answer",
    "Closing",
    "Column",
    "Contracts",
    "Event",
    "Figures",
    "Identity",
    "Level",
    "Lockout",
    "Marks",
    "Measure",
    "Offer",
    "Order",
    "ParseError",
    "Premium",
    "Refusal",
    "Refused",
    "Report",
    "Reports",
    "Reset",
    "Root",
    "Rule",
    "Scope",
    "Sending",
    "Status",
    "Time",
    "Unit",
    "UnitOfRoot",
    "Verdict",
    "from_record",
    "from_record16",
    "narrow",
    "raw",
    "records",
    "records16",
    "widen",
]
