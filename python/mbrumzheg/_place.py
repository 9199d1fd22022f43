"""Where the numbers of a state stand, by the map in docs/MEMORY.md: part after part, a table with its count in front."""

# how many places the tables of roots and of rules, the register and the log have, a rule, an order and an entry with two numbers each, and the accounts with
# one: four a rule where every rule is one of a whole root
_MOST_ROOTS, _MOST_RULES, _REGISTER_PLACES, _LOG_PLACES = 64, 256, 64, 512
_MOST_ACCOUNTS = 4 * _MOST_RULES

MARK = 0
CLOCK = MARK + 1
FIRM = CLOCK + 1
ROOT_COUNT = FIRM + 1
ROOTS = ROOT_COUNT + 1
RULE_COUNT = ROOTS + _MOST_ROOTS
RULES = RULE_COUNT + 1
TOTALS = RULES + 2 * _MOST_RULES
FIRM_TRIPPED = TOTALS + _MOST_ACCOUNTS
FIRM_LOCKED = FIRM_TRIPPED + 1
ROOTS_TRIPPED = FIRM_LOCKED + 1
ROOTS_LOCKED = ROOTS_TRIPPED + 1
ORDER_COUNT = ROOTS_LOCKED + 1
REGISTER = ORDER_COUNT + 1
ENTRY_COUNT = REGISTER + 2 * _REGISTER_PLACES
LOG = ENTRY_COUNT + 1
SIZE = LOG + 2 * _LOG_PLACES
