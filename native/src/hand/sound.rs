//! The test of a sound state: one pass over its numbers, with few branches.

use super::map::*;
use super::register::reports_of_orders;

/// The longest window of a profile, 0 if no rule is a rate rule.
pub type Longest = u64;

/// What a sound state's test finds on its way.
pub struct Sound {
    pub longest: Longest,
    /// The reports that orders sent away may still have: so many places of the log are kept if there is a rate rule.
    reports: u64,
}

impl Sound {
    /// Do entries inside the longest window at a time, kept places and so many more pass those of the log? Never without a rate rule.
    pub fn lacks_places(&self, m: &State, time: u64, places: u64) -> bool {
        let (entries, asked) = (m[ENTRY_COUNT], self.reports + places);
        if self.longest == 0 || entries + asked <= PLACES {
            return false;
        }
        let gone = first_inside(&m[LOG..][..2 * entries as usize], self.longest, time) as u64;
        entries - gone + asked > PLACES
    }
}

/// What the test finds, if the state is sound.
pub fn sound(m: &State) -> Option<Sound> {
    if !are_singles(m) {
        return None;
    }
    let entries = m[ENTRY_COUNT] as usize;
    let longest = longest_of_rules(m)?;
    let reports = reports_of_orders(m)?;
    let is_sound = are_roots(&m[ROOTS..RULE_COUNT], m[ROOT_COUNT] as usize)
        && (entries == 0 || longest > 0)
        && is_log(&m[LOG..], entries, m[ROOT_COUNT], m[CLOCK]);
    let sound = Sound { longest, reports };
    (is_sound && !sound.lacks_places(m, m[CLOCK], 0)).then_some(sound)
}

/// Are mark, clock, firm, counts and locks sound?
fn are_singles(m: &State) -> bool {
    let beyond = |word: u64| word.checked_shr(m[ROOT_COUNT] as u32).unwrap_or(0);
    m[MARK] == 1
        && m[CLOCK] <= LAST_TIME
        && is_name(m[FIRM], 4)
        && m[ROOT_COUNT] <= MOST_ROOTS as u64
        && m[RULE_COUNT].wrapping_sub(1) < MOST_RULES as u64
        && m[REGISTER] <= MOST_ORDERS as u64
        && m[ENTRY_COUNT] <= PLACES
        && m[FIRM_TRIPPED] | m[FIRM_LOCKED] <= 1
        && beyond(m[ROOTS_TRIPPED] | m[ROOTS_LOCKED]) == 0
}

/// Is every number 0? Sixteen of them at a time.
pub fn is_zero(numbers: &[u64]) -> bool {
    let (chunks, rest) = numbers.as_chunks::<16>();
    let mut any = [0; 16];
    for chunk in chunks {
        any.iter_mut().zip(chunk).for_each(|(any, number)| *any |= number);
    }
    any.iter().chain(rest).fold(0, |any, number| any | number) == 0
}

/// The same byte eight times.
const fn eight(byte: u8) -> u64 {
    u64::from_ne_bytes([byte; 8])
}

/// Does the number hold 1 to so many capitals or digits, and 0 above them?
fn is_name(number: u64, most: u32) -> bool {
    let length = (71 - number.leading_zeros()) / 8;
    if length == 0 || length > most {
        return false;
    }
    // the bytes above the name count as digits
    let bytes = number | eight(b'0') << (8 * length);
    let from = |byte: u8| bytes.wrapping_add(eight(0x80 - byte));
    let digit = from(b'0') & !from(b'9' + 1);
    let capital = from(b'A') & !from(b'Z' + 1);
    (digit | capital) & !bytes & eight(0x80) == eight(0x80)
}

/// Do the first places hold names of roots, no two the same, and the others 0?
#[inline(never)]
fn are_roots(names: &[u64], count: usize) -> bool {
    let (used, unused) = names.split_at(count);
    used.iter().fold(true, |good, name| good & is_name(*name, 6)) && is_zero(unused) && are_distinct::<256>(used)
}

/// Is no number there twice? A table by a few of its product's bits holds the place of each, from 1.
pub fn are_distinct<const SLOTS: usize>(numbers: &[u64]) -> bool {
    if let [] | [_] = numbers {
        return true;
    }
    let mut places = [0u8; SLOTS];
    numbers.iter().zip(1..).all(|(number, place)| {
        let mut slot = (number.wrapping_mul(0x9E37_79B9_7F4A_7C15) >> (64 - SLOTS.ilog2())) as usize;
        loop {
            match places[slot % SLOTS] {
                0 => break,
                other if numbers[usize::from(other) - 1] == *number => return false,
                _ => slot += 1,
            }
        }
        places[slot % SLOTS] = place;
        true
    })
}

/// The largest limit in dollars, and in contracts or fills.
const MOST_DOLLARS: u64 = 100_000_000_000;
const MOST_OTHERS: u64 = 1_000_000_000;
/// The shortest window of a rate rule.
const LEAST_WINDOW: u64 = 100;

/// The scope of one unit of a root.
const ONE: u64 = 2 << 8;
/// The root and the unit of a rule's second number.
const ROOT: u64 = 63 << 2;
const UNIT: u64 = 3;

/// How many rules a root's four units have, a byte each, begins here: the seventh of a unit sets its byte's top bit.
const NO_RULES: u32 = 0x7979_7979;
/// The top bits of the four bytes.
const SEVENTH: u32 = 0x8080_8080;
/// One more rule of each unit.
const EACH_UNIT: u32 = 0x0101_0101;

/// Are measure, limit and window of a rule in their ranges?
fn are_terms(rule: &Rule) -> bool {
    let most = if rule.measure() == 0 { MOST_DOLLARS } else { MOST_OTHERS };
    let (least, above) = if rule.is_absolute() { (0, 0) } else { (LEAST_WINDOW, MOST_WINDOW - LEAST_WINDOW) };
    rule.measure() <= 2 && (rule.first >> 27).wrapping_sub(1) < most && rule.window().wrapping_sub(least) <= above
}

/// What the rules so far come to.
struct Tally {
    seen: u64,
    firms: u64,
    longest: Longest,
    /// A total out of its range leaves the top bit 1 in a difference, and all differences are or-ed together.
    bad: u64,
    /// All counts that roots' units have had, or-ed together.
    counts: u32,
    /// The root last added to, which most often is the next rule's too, and the counts of its units.
    root: u64,
    own: u32,
    /// The counts of the other roots' units, and a place for those of no root.
    units: [u32; MOST_ROOTS + 1],
}

impl Tally {
    /// Before the first rule no root has been added to.
    fn new() -> Tally {
        let (root, units) = (MOST_ROOTS as u64, [NO_RULES; MOST_ROOTS + 1]);
        Tally { seen: 0, firms: 0, longest: 0, bad: 0, counts: 0, root, own: NO_RULES, units }
    }

    /// Goes on to a root, unless it is neither one that has appeared nor the next.
    fn go_on(&mut self, root: u64) -> Option<()> {
        if root > self.seen {
            return None;
        }
        self.seen += u64::from(root == self.seen);
        self.units[self.root as usize] = self.own;
        self.own = self.units[root as usize];
        self.root = root;
        Some(())
    }

    /// Adds a rule to the counts of its root's units, unless the root is out of turn.
    fn add_root(&mut self, root: u64, more: u32) -> Option<()> {
        if root != self.root {
            self.go_on(root)?;
        }
        self.own = self.own.wrapping_add(more);
        self.counts |= self.own;
        Some(())
    }

    /// Adds the totals of a rule's accounts, and gives those after them.
    fn add_totals<'a, const ACCOUNTS: usize>(&mut self, rule: &Rule, totals: &'a [u64]) -> Option<&'a [u64]> {
        let most = if rule.is_absolute() { MOST_TOTAL } else { 0 };
        let (own, others) = totals.split_first_chunk::<ACCOUNTS>()?;
        self.bad |= own.iter().fold(0, |bad, total| bad | total | most.wrapping_sub(*total));
        Some(others)
    }

    /// Adds a rule with its totals and gives the totals after them, unless its numbers are not a rule's or its root is out of turn.
    fn add<'a>(&mut self, rule: &Rule, totals: &'a [u64]) -> Option<&'a [u64]> {
        if !are_terms(rule) {
            return None;
        }
        self.longest = self.longest.max(rule.window());
        let (root, unit) = ((rule.second & ROOT) >> 2, rule.second & UNIT);
        if rule.second & SCOPE == ONE {
            self.add_root(root, 1 << (8 * unit))?;
            self.add_totals::<1>(rule, totals)
        } else if rule.second & (SCOPE | UNIT) == WHOLE {
            self.add_root(root, EACH_UNIT)?;
            self.add_totals::<{ UNITS as usize }>(rule, totals)
        } else if rule.second & (SCOPE | ROOT | UNIT) == 0 {
            self.firms += 1;
            self.add_totals::<1>(rule, totals)
        } else {
            None
        }
    }
}

/// The longest window, if the rules and totals are such as an accepted profile of so many roots gives.
#[inline(never)]
fn longest_of_rules(m: &State) -> Option<Longest> {
    let (used, unused) = m[RULES..TOTALS].split_at(2 * m[RULE_COUNT] as usize);
    let mut left = &m[TOTALS..FIRM_TRIPPED];
    let mut tally = Tally::new();
    for rule in used.chunks_exact(2) {
        left = tally.add(&Rule { first: rule[0], second: rule[1] }, left)?;
    }
    let is_good = tally.bad >> 63 == 0
        && tally.counts & SEVENTH == 0
        && tally.firms <= 10
        && tally.seen == m[ROOT_COUNT]
        && is_zero(unused)
        && is_zero(left);
    is_good.then_some(tally.longest)
}

/// Do the first places hold entries that count for something, in order of time, none later than the clock, and the others 0?
/// A number out of its range leaves the top bit 1 in a difference, and all differences are or-ed together.
#[inline(never)]
fn is_log(log: &[u64], entries: usize, roots: u64, clock: u64) -> bool {
    let (used, unused) = log.split_at(2 * entries);
    let last_root = (roots << 4).wrapping_sub(16);
    let (mut bad, mut before, mut counting) = (0u64, 0u64, 1);
    for entry in used.chunks_exact(2) {
        let (time, premium, contracts) = (entry_time(entry[0]), entry[1] >> 20, entry[1] & CONTRACTS);
        counting &= entry[0] | entry[0] >> 1;
        bad |= time.wrapping_sub(before) | last_root.wrapping_sub(entry[0] & ENTRY_ROOT);
        bad |= premium.wrapping_sub(1) | MOST_PREMIUM.wrapping_sub(premium);
        bad |= contracts.wrapping_sub(1) | MOST_CONTRACTS.wrapping_sub(contracts);
        before = time;
    }
    bad >> 63 == 0 && counting == 1 && before <= clock && is_zero(unused)
}
