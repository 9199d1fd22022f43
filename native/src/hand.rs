//! The same calls on the same memory, written by hand for speed: what the proved library is measured against.
//! It keeps the whole contract: the refusals in their order, the test of soundness, and every number of the memory after.

mod account;
mod away;
mod counted;
mod map;
mod profile;
mod profile_out;
mod records;
mod records16;
mod register;
mod reset;
mod sound;

pub use account::{accounted_close, accounted_lockout, accounted_offer, accounted_order, accounted_report, accounted_send};
pub use away::{close, report, send};
pub use profile_out::profile;
pub use records::{read_record, write_record};
pub use records16::{narrow, read_record16, widen, write_record16};

use counted::{counted_by, Covering, Cuts, Offer};
use map::*;
use reset::{carry_out, LAST_RESET};
use sound::{sound, Longest, Sound};

use crate::Row;

/// The row of an answer or of a refusal.
fn row(answer: Result<[u64; 4], u64>) -> Row {
    match answer {
        Ok([a, b, c, d]) => [0, a, b, c, d],
        Err(refusal) => [refusal, 0, 0, 0, 0],
    }
}

/// The state, if enough is lent.
fn state(m: &[u64]) -> Result<&State, u64> {
    m.first_chunk().ok_or(1)
}

/// The state, if enough is lent.
fn state_mut(m: &mut [u64]) -> Result<&mut State, u64> {
    m.first_chunk_mut().ok_or(1)
}

/// What the test of an armed and sound state found.
fn armed(m: &State) -> Result<Sound, u64> {
    if m[MARK] == 0 {
        return Err(4);
    }
    sound(m).ok_or(2)
}

/// The same at a time that is not below the clock.
fn armed_at(m: &State, time: u64) -> Result<Sound, u64> {
    let sound = armed(m)?;
    if time > LAST_TIME || time < m[CLOCK] {
        return Err(12);
    }
    Ok(sound)
}

/// 1 if the firm is locked, else 2 if the root is, else 0.
fn verdict(m: &State, root: u64) -> u64 {
    if m[FIRM_TRIPPED] | m[FIRM_LOCKED] != 0 {
        1
    } else {
        ((m[ROOTS_TRIPPED] | m[ROOTS_LOCKED]) >> root & 1) * 2
    }
}

pub fn arm(m: &mut [u64], text: &[u8]) -> Row {
    let Ok(m) = state_mut(m) else { return row(Err(1)) };
    if m[MARK] != 0 {
        return row(Err(3));
    }
    match profile::read(text) {
        Ok(profile) => {
            profile.write(m);
            row(Ok([0, profile.firm, profile.rules as u64, profile.roots as u64]))
        }
        Err((refusal, line)) => [refusal, line, 0, 0, 0],
    }
}

pub fn clear(m: &mut [u64]) -> Row {
    row(state_mut(m).map(|m| {
        m.fill(0);
        [0; 4]
    }))
}

pub fn text(verdict: u64, room: &mut [u8]) -> Row {
    let words: &[u8] = match verdict {
        1 => b"f: RiskMgmtFirmLevel",
        2 => b"s: RiskMgmtSymLevel",
        _ => return row(Err(13)),
    };
    if room.len() < 20 {
        return row(Err(1));
    }
    room[..words.len()].copy_from_slice(words);
    row(Ok([words.len() as u64, 0, 0, 0]))
}

pub fn status(m: &[u64]) -> Row {
    row(state(m).and_then(|m| {
        armed(m)?;
        let all = m[ROOTS_TRIPPED] | m[ROOTS_LOCKED];
        Ok([m[ROOTS_TRIPPED].count_ones(), m[ROOTS_LOCKED].count_ones(), all.count_ones(), all.trailing_zeros()].map(u64::from))
    }))
}

pub fn remaining(m: &[u64], time: u64, rule: u64, unit: u64) -> Row {
    row(state(m).and_then(|m| {
        armed_at(m, time)?;
        if rule >= m[RULE_COUNT] {
            return Err(13);
        }
        let place = rule as usize;
        let rule = Rule::at(m, place);
        let account = rule.account(unit).ok_or(13u64)?;
        Ok([rule.ceiling().saturating_sub(counted_by(m, place, account, unit, time)), 0, 0, 0])
    }))
}

pub fn lockout(m: &mut [u64], time: u64, level: u64, root: u64) -> Row {
    row(state_mut(m).and_then(|m| locked_out(m, time, level, root)))
}

/// A lockout on lent memory.
fn locked_out(m: &mut State, time: u64, level: u64, root: u64) -> Result<[u64; 4], u64> {
    armed_at(m, time)?;
    match level {
        0 if root < m[ROOT_COUNT] => m[ROOTS_LOCKED] |= 1 << root,
        1 if root == 0 => m[FIRM_LOCKED] = 1,
        _ => return Err(13),
    }
    m[CLOCK] = time;
    Ok([0; 4])
}

pub fn order(m: &mut [u64], time: u64, root: u64, reset: u64) -> Row {
    row(state_mut(m).and_then(|m| ordered(m, time, root, reset)))
}

/// An order on lent memory.
fn ordered(m: &mut State, time: u64, root: u64, reset: u64) -> Result<[u64; 4], u64> {
    armed_at(m, time)?;
    if root >= m[ROOT_COUNT] || reset > LAST_RESET {
        return Err(13);
    }
    m[CLOCK] = time;
    if reset != 0 {
        carry_out(m, root, reset);
    }
    Ok([verdict(m, root), 0, 0, 0])
}

pub fn offer(m: &mut [u64], time: u64, root: u64, unit: u64, premium: u64, contracts: u64) -> Row {
    let offer = Offer { time, root, unit, premium, contracts };
    row(state_mut(m).and_then(|m| offered(m, &offer)))
}

/// An offer on lent memory.
fn offered(m: &mut State, o: &Offer) -> Result<[u64; 4], u64> {
    let sound = armed_at(m, o.time)?;
    if o.root >= m[ROOT_COUNT] || o.unit > 3 {
        return Err(13);
    }
    if !is_priced(o.premium, o.contracts) {
        return Err(14);
    }
    let verdict = verdict(m, o.root);
    if verdict != 0 {
        m[CLOCK] = o.time;
        return Ok([verdict, 0, 0, 0]);
    }
    let covering = Covering::new(m, o);
    let cuts = covering.cuts(m, o);
    let grant = cuts.root.min(cuts.firm);
    if grant > 0 && sound.lacks_places(m, o.time, 1) {
        return Err(15);
    }
    m[CLOCK] = o.time;
    let mut trips = covering.credit(m, o, grant);
    if grant > 0 && sound.longest > 0 {
        join(m, o, grant, sound.longest);
    }
    trips.cut(&cuts, grant, o.contracts);
    Ok(trips.answer(m, o.root, grant))
}

/// Are premium and contracts in their ranges?
fn is_priced(premium: u64, contracts: u64) -> bool {
    premium.wrapping_sub(1) < MOST_PREMIUM && contracts.wrapping_sub(1) < MOST_CONTRACTS
}

/// A fill joins the log, after the entries that are no longer inside the longest window have left.
fn join(m: &mut State, o: &Offer, grant: u64, longest: Longest) {
    let mut entries = m[ENTRY_COUNT] as usize;
    if entries > 0 && entry_time(m[LOG]) + longest <= o.time {
        let log = &mut m[LOG..];
        let gone = first_inside(&log[..2 * entries], longest, o.time);
        log.copy_within(2 * gone..2 * entries, 0);
        log[2 * (entries - gone)..2 * entries].fill(0);
        entries -= gone;
    }
    m[LOG + 2 * entries] = o.time << 10 | o.root << 4 | o.unit << 2 | 3;
    m[LOG + 2 * entries + 1] = o.premium << 20 | grant;
    m[ENTRY_COUNT] = entries as u64 + 1;
}

/// Which levels a fill trips.
#[derive(Clone, Copy, Default)]
struct Trips {
    root: bool,
    firm: bool,
}

impl Trips {
    /// Locks the levels that trip, and answers them with the grant.
    fn answer(self, m: &mut State, root: u64, grant: u64) -> [u64; 4] {
        m[ROOTS_TRIPPED] |= u64::from(self.root) << root;
        m[FIRM_TRIPPED] |= u64::from(self.firm);
        [0, grant, self.root.into(), self.firm.into()]
    }

    /// The levels whose rules cut the grant trip too.
    fn cut(&mut self, cuts: &Cuts, grant: u64, contracts: u64) {
        self.root |= grant < contracts && cuts.root == grant;
        self.firm |= grant < contracts && cuts.firm == grant;
    }
}
