//! Orders sent to away markets: sending, their reports and their closing.

use super::counted::{Covering, Offer};
use super::map::*;
use super::{armed_at, is_priced, join, row, state_mut, verdict};
use crate::Row;

#[allow(clippy::too_many_arguments)]
pub fn send(m: &mut [u64], time: u64, root: u64, unit: u64, premium: u64, contracts: u64, identity: u64, reports: u64) -> Row {
    let offer = Offer { time, root, unit, premium, contracts };
    row(state_mut(m).and_then(|m| sent(m, &offer, identity, reports)))
}

/// A sending on lent memory.
pub fn sent(m: &mut State, o: &Offer, identity: u64, reports: u64) -> Result<[u64; 4], u64> {
    let sound = armed_at(m, o.time)?;
    if o.root >= m[ROOT_COUNT] || o.unit >= UNITS || identity > LAST_IDENTITY {
        return Err(13);
    }
    if !is_priced(o.premium, o.contracts) || reports.wrapping_sub(1) >= MOST_REPORTS {
        return Err(14);
    }
    let count = m[REGISTER] as usize;
    if count == MOST_ORDERS {
        return Err(17);
    }
    if place_of(m, identity).is_some() {
        return Err(18);
    }
    let verdict = verdict(m, o.root);
    if verdict == 0 {
        if sound.lacks_places(m, o.time, reports) {
            return Err(15);
        }
        m[ORDERS + 2 * count] = identity << 13 | o.root << 7 | o.unit << 5 | reports;
        m[ORDERS + 2 * count + 1] = o.premium << 20 | o.contracts;
        m[REGISTER] = count as u64 + 1;
    }
    m[CLOCK] = o.time;
    Ok([verdict, 0, 0, 0])
}

/// Where the order of an identity stands, if it is open.
fn place_of(m: &State, of: u64) -> Option<usize> {
    let orders = &m[ORDERS..][..2 * m[REGISTER] as usize];
    orders.chunks_exact(2).position(|order| identity(order[0]) == of).map(|place| ORDERS + 2 * place)
}

pub fn report(m: &mut [u64], time: u64, identity: u64, contracts: u64) -> Row {
    row(state_mut(m).and_then(|m| reported(m, time, identity, contracts).map(|(answer, _)| answer)))
}

/// A report on lent memory: its answer, and its order's root.
pub fn reported(m: &mut State, time: u64, identity: u64, contracts: u64) -> Result<([u64; 4], u64), u64> {
    let sound = armed_at(m, time)?;
    if identity > LAST_IDENTITY {
        return Err(13);
    }
    if contracts.wrapping_sub(1) >= MOST_CONTRACTS {
        return Err(14);
    }
    let place = place_of(m, identity).ok_or(18u64)?;
    let (first, second) = (m[place], m[place + 1]);
    if contracts > second & CONTRACTS || first & REPORTS == 0 {
        return Err(19);
    }
    m[place] = first - 1;
    m[place + 1] = second - contracts;
    let fill = Offer { time, root: first >> 7 & 63, unit: first >> 5 & 3, premium: second >> 20, contracts };
    m[CLOCK] = time;
    let trips = Covering::new(m, &fill).report(m, &fill);
    if sound.longest > 0 {
        join(m, &fill, contracts, sound.longest);
    }
    Ok((trips.answer(m, fill.root, contracts), fill.root))
}

pub fn close(m: &mut [u64], time: u64, identity: u64) -> Row {
    row(state_mut(m).and_then(|m| closed(m, time, identity)))
}

/// A closing on lent memory.
pub fn closed(m: &mut State, time: u64, identity: u64) -> Result<[u64; 4], u64> {
    armed_at(m, time)?;
    if identity > LAST_IDENTITY {
        return Err(13);
    }
    let place = place_of(m, identity).ok_or(18u64)?;
    let end = ORDERS + 2 * m[REGISTER] as usize;
    m.copy_within(place + 2..end, place);
    m[end - 2..end].fill(0);
    m[REGISTER] -= 1;
    m[CLOCK] = time;
    Ok([0; 4])
}
