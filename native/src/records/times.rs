//! What reading, writing and moving a record costs.

use std::time::Instant;

use super::rounds::{rounds, Round, RECORDS};

/// How many rounds there are.
const ROUNDS: usize = 100;

/// The least nanoseconds a record of each way, in rounds that take turns.
fn least(mut ways: [Round; 3]) -> [f64; 3] {
    let mut times = [f64::MAX; 3];
    for _ in 0..ROUNDS {
        for (least, way) in times.iter_mut().zip(&mut ways) {
            let start = Instant::now();
            way();
            *least = least.min(start.elapsed().as_nanos() as f64 / RECORDS as f64);
        }
    }
    times
}

/// The least nanoseconds a record of the library, of the second program and by hand, in each of what may be done with it.
pub fn record_times() -> [(&'static str, [f64; 3]); 6] {
    rounds().map(|rounds| {
        let [_, library, second, by_hand] = rounds.ways;
        (rounds.name, least([library, second, by_hand]))
    })
}
