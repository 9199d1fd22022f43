//! Days on fresh units for the desk's tests.
#![allow(dead_code)]
use desk::files::progress::Progress;
use desk::library::state::State;
use desk::replay::day::Day;
use desk::session::sitting::Sitting;

/// A day that has not begun, on a unit armed from this text.
pub fn sitting(text: &str) -> Sitting {
    let state = State::armed(text.as_bytes()).unwrap_or_else(|refused| panic!("{refused}\n{text}"));
    Sitting::new(state, "profile", text.as_bytes())
}

/// The day that a sitting has passed, or a stretch of it.
pub fn day(sitting: &Sitting, stretch: Option<(u64, u64)>) -> Day {
    Day::replayed(&sitting.profile, &mut sitting.day.pieces().expect("a reader"), stretch, &mut Progress::of(None)).expect("a day")
}
