//! Makes a script that shows a difference as short as it will go: fewer steps, shorter profiles, earlier times, lower numbers.

use std::time::{Duration, Instant};

use crate::pair::{as_it_is, Pair};
use crate::scripts::{Kind, Step, MOST_NUMBERS};

/// How long a script may be worked on.
const PATIENCE: Duration = Duration::from_secs(120);

/// Shortens the script while `differs` gives the place of a step that shows some difference.
pub fn shrink(mut script: Vec<Step>, mut differs: impl FnMut(&[Step]) -> Option<usize>) -> Vec<Step> {
    let end = Instant::now() + PATIENCE;
    let mut keeps = |script: &[Step]| if Instant::now() < end { differs(script) } else { None };
    if let Some(spare) = spare_room(&script) {
        let shorter = shorten(script, &mut |script| keeps(&with_spare_room(script, spare)));
        script = with_spare_room(&shorter, spare);
    }
    shorten(script, &mut keeps)
}

/// How many bytes the text needs that a profile out writes after these steps.
fn size_after(steps: &[Step]) -> u64 {
    let mut pair = Pair::new(as_it_is);
    for step in steps {
        // a difference was seen before, and the state of the second program is enough here
        drop(pair.step(step));
    }
    pair.second().unit().profile(&mut []).size
}

/// How much more room than it needs a profile out at the end of a script has, below 0 if less; none at another end.
fn spare_room(script: &[Step]) -> Option<i64> {
    let (last, before) = script.split_last()?;
    (last.kind == Kind::Profile).then(|| last.numbers[0].wrapping_sub(size_after(before)) as i64)
}

/// The script with so much more room than it needs for a profile out at its end: a shorter text then leaves as much.
fn with_spare_room(script: &[Step], spare: i64) -> Vec<Step> {
    let mut script = script.to_vec();
    if let Some((last, before)) = script.split_last_mut().filter(|(last, _)| last.kind == Kind::Profile) {
        last.numbers[0] = size_after(before).saturating_add_signed(spare);
    }
    script
}

/// Shortens the script while `keeps` gives the place of a step that shows what is wanted.
fn shorten(mut script: Vec<Step>, keeps: &mut dyn FnMut(&[Step]) -> Option<usize>) -> Vec<Step> {
    loop {
        let before = script.clone();
        if let Some(place) = keeps(&script) {
            script.truncate(place + 1);
        }
        script = fewer(script, &mut |fewer| keeps(fewer).is_some());
        lower_alike(&mut script, &mut |script| keeps(script).is_some());
        script = fewer(script, &mut |fewer| keeps(fewer).is_some());
        for place in 0..script.len() {
            shorten_profile(&mut script, place, &mut |script| keeps(script).is_some());
            move_earlier(&mut script, place, &mut |script| keeps(script).is_some());
            lower_numbers(&mut script, place, &mut |script| keeps(script).is_some());
            let plain = Step { accounted: false, ..script[place].clone() };
            replaced(&mut script, place, plain, &mut |script| keeps(script).is_some());
        }
        if script == before {
            return script;
        }
    }
}

/// Takes items away, first many at a time and at last one by one, as long as the rest keeps what is wanted.
fn fewer<T: Clone>(mut items: Vec<T>, keeps: &mut dyn FnMut(&[T]) -> bool) -> Vec<T> {
    let mut many = items.len();
    while many > 0 {
        let mut place = 0;
        while place < items.len() {
            let rest = [&items[..place], &items[items.len().min(place + many)..]].concat();
            if keeps(&rest) {
                items = rest;
            } else {
                place += many;
            }
        }
        many /= 2;
    }
    items
}

/// Puts 0 or 1 into one place of all steps of a kind at once, or of all but the last step.
fn lower_alike(script: &mut [Step], keeps: &mut dyn FnMut(&[Step]) -> bool) {
    for kind in [Kind::Offer, Kind::Order, Kind::Lockout, Kind::Send, Kind::Report, Kind::Close, Kind::Remaining] {
        for (at, number, spared) in (0..MOST_NUMBERS).flat_map(|at| [(at, 0, 0), (at, 0, 1), (at, 1, 0), (at, 1, 1)]) {
            let mut lowered = script.to_vec();
            let changed = script.len().saturating_sub(spared);
            for step in lowered[..changed].iter_mut().filter(|step| step.kind == kind && at < step.own().len()) {
                step.numbers[at] = step.numbers[at].min(number);
            }
            if keeps(&lowered) {
                script.clone_from_slice(&lowered);
            }
        }
    }
}

/// Puts another step into its place if the script then keeps what is wanted.
fn replaced(script: &mut [Step], place: usize, step: Step, keeps: &mut dyn FnMut(&[Step]) -> bool) -> bool {
    let before = std::mem::replace(&mut script[place], step);
    let kept = keeps(script);
    if !kept {
        script[place] = before;
    }
    kept
}

/// Takes lines and then bytes out of the profile of a step.
fn shorten_profile(script: &mut [Step], place: usize, keeps: &mut dyn FnMut(&[Step]) -> bool) {
    if script[place].kind != Kind::Arm {
        return;
    }
    let lines: Vec<Vec<u8>> = script[place].profile.split_inclusive(|byte| *byte == b'\n').map(<[u8]>::to_vec).collect();
    fewer(lines, &mut |lines| replaced(script, place, Step::arm(lines.concat()), keeps));
    let bytes = script[place].profile.clone();
    fewer(bytes, &mut |bytes| replaced(script, place, Step::arm(bytes.to_vec()), keeps));
}

/// Moves a step with a time, and those after it, to earlier times by the same stretch.
fn move_earlier(script: &mut [Step], place: usize, keeps: &mut dyn FnMut(&[Step]) -> bool) {
    if !script[place].has_time() {
        return;
    }
    lower(script[place].numbers[0], &mut |time| {
        let stretch = script[place].numbers[0] - time;
        let mut moved = script.to_vec();
        for step in moved[place..].iter_mut().filter(|step| step.has_time()) {
            step.numbers[0] = step.numbers[0].saturating_sub(stretch);
        }
        let kept = keeps(&moved);
        if kept {
            script.clone_from_slice(&moved);
        }
        kept
    });
}

/// Lowers each number of a step.
fn lower_numbers(script: &mut [Step], place: usize, keeps: &mut dyn FnMut(&[Step]) -> bool) {
    for at in 0..script[place].own().len() {
        let number = script[place].numbers[at];
        lower(number, &mut |number| {
            let mut step = script[place].clone();
            step.numbers[at] = number;
            replaced(script, place, step, keeps)
        });
    }
}

/// Tries lower numbers: 0, then by halves what lies between a number that failed and the lowest that kept.
fn lower(number: u64, keeps: &mut dyn FnMut(u64) -> bool) {
    if number == 0 || keeps(0) {
        return;
    }
    let (mut failed, mut kept) = (0, number);
    while kept - failed > 1 {
        let middle = failed + (kept - failed) / 2;
        if keeps(middle) {
            kept = middle;
        } else {
            failed = middle;
        }
    }
}
