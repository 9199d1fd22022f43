//! The crosshair of every picture of random days says, at every step, what the desk knows of that time: the picture's path is its data.
mod browser;
mod common;
use browser::{Browser, Looks};
use common::{event, profile, Dice};
use desk::files::progress::Progress;
use desk::library::state::State;
use desk::profile::{Count, Rule};
use desk::replay::day::Day;
use desk::report::figures::face;
use desk::report::{self, Made};
use desk::session::sitting::Sitting;
use std::fs;

/// What the crosshair should say of a bucket, by the desk's own numbers.
fn wanted_words(day: &Day, rule: &Rule, count: &Count, at: u64) -> String {
    let scale = day.curves.scale.expect("a scale");
    let (least, most, last) = day.curves.counts[count.place].in_bucket(at);
    let begin = scale.begin(at);
    let when = if scale.width == 1 { face(begin) } else { format!("{} to {}", face(begin), face(begin + scale.width - 1)) };
    let range = if least == most { String::new() } else { format!(" (between {} and {})", rule.amount(least), rule.amount(most)) };
    let (_, _, away) = day.curves.away[count.place].in_bucket(at);
    let back = if away == 0 { String::new() } else { format!(", of it {} from away", rule.amount(away)) };
    let (used, limit) = (rule.amount(last), rule.amount(rule.limit));
    let rest = match last.checked_sub(rule.limit) {
        Some(past @ 1..) => format!("{} past it", rule.amount(past)),
        _ => format!("left {}", rule.amount(rule.limit.saturating_sub(last))),
    };
    format!("{when}: used {used}{range}{back}, limit {limit}, {rest}")
}

#[test]
fn the_crosshair_says_what_the_desk_knows() {
    let place = std::env::temp_dir().join(format!("desk-crosshair-{}", std::process::id()));
    fs::create_dir_all(&place).expect("a folder");
    let Some(browser) = Browser::begin(&place, &Looks { width: 1000, height: 1200, dark: false }) else { return };
    let (mut compared, mut away, mut past) = (0, 0, 0);
    for seed in 0..3 {
        let mut dice = Dice::new(seed);
        let text = profile(&mut dice);
        let mut sitting = Sitting::new(State::armed(text.as_bytes()).expect("accepted"), "profile", text.as_bytes());
        for _ in 0..200 {
            let next = event(&mut dice, sitting.clock().ms(), sitting.state().root_count());
            sitting.pass(next);
        }
        let mut pieces = sitting.day.pieces().expect("a reader");
        let day = Day::replayed(&sitting.profile, &mut pieces, None, &mut Progress::of(None)).expect("a day");
        let page = place.join("page.html");
        fs::write(&page, report::of_name("page.html", &sitting.profile, &day, &Made::at_the_desk(&sitting))).expect("written");
        browser.open(&format!("file://{}", page.display()));
        let count = day.curves.scale.zip(day.times).map_or(0, |(scale, (_, last))| scale.count(last));
        for (rule, own) in sitting.profile.each_count() {
            let said = browser.script(&format!(
                "const plot = document.querySelector('#{} .plot'); if (!plot) return []; const box = plot.getBoundingClientRect(); const said = []; \
                 for (let at = 0; at < {count}; at++) {{ plot.dispatchEvent(new PointerEvent('pointermove', {{ clientX: box.left + box.width * (at + 0.5) / {count} }})); \
                 said.push(plot.parentElement.querySelector('.readout').innerText) }} return said",
                own.id()
            ));
            for (at, words) in said.list().iter().enumerate() {
                assert_eq!(words.text(), wanted_words(&day, rule, own, at as u64), "seed {seed}, {}", own.short_words());
                compared += 1;
                away += usize::from(words.text().contains(" from away"));
                past += usize::from(words.text().ends_with(" past it"));
            }
        }
    }
    fs::remove_dir_all(place).expect("removed");
    assert!(
        compared > 10_000 && away > 100 && past > 100,
        "{compared} readings were compared, {away} with fills from away, {past} past the limit"
    );
}
