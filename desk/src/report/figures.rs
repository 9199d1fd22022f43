//! The figures of a day, once for the page, its CSV and its JSON.

use crate::profile::{Count, Profile, Rule};
use crate::replay::day::Day;
use crate::replay::marks::Kind;
use crate::words;
use mbrumzheg::Time;

/// A count's day in figures.
pub struct CountFigures<'a> {
    /// Its rule.
    pub rule: &'a Rule,
    /// The count.
    pub count: &'a Count,
    /// The most that was used, and when first.
    pub most: u64,
    /// That time, in milliseconds; none where nothing was used.
    pub most_at: Option<u64>,
    /// What was used at the end.
    pub last: u64,
    /// How much of what it counted came back from away.
    pub back: u64,
    /// How often it cut.
    pub cuts: u64,
    /// How often it tripped.
    pub trips: u64,
}

impl CountFigures<'_> {
    /// The most that was used, in tenths of a percent of the limit, rounded down.
    pub fn share(&self) -> u64 {
        crate::answers::columns::share(self.most, self.rule.limit, 1_000)
    }

    /// That share as a number.
    pub fn percent(&self) -> String {
        format!("{}.{}", self.share() / 10, self.share() % 10)
    }

    /// That share in words; what is used, however little, is not called nothing.
    pub fn share_words(&self) -> String {
        match self.share() {
            0 if self.most > 0 => "below 0.1%".to_string(),
            _ => format!("{}%", self.percent()),
        }
    }

    /// That share as the width of a bar, which is full at the limit and past it.
    pub fn width(&self) -> String {
        format!("{}.{}", self.share().min(1_000) / 10, self.share().min(1_000) % 10)
    }

    /// The most that was used past the limit.
    pub fn past(&self) -> u64 {
        self.most.saturating_sub(self.rule.limit)
    }

    /// What was left at the end.
    pub fn left(&self) -> u64 {
        self.rule.limit.saturating_sub(self.last)
    }

    /// Whether anything of the limit was used by it.
    pub fn is_used(&self) -> bool {
        self.most > 0 || self.cuts + self.trips > 0
    }
}

/// Every count's figures, the greatest share of its limit first.
pub fn limits<'a>(profile: &'a Profile, day: &Day) -> Vec<CountFigures<'a>> {
    let each = profile.each_count().zip(day.curves.counts.iter().zip(&day.marks));
    let mut all: Vec<CountFigures> = each
        .map(|((rule, count), (curve, marks))| CountFigures {
            rule,
            count,
            most: curve.peak.1,
            most_at: (curve.peak.1 > 0).then_some(curve.peak.0),
            last: curve.cells.last().map_or(curve.start, |cell| cell.last),
            back: day.backs[count.place],
            cuts: marks.count(Kind::Cut),
            trips: marks.count(Kind::Trip),
        })
        .collect();
    all.sort_by_key(|figures| {
        let exact = u128::from(figures.most) * u128::from(u64::MAX) / u128::from(figures.rule.limit.max(1));
        (std::cmp::Reverse(exact), figures.count.place)
    });
    all
}

/// The day's counts by name.
pub fn counts(profile: &Profile, day: &Day) -> Vec<(&'static str, u128)> {
    let sums = &day.sums;
    let of = u128::from;
    vec![
        ("rules", profile.rules.len() as u128),
        ("roots", profile.roots.len() as u128),
        ("records", of(sums.records)),
        ("orders", of(sums.orders)),
        ("offers", of(sums.offers)),
        ("lockouts by hand", of(sums.lockouts)),
        ("contracts offered", of(sums.offered)),
        ("contracts granted", of(sums.granted)),
        (NOTIONAL, sums.notional),
        ("orders sent away", of(sums.sent)),
        ("fills from away", of(sums.reports)),
        ("contracts come back", of(sums.back)),
        (BACK_NOTIONAL, sums.back_notional),
        ("orders closed", of(sums.closed)),
        ("cuts", of(sums.cuts)),
        ("trips", of(sums.trips)),
        ("rejected", of(sums.rejected)),
        ("refused", of(sums.refused)),
        ("faulty records", of(sums.faulty)),
    ]
}

/// The counts that are amounts of money, in ten-thousandths of a dollar.
pub const NOTIONAL: &str = "notional granted";
/// What came back from away, apart from what was granted.
pub const BACK_NOTIONAL: &str = "notional come back";

/// The counts of orders sent away, which a page shows where there are such.
pub const OF_AWAY: [&str; 5] = ["orders sent away", "fills from away", "contracts come back", BACK_NOTIONAL, "orders closed"];

/// A count as people read it.
pub fn count_words(name: &str, count: u128) -> String {
    let is_money = [NOTIONAL, BACK_NOTIONAL].contains(&name);
    let digits = if is_money { count / 10_000 } else { count };
    let grouped = digits.to_string().as_bytes().rchunks(3).rev().map(String::from_utf8_lossy).collect::<Vec<_>>().join(",");
    match count % 10_000 {
        _ if !is_money => grouped,
        0 => format!("${grouped}"),
        rest if rest % 100 == 0 => format!("${grouped}.{:02}", rest / 100),
        rest => format!("${grouped}.{rest:04}"),
    }
}

/// A time of the day as people read it.
pub fn face(ms: u64) -> String {
    Time::from_ms(ms).map(words::time).unwrap_or_default()
}
