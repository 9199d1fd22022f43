//! The figures of a page as JSON and as CSV.

use crate::answers::evening;
use crate::files::disk::BEGINNINGS;
use crate::profile::{level_name, Measure, Profile};
use crate::replay::day::Day;
use crate::replay::lane::{Lane, Told};
use crate::report::figures::{self, CountFigures};
use crate::report::made::Made;
use crate::words::json::{list, object, text};
use mbrumzheg::UnitOfRoot;

/// All figures as JSON. Amounts of rules that count notional are in ten-thousandths of a dollar, times in milliseconds from midnight.
pub fn json(profile: &Profile, day: &Day, made: &Made) -> String {
    let times = |span: Option<(u64, u64)>| {
        span.map_or("null".to_string(), |(from, to)| object(&[("from_ms", from.to_string()), ("to_ms", to.to_string())]))
    };
    let counts = figures::counts(profile, day).into_iter().map(|(name, count)| format!("{}:{count}", text(&key(name))));
    let limits = figures::limits(profile, day);
    let sum_of_profile = [("file", text(&made.profile)), ("sha256", text(&made.profile_sum))];
    let files = list(made.records.iter().map(|name| text(name)));
    let sum_of_records = [("files", files), ("typed", made.typed.to_string()), ("sha256", text(&made.records_sum))];
    let fields = [
        ("firm", text(&profile.firm)),
        ("version", text(made.version)),
        ("kit", text(made.kit)),
        ("profile", object(&sum_of_profile)),
        ("records", object(&sum_of_records)),
        ("times", times(day.times)),
        ("stretch", times(day.stretch)),
        ("counts", format!("{{{}}}", counts.collect::<Vec<_>>().join(","))),
        ("account", objects(evening::json(profile, &day.account).into_iter())),
        ("rules", objects(limits.iter().map(|figures| named(&LIMIT_FIELDS, &limit_values(profile, figures))))),
        ("levels", objects(levels(day).iter().map(|(level, lane)| named(&LEVEL_FIELDS, &level_values(profile, *level, lane))))),
        ("locks", objects(told(day).iter().map(|told| named(&LOCK_FIELDS, &lock_values(profile, told))))),
    ];
    let lines: Vec<String> = fields.iter().map(|(name, value)| format!("{}:{value}", text(name))).collect();
    format!("{}{}\n}}\n", BEGINNINGS[1], lines.join(",\n"))
}

/// Names and values as an object.
fn named(names: &[&str], values: &[Value]) -> String {
    let fields: Vec<(&str, String)> = names.iter().copied().zip(values.iter().map(Value::json)).collect();
    object(&fields)
}

/// A list with an object a line.
fn objects(all: impl Iterator<Item = String>) -> String {
    format!("[\n{}\n]", all.collect::<Vec<_>>().join(",\n"))
}

/// The same figures as tables of commas: counts, account, limits, levels and locks, an empty line between them.
pub fn csv(profile: &Profile, day: &Day, made: &Made) -> String {
    let mut lines = Vec::new();
    let mut pair = |name: &str, value: String| lines.push(format!("{},{}", cell(name), cell(&value)));
    pair("firm", profile.firm.clone());
    pair("version", made.version.to_string());
    pair("kit", made.kit.to_string());
    pair("profile file", made.profile.clone());
    pair("profile sha256", made.profile_sum.clone());
    made.records.iter().for_each(|name| pair("records file", name.clone()));
    pair("events typed", made.typed.to_string());
    pair("records sha256", made.records_sum.clone());
    for (name, span) in [("times", day.times), ("stretch", day.stretch)] {
        if let Some((from, to)) = span {
            pair(&format!("{name} from ms"), from.to_string());
            pair(&format!("{name} to ms"), to.to_string());
        }
    }
    figures::counts(profile, day).iter().for_each(|(name, count)| pair(name, count.to_string()));
    lines.push(String::new());
    lines.extend(evening::csv_lines(profile, &day.account));
    lines.push(String::new());
    lines.push(LIMIT_FIELDS.join(","));
    lines.extend(figures::limits(profile, day).iter().map(|figures| row(&limit_values(profile, figures))));
    lines.push(String::new());
    lines.push(LEVEL_FIELDS.join(","));
    lines.extend(levels(day).iter().map(|(level, lane)| row(&level_values(profile, *level, lane))));
    lines.push(String::new());
    lines.push(LOCK_FIELDS.join(","));
    lines.extend(told(day).iter().map(|told| row(&lock_values(profile, told))));
    format!("{}{}\r\n", BEGINNINGS[2], lines.join("\r\n"))
}

/// A figure: a text, a number, or none.
enum Value {
    Text(String),
    Number(String),
    None,
}

impl Value {
    fn of(number: Option<u64>) -> Value {
        number.map_or(Value::None, |number| Value::Number(number.to_string()))
    }

    fn json(&self) -> String {
        match self {
            Value::Text(words) => text(words),
            Value::Number(digits) => digits.clone(),
            Value::None => "null".to_string(),
        }
    }

    fn csv(&self) -> String {
        match self {
            Value::Text(text) => cell(text),
            Value::Number(digits) => digits.clone(),
            Value::None => String::new(),
        }
    }
}

/// A row is a count: of a root's rule without call/put and month there are four.
const LIMIT_FIELDS: [&str; 16] = [
    "rule",
    "type",
    "of",
    "unit",
    "counts",
    "limit",
    "window_ms",
    "most_used",
    "most_used_at_ms",
    "share_percent",
    "used_at_end",
    "left_at_end",
    "cuts",
    "trips",
    "came_back",
    "most_past_limit",
];

fn limit_values(profile: &Profile, figures: &CountFigures) -> [Value; 16] {
    let rule = figures.rule;
    let number = |number: u64| Value::of(Some(number));
    let counts = match rule.measure {
        Measure::Notional => "ten-thousandths of a dollar",
        Measure::Volume => "contracts",
        Measure::Count => "executions",
    };
    [
        number(rule.number as u64),
        Value::Text(rule.kind.clone()),
        Value::Text(profile.scope_words(figures.count.of)),
        Value::of(figures.count.unit().map(UnitOfRoot::number)),
        Value::Text(counts.to_string()),
        number(rule.limit),
        Value::of(rule.window),
        number(figures.most),
        Value::of(figures.most_at),
        Value::Number(figures.percent()),
        number(figures.last),
        number(figures.left()),
        number(figures.cuts),
        number(figures.trips),
        number(figures.back),
        number(figures.past()),
    ]
}

const LOCK_FIELDS: [&str; 7] = ["locked", "since_ms", "until_ms", "cause", "orders_rejected", "offers_rejected", "contracts_rejected"];

fn lock_values(profile: &Profile, told: &Told) -> [Value; 7] {
    let lock = &told.lock;
    let [orders, offers, contracts] = lock.rejected.map(|count| Value::of(Some(count)));
    [
        Value::Text(level_name(profile, lock.level)),
        Value::of(Some(lock.since)),
        Value::of(told.until),
        Value::Text(lock.cause(profile)),
        orders,
        offers,
        contracts,
    ]
}

/// So many locks are told one by one.
const MOST_TOLD: usize = 300;

/// The first locks one by one, in order of time.
pub fn told(day: &Day) -> Vec<&Told> {
    let mut all: Vec<&Told> = day.lanes.iter().flat_map(|lane| &lane.locks).collect();
    all.sort_by_key(|told| (told.lock.since, told.lock.level));
    all.truncate(MOST_TOLD);
    all
}

const LEVEL_FIELDS: [&str; 5] = ["level", "locks", "orders_rejected", "offers_rejected", "contracts_rejected"];

fn level_values(profile: &Profile, level: usize, lane: &Lane) -> [Value; 5] {
    let [orders, offers, contracts] = lane.rejected.map(|count| Value::of(Some(count)));
    [Value::Text(level_name(profile, level)), Value::of(Some(lane.count)), orders, offers, contracts]
}

/// The levels that were ever locked, with what all of their locks come to.
pub fn levels(day: &Day) -> Vec<(usize, &Lane)> {
    day.lanes.iter().enumerate().filter(|(_, lane)| lane.count > 0).collect()
}

fn row(values: &[Value]) -> String {
    values.iter().map(Value::csv).collect::<Vec<_>>().join(",")
}

fn key(name: &str) -> String {
    name.replace(' ', "_")
}

/// A text as a cell of a table of commas; none that a spreadsheet would take for a formula.
fn cell(text: &str) -> String {
    let text = if text.starts_with(['=', '+', '-', '@']) { format!("'{text}") } else { text.to_string() };
    if text.contains([',', '"', '\n', '\r']) {
        format!("\"{}\"", text.replace('"', "\"\""))
    } else {
        text
    }
}

#[cfg(test)]
mod tests {
    use super::cell;

    #[test]
    fn texts_stay_texts() {
        assert_eq!(cell("plain"), "plain");
        assert_eq!(cell("two, \"quoted\""), "\"two, \"\"quoted\"\"\"");
        assert_eq!(cell("=1+1"), "'=1+1");
    }
}
