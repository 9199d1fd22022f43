//! The tables of a page: the limits by their greatest share, the locks with what was rejected for each, and what did not simply pass.

use crate::answers::evening;
use crate::profile::{level_name, Profile};
use crate::replay::day::{Day, MOST_ORDERS};
use crate::replay::entries::{Entry, Group};
use crate::replay::marks::Kind;
use crate::report::chart::escaped;
use crate::report::export;
use crate::report::figures::{face, CountFigures};
use crate::session::resets;
use crate::words::{self, grouped};

/// A table with a class for each column: `n` for numbers, `more` for what a narrow page leaves out.
fn table(id: &str, heads: &[(&str, &str)], rows: impl Iterator<Item = Vec<String>>) -> String {
    let open = |tag: &str, class: &str| if class.is_empty() { format!("<{tag}") } else { format!("<{tag} class=\"{class}\"") };
    let head: String = heads.iter().map(|(name, class)| format!("{} scope=\"col\">{name}</th>", open("th", class))).collect();
    let row = |cells: Vec<String>| {
        let cells: String = cells.iter().zip(heads).map(|(cell, (_, class))| format!("{}>{cell}</td>", open("td", class))).collect();
        format!("<tr>{cells}</tr>")
    };
    let body: String = rows.map(row).collect();
    format!("<div class=\"scroll\"><table id=\"{id}\"><thead><tr>{head}</tr></thead><tbody>{body}</tbody></table></div>")
}

/// The limits by count, the greatest share first, each with a link to its picture.
pub fn overview(profile: &Profile, limits: &[CountFigures]) -> String {
    let heads = [
        ("Rule and unit, the greatest share of the limit first", ""),
        ("Most used", ""),
        ("Share", "n"),
        ("Amount", "n more"),
        ("First at", "n more"),
        ("Left at the end", "n more"),
        ("Cuts", "n"),
        ("Trips", "n"),
        ("Came back", "n"),
        ("Past the limit", "n"),
    ];
    // what came back from away has columns of its own where something did
    let columns = if limits.iter().any(|figures| figures.back > 0) { heads.len() } else { heads.len() - 2 };
    table("rules", &heads[..columns], limits.iter().map(|figures| overview_row(profile, figures)))
}

fn overview_row(profile: &Profile, figures: &CountFigures) -> Vec<String> {
    let rule = figures.rule;
    let words = escaped(&profile.count_words(figures.count.place));
    let class = match figures.share() {
        1_000.. => "full",
        800.. => "high",
        500.. => "half",
        _ if figures.most > 0 => "low",
        _ => "none",
    };
    vec![
        if figures.is_used() { format!("<a href=\"#{}\">{words}</a>", figures.count.id()) } else { words },
        format!("<span class=\"bar {class}\"><i style=\"width:{}%\"></i></span>", figures.width()),
        figures.share_words(),
        rule.amount(figures.most).to_string(),
        figures.most_at.map_or_else(String::new, face),
        rule.amount(figures.left()).to_string(),
        grouped(figures.cuts),
        grouped(figures.trips),
        rule.amount(figures.back).to_string(),
        if figures.past() > 0 { rule.amount(figures.past()).to_string() } else { String::new() },
    ]
}

/// The day's account: a row for each root, and the firm's last.
pub fn account(profile: &Profile, day: &Day) -> String {
    let heads = [
        ("Of", ""),
        ("Orders accepted", "n"),
        ("Orders rejected", "n"),
        ("Fills", "n"),
        ("Contracts", "n"),
        ("Notional", "n"),
        ("Cuts", "n"),
        ("Trips", "n"),
        ("Away reports", "n more"),
    ];
    let rows = evening::rows(profile, &day.account);
    let rows = rows.iter().map(|row| evening::cells(row).iter().map(|cell| escaped(cell)).collect());
    format!("<section id=\"account\"><h2>Account of the day</h2>{}</section>", table("evening", &heads, rows))
}

/// What the locks of each level come to, and the locks one by one, with what was rejected for each.
pub fn locks(profile: &Profile, day: &Day) -> String {
    let (levels, told) = (export::levels(day), export::told(day));
    if levels.is_empty() {
        return "<p>Nothing was locked.</p>".to_string();
    }
    let rejected = |counts: [u64; 3]| counts.into_iter().map(grouped);
    let rejections = [("Orders", "n"), ("Offers", "n"), ("Contracts", "n more")];
    let sums = levels.iter().map(|(level, lane)| {
        let name = escaped(&level_name(profile, *level));
        [name, grouped(lane.count)].into_iter().chain(rejected(lane.rejected)).collect()
    });
    let each = told.iter().map(|told| {
        let until = told.until.map_or_else(|| "holds".to_string(), face);
        let about = [level_name(profile, told.lock.level), face(told.lock.since), until, told.lock.cause(profile)];
        about.iter().map(|text| escaped(text)).chain(rejected(told.lock.rejected)).collect()
    });
    let count: u64 = levels.iter().map(|(_, lane)| lane.count).sum();
    let rest = match count - told.len() as u64 {
        0 => String::new(),
        rest => format!("<p>The first {} locks are told one by one; {} more are in the sums above.</p>", told.len(), grouped(rest)),
    };
    let sums = table("levels", &[&[("Level", ""), ("Locks", "n")], &rejections[..]].concat(), sums);
    let heads = [("Locked", ""), ("Since", ""), ("Until", ""), ("Cause", "")];
    let each = table("lock-list", &[&heads[..], &rejections[..]].concat(), each);
    format!("<h3>Rejected while locked, by level</h3>{sums}<h3>Rejected while locked, by lock</h3>{each}{rest}")
}

/// The orders sent away: on what, how much came back, and when each was closed. Nothing where there were none.
pub fn away(profile: &Profile, day: &Day) -> String {
    if day.orders.is_empty() {
        return String::new();
    }
    let heads = [
        ("Order", "n"),
        ("Sent at", ""),
        ("On", ""),
        ("Premium", "n more"),
        ("Contracts", "n"),
        ("Came back", "n"),
        ("Reports left", "n more"),
        ("Closed at", ""),
    ];
    let rows = day.orders.iter().map(|(order, closed)| {
        let sent = &order.sent;
        vec![
            sent.identity.to_string(),
            face(sent.time.ms()),
            escaped(&crate::answers::away::on(profile, sent)),
            format!("${}", words::premium(sent.premium)),
            grouped(sent.contracts.count()),
            grouped(order.back()),
            order.reports.to_string(),
            closed.map_or_else(|| "open".to_string(), face),
        ]
    });
    let more = if day.orders.len() == MOST_ORDERS { format!("<p>At most {MOST_ORDERS} are told one by one.</p>") } else { String::new() };
    format!("<section id=\"away\"><h2>Orders sent away</h2>{}{more}</section>", table("order-list", &heads, rows))
}

/// What each reset zeroes and lifts, and the mark that it has.
pub fn resets() -> String {
    let [word, zeroes, lifts] = resets::HEADS;
    let mark = |zeroes: &str| if zeroes == "nothing" { Kind::Unlock } else { Kind::Reset }.name().to_string();
    let rows = resets::rows().map(|row| vec![row.word, mark(&row.zeroes), row.zeroes, row.lifts]);
    table("resets", &[(word, ""), ("mark", ""), (zeroes, ""), (lifts, "")], rows) + &format!("<p>{}</p>", resets::REMARK)
}

/// What did not simply pass: cuts and trips, locks and refusals before rejections.
pub fn events(day: &Day) -> String {
    let groups: String = Group::ALL.iter().map(|group| event_group(*group, day.entries.of(*group))).collect();
    if groups.is_empty() {
        return "<p>Nothing: everything passed.</p>".to_string();
    }
    groups
}

fn event_group(group: Group, (entries, count): (&[Entry], u64)) -> String {
    if entries.is_empty() {
        return String::new();
    }
    let heads = [("Record", "n"), ("What was asked", ""), ("Answer", ""), ("Numbers", "numbers")];
    let rows = table(group.id(), &heads, entries.iter().map(event_row));
    let more = if count > entries.len() as u64 {
        format!("<p>The first {} of {} are shown.</p>", grouped(entries.len() as u64), grouped(count))
    } else {
        String::new()
    };
    format!("<h3>{}: {}</h3>{rows}{more}", group.heading(), grouped(count))
}

fn event_row(entry: &Entry) -> Vec<String> {
    let (asked, rest) = entry.words.split_once(": ").unwrap_or(("", &entry.words));
    let (answer, numbers) = rest.split_once("  [").unwrap_or((rest, ""));
    vec![grouped(entry.place as u64), escaped(asked), escaped(answer), escaped(numbers.trim_end_matches(']'))]
}
