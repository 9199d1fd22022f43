//! The page is one well-formed file that fetches nothing, with every picture described.
mod common;
#[allow(dead_code)]
#[path = "browser/json.rs"]
mod json;
use common::{event, profile, Dice};
use desk::files::progress::Progress;
use desk::library::piece::Piece;
use desk::library::state::State;
use desk::profile::Count;
use desk::replay::day::Day;
use desk::report::{self, Made};
use desk::session::sitting::Sitting;
use mbrumzheg::{Event, Level, Time};

/// A report of a sitting's day or a stretch of it, of the kind that a name asks for.
fn written(sitting: &Sitting, name: &str, stretch: Option<(u64, u64)>) -> String {
    let mut pieces = sitting.day.pieces().expect("a reader");
    let day = Day::replayed(&sitting.profile, &mut pieces, stretch, &mut Progress::of(None)).expect("a day");
    report::of_name(name, &sitting.profile, &day, &Made::at_the_desk(sitting))
}

fn armed(text: &str) -> Sitting {
    Sitting::new(State::armed(text.as_bytes()).expect("accepted"), "profile", text.as_bytes())
}

/// A sitting with a random day behind it.
fn sitting(seed: u64) -> Sitting {
    let mut dice = Dice::new(seed);
    let mut sitting = armed(&profile(&mut dice));
    for _ in 0..40 {
        let next = event(&mut dice, sitting.clock().ms(), sitting.state().root_count());
        sitting.pass(next);
    }
    sitting
}

/// What stands between two texts.
fn between<'a>(text: &'a str, from: &str, to: &str) -> &'a str {
    text.split_once(from).and_then(|(_, rest)| rest.split_once(to)).map_or("", |(inner, _)| inner)
}

/// Checks that tags are closed in the order in which they were opened; answers the names of all.
fn tags(page: &str) -> Vec<String> {
    let body = page.strip_prefix("<!DOCTYPE html>\n").expect("the kind of document");
    // a script may compare numbers
    let body = body.replace(between(body, "<script>", "</script>"), "");
    let (mut open, mut all) = (Vec::new(), Vec::new());
    for piece in body.split('<').skip(1) {
        let (tag, text) = piece.split_once('>').expect("a tag ends");
        assert!(!text.contains('>'), "{piece}");
        let name = tag.trim_start_matches('/').split([' ', '/']).next().expect("a name").to_string();
        match (tag.starts_with('/'), tag.ends_with('/') || name == "meta") {
            (true, _) => assert_eq!(open.pop(), Some(name), "{tag}"),
            (false, false) => open.push(name.clone()),
            (false, true) => {}
        }
        if !tag.starts_with('/') {
            all.push(tag.split(' ').next().expect("a name").trim_end_matches('/').to_string());
        }
    }
    assert!(open.is_empty(), "{open:?} not closed");
    all
}

/// A rule that is drawn has a picture for each of its counts, or names the unit as not used.
fn every_unit_is_told(sitting: &Sitting, page: &str) {
    for rule in &sitting.profile.rules {
        let section = between(page, &format!("<section class=\"rule\" id=\"rule{}\">", rule.number), "</section>");
        if section.is_empty() {
            continue;
        }
        let counts: Vec<&Count> = sitting.profile.counts.iter().filter(|count| count.rule == rule.number).collect();
        let idle = between(section, "<p>Not used: ", ".</p>");
        let idle: Vec<&str> = idle.split(", ").filter(|unit| !unit.is_empty()).collect();
        assert_eq!(section.matches("<div class=\"count\"").count() + idle.len(), counts.len());
        for count in counts.iter().filter(|count| count.is_one_of_four) {
            let unit = desk::words::unit(count.unit().expect("a unit"));
            let is_drawn = section.contains(&format!(" id=\"{}\"><h4>{unit}</h4>", count.id()));
            assert_ne!(is_drawn, idle.contains(&unit), "rule {} on {unit}", rule.number);
        }
    }
}

#[test]
fn pages_are_well_formed_and_fetch_nothing() {
    for seed in 0..60 {
        let stretch = [None, Some((300, 1_500)), Some((0, 86_399_999)), Some((50_000_000, 50_000_001))][seed as usize % 4];
        let sitting = sitting(seed);
        let page = written(&sitting, "page.html", stretch);
        let all = tags(&page);
        assert_eq!(page.matches("role=\"img\"").count(), page.matches("aria-label=\"").count(), "every picture is described");
        let drawn = page.matches("<section class=\"rule\"").count();
        let unused = between(&page, "<section id=\"unused\">", "</section>").matches("<li>").count();
        assert_eq!(drawn + unused, sitting.profile.rules.len(), "every rule is drawn, or named as not used");
        every_unit_is_told(&sitting, &page);
        assert_eq!(between(&page, "<table id=\"rules\">", "</table>").matches("<tr>").count(), 1 + sitting.profile.counts.len());
        for place in page.match_indices("href=\"#").map(|(at, found)| &page[at + found.len()..]) {
            let name = place.split('"').next().expect("a name");
            assert!(page.contains(&format!("id=\"{name}\"")), "'{name}' is linked and is there");
        }
        assert_eq!(all.iter().filter(|tag| *tag == "script").count(), 1, "the one script is in the page");
        let without_figures = page.split("data:").map(|part| part.split_once('"').map_or(part, |(_, rest)| rest)).collect::<String>();
        for outside in ["http", "<link", "<img", "src=", "@import", "url(", "fetch(", "NaN", "inf"] {
            assert!(!without_figures.contains(outside), "{outside} in a page");
        }
    }
}

#[test]
fn a_page_names_what_it_was_made_from() {
    let mut sitting = armed("ABCD,abs_vol,XYZ,1000");
    sitting.pass(Event::Lockout { time: Time::START, level: Level::Firm });
    sitting.pass_piece(&Piece::of_bytes(&[0xFF; 5]));
    let page = written(&sitting, "page.html", None);
    let record = Event::Lockout { time: Time::START, level: Level::Firm }.to_record16().expect("a record");
    let sums = [desk::records::sha256::hex(b"ABCD,abs_vol,XYZ,1000"), desk::records::sha256::hex(&[&record[..], &[0xFF; 5]].concat())];
    let footer = between(&page, "<footer>", "</footer>");
    for wanted in [sums[0].as_str(), sums[1].as_str(), report::VERSION, report::KIT, "profile", "1 typed at the desk"] {
        assert!(footer.contains(wanted), "{wanted} is in the footer");
    }
    for wanted in [
        "lockouts by hand</dt><dd>1</dd>",
        "faulty records</dt><dd>1</dd>",
        "records</dt><dd>2</dd>",
        "<td class=\"numbers\">2 16 0 0 0 0</td>",
    ] {
        assert!(page.contains(wanted), "{wanted} is in the page");
    }
}

#[test]
fn json_and_csv_have_the_figures_of_the_page() {
    for seed in 0..40 {
        let sitting = sitting(seed);
        let [page, json, csv] = ["page.html", "day.json", "day.csv"].map(|name| written(&sitting, name, None));
        let read = json::Json::of(json.trim_end());
        assert_eq!(read.get("rules").list().len(), sitting.profile.counts.len());
        assert_eq!(read.get("profile").get("file").text(), "profile");
        for (name, key) in [("records", "records"), ("cuts", "cuts"), ("rejected", "rejected"), ("faulty records", "faulty_records")] {
            let counts = between(&json, "\"counts\":", "\n");
            let of_json = between(counts, &format!("\"{key}\":"), ",").trim_end_matches('}');
            assert!(csv.contains(&format!("\r\n{name},{of_json}\r\n")), "{name} is {of_json} in both");
            assert!(page.contains(&format!("<dt>{name}</dt><dd>{of_json}</dd>")), "and in the page");
        }
        // rules and units stand in the same order in all three: the greatest share first
        let order: Vec<String> =
            read.get("rules").list().iter().map(|row| format!("{},{}", row.get("rule").number(), row.get("of").text())).collect();
        let table = between(&page, "<table id=\"rules\">", "</table>");
        let of_row = |row: &str| -> Option<String> {
            let (number, rest) = row.split_once(' ')?;
            Some(format!("{number},{}", rest.split_once(" of ")?.1.split('<').next()?))
        };
        let of_page: Vec<String> = table.split(">rule ").skip(1).map(|row| of_row(row).expect("a rule of something")).collect();
        let (_, rows) = csv.split_once("\r\nrule,").expect("a table of rules");
        let cells = |line: &str| -> Vec<String> { line.split(',').map(str::to_string).collect() };
        let rows: Vec<Vec<String>> = rows.lines().skip(1).take_while(|line| !line.is_empty()).map(cells).collect();
        let of_csv: Vec<String> = rows.iter().map(|cells| format!("{},{}", cells[0], cells[2])).collect();
        assert_eq!((&order, &order), (&of_page, &of_csv));
        // and the unit's number is the one that the library takes: none for the firm
        for (cells, own) in rows.iter().zip(read.get("rules").list()) {
            let count = sitting.profile.counts.iter().find(|count| cells[2] == sitting.profile.scope_words(count.of));
            let number = count.expect("a count").unit().map(|unit| unit.number().to_string());
            assert_eq!((cells[3].clone(), own.get("unit") == &json::Json::Null), (number.clone().unwrap_or_default(), number.is_none()));
        }
        let shares: Vec<f64> = json
            .split("\"share_percent\":")
            .skip(1)
            .map(|rest| rest.split(',').next().and_then(|n| n.parse().ok()).expect("a share"))
            .collect();
        assert!(shares.windows(2).all(|pair| pair[0] >= pair[1]), "{shares:?}");
    }
}

#[test]
fn a_day_of_faulty_records_alone_has_a_page() {
    let mut sitting = armed("ABCD,abs_vol,XYZ,1000");
    sitting.pass_piece(&Piece::of_bytes(&[0xFF; 16]));
    let page = written(&sitting, "page.html", None);
    tags(&page);
    assert!(page.contains("No record of this day holds an event that was not refused."));
}
