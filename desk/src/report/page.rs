//! The page on a day: one file of HTML with its pictures in it, nothing fetched from elsewhere.

use crate::files::disk::BEGINNINGS;
use crate::profile::{Profile, Rule};
use crate::replay::day::Day;
use crate::replay::marks::Kind;
use crate::report::chart::{escaped, levels, shape, shape_id, Axis, BOTTOM, TOP};
use crate::report::export;
use crate::report::figures::{self, count_words, face, CountFigures, OF_AWAY};
use crate::report::made::Made;
use crate::report::pictures;
use crate::report::tables;
use crate::words::{grouped, plain};

const STYLE: &str = include_str!("page.css");
const SCRIPT: &str = include_str!("page.js");

/// The page on a day.
pub fn page(profile: &Profile, day: &Day, made: &Made) -> String {
    let title = format!("Risk day of firm {}", escaped(&profile.firm));
    let axis = day.curves.scale.zip(day.span()).map(|(scale, (_, last))| Axis::to(scale, last));
    let drawn = axis.map(|axis| pictures::draw(profile, day, &axis)).unwrap_or_default();
    let limits = figures::limits(profile, day);
    let body = [
        format!("<header><h1>{title}</h1><p>{}</p></header>", about(day)),
        format!("<section id=\"overview\"><h2>Overview</h2>{}{}</section>", counts(profile, day), tables::overview(profile, &limits)),
        tables::account(profile, day),
        format!("<section id=\"locks\"><h2>Locks over time</h2>{}{}</section>", drawn.lanes, tables::locks(profile, day)),
        tables::away(profile, day),
        format!("<section id=\"legend\"><h2>Legend</h2>{}<h3>What a reset zeroes and lifts</h3>{}</section>", legend(), tables::resets()),
        format!("<h2>Use of each rule against its limit</h2>{}{}", drawn.rules, unused(profile, &limits)),
        format!("<section id=\"events\"><h2>What did not simply pass</h2>{}</section>", tables::events(day)),
        format!("<section id=\"profile\"><h2>Profile</h2><pre>{}</pre></section>", text_of(profile)),
        footer(profile, day, made),
    ];
    let data = axis.map_or_else(String::new, |axis| {
        let (count, step) = drawn.buckets;
        format!(" data-first=\"{}\" data-step=\"{step}\" data-count=\"{count}\"", axis.scale.first)
    });
    format!(
        "{}<meta name=\"viewport\" content=\"width=device-width, initial-scale=1\"><meta name=\"color-scheme\" content=\"light dark\">\
         <title>{title}</title>\n<style>\n{STYLE}</style></head>\n\
         <body{data}>{}<main>\n{}\n</main>\n<script>\n{SCRIPT}</script></body></html>\n",
        BEGINNINGS[0],
        shared_shapes(axis.as_ref(), &drawn.shared),
        body.join("\n")
    )
}

/// What every picture uses: shapes of marks, the lines at shares of a limit, the ticks, and when each level was locked.
fn shared_shapes(axis: Option<&Axis>, bands: &str) -> String {
    let shapes: String = Kind::ALL.iter().map(|kind| format!("<g id=\"{}\">{}</g>", shape_id(*kind), shape(*kind))).collect();
    let ticks = axis.map_or_else(String::new, |axis| axis.draw(TOP, BOTTOM));
    format!(
        "<svg width=\"0\" height=\"0\" aria-hidden=\"true\" class=\"defs\"><defs>{shapes}<g id=\"levels\">{}</g><g id=\"ticks\">{ticks}</g>{bands}\
         </defs></svg>",
        levels()
    )
}

/// Which times the page shows.
fn about(day: &Day) -> String {
    let whole = match day.times {
        Some((first, last)) => format!("The first event that was not refused is at {}, the last at {}.", face(first), face(last)),
        None => "No record of this day holds an event that was not refused.".to_string(),
    };
    match day.stretch {
        Some((from, to)) => {
            format!("From {} to {}: the counts are of the whole day, everything else is of this stretch. {whole}", face(from), face(to))
        }
        None => whole,
    }
}

fn counts(profile: &Profile, day: &Day) -> String {
    let has_away = figures::counts(profile, day).iter().any(|(name, count)| OF_AWAY.contains(name) && *count > 0);
    let each = figures::counts(profile, day).into_iter().filter(|(name, _)| has_away || !OF_AWAY.contains(name));
    let items: String = each.map(|(name, count)| format!("<div><dt>{name}</dt><dd>{}</dd></div>", count_words(name, count))).collect();
    format!("<dl>{items}</dl>")
}

fn legend() -> String {
    let sample = |inner: &str| format!("<svg viewBox=\"0 0 30 18\" class=\"sample\" aria-hidden=\"true\">{inner}</svg>");
    let lines = [
        ("use of the limit", "<path class=\"use\" d=\"M2 16V9H14V4H28V16\"/>".to_string()),
        ("of it came back from away", "<path class=\"away\" d=\"M2 16V12H14V9H28V16\"/>".to_string()),
        ("past the limit", "<rect class=\"past\" x=\"1\" y=\"6\" width=\"28\" height=\"5\"/>".to_string()),
        ("limit", "<line class=\"limit\" x1=\"1\" y1=\"9\" x2=\"29\" y2=\"9\"/>".to_string()),
        (
            "80 and 50 percent of it",
            "<line class=\"share\" x1=\"1\" y1=\"5\" x2=\"29\" y2=\"5\"/><line class=\"share\" x1=\"1\" y1=\"12\" x2=\"29\" y2=\"12\"/>"
                .to_string(),
        ),
        ("root or firm locked", "<rect class=\"locked\" x=\"2\" y=\"2\" width=\"26\" height=\"14\"/>".to_string()),
    ];
    let kinds = Kind::ALL.map(|kind| (kind.name(), format!("<g transform=\"translate(15 9)\">{}</g>", shape(kind))));
    let items: String = lines.into_iter().chain(kinds).map(|(name, inner)| format!("<li>{}{name}</li>", sample(&inner))).collect();
    format!("<ul class=\"legend\">{items}</ul>")
}

/// The rules that no fill counted for.
fn unused(profile: &Profile, limits: &[CountFigures]) -> String {
    let is_used = |rule: &&Rule| limits.iter().any(|figures| figures.rule.number == rule.number && figures.is_used());
    let names: Vec<String> = profile.rules.iter().filter(|rule| !is_used(rule)).map(|rule| escaped(&profile.rule_words(rule))).collect();
    if names.is_empty() {
        return String::new();
    }
    format!("<section id=\"unused\"><h3>Not used</h3><ul><li>{}</li></ul></section>", names.join("</li><li>"))
}

/// The profile as it was read, with a space for what a page cannot show.
fn text_of(profile: &Profile) -> String {
    let text = String::from_utf8_lossy(&profile.text);
    let lines: Vec<String> = text.lines().map(|line| escaped(&plain(line))).collect();
    lines.join("\n")
}

/// What the page was made from and by what, and its figures to take away.
fn footer(profile: &Profile, day: &Day, made: &Made) -> String {
    let from = match (made.records.as_slice(), made.typed) {
        ([], typed) => format!("{} typed at the desk", grouped(typed as u64)),
        (files, 0) => files.join(", "),
        (files, typed) => format!("{} and {} typed at the desk", files.join(", "), grouped(typed as u64)),
    };
    let link = |name: &str, kind: &str, text: String| {
        format!(
            "<a download=\"figures.{name}\" href=\"data:{kind};charset=utf-8;base64,{}\">{}</a>",
            base64(text.as_bytes()),
            name.to_uppercase()
        )
    };
    format!(
        "<footer><table id=\"made\"><tbody><tr><th scope=\"row\">Profile</th><td>{}<code>{}</code></td></tr>\
         <tr><th scope=\"row\">Records</th><td>{}<code>{}</code></td></tr><tr><th scope=\"row\">Made by</th><td>desk {} over the library of {}</td></tr>\
         <tr><th scope=\"row\">Figures</th><td>{} {}</td></tr></tbody></table><p>The sums are SHA-256 over all bytes, \
         of the records as a file that holds them has them.</p></footer>",
        escaped(&made.profile),
        made.profile_sum,
        escaped(&plain(&from)),
        made.records_sum,
        made.version,
        escaped(made.kit),
        link("csv", "text/csv", export::csv(profile, day, made)),
        link("json", "application/json", export::json(profile, day, made)),
    )
}

/// Bytes in letters that an address may have (RFC 4648).
pub fn base64(bytes: &[u8]) -> String {
    const LETTERS: &[u8; 64] = b"ABCDEFGHIJKLMNOPQRSTUVWXYZabcdefghijklmnopqrstuvwxyz0123456789+/";
    let mut text = String::with_capacity(bytes.len().div_ceil(3) * 4);
    for piece in bytes.chunks(3) {
        let number = (0..3).fold(0u32, |number, place| number << 8 | u32::from(piece.get(place).copied().unwrap_or(0)));
        for place in 0..4 {
            let letter = LETTERS[(number >> (18 - 6 * place) & 63) as usize];
            text.push(if place <= piece.len() { char::from(letter) } else { '=' });
        }
    }
    text
}

#[cfg(test)]
mod tests {
    use super::base64;

    #[test]
    fn the_standards_own_examples() {
        let pairs =
            [("", ""), ("f", "Zg=="), ("fo", "Zm8="), ("foo", "Zm9v"), ("foob", "Zm9vYg=="), ("fooba", "Zm9vYmE="), ("foobar", "Zm9vYmFy")];
        for (text, letters) in pairs {
            assert_eq!(base64(text.as_bytes()), letters);
        }
    }
}
