//! What can be asked for: the page and its parts, the state, and what is done by buttons.

use crate::library::form::Form;
use crate::serve::bench::{checked, Bench, Said};
use crate::serve::message::{Reply, Request};
use crate::serve::state;
use crate::words::json::{self, object, text};

const PAGE: &str = include_str!("page/page.html");
const STYLE: &str = include_str!("page/page.css");
const SCRIPTS: [(&str, &str); 4] = [
    ("desk.js", include_str!("page/desk.js")),
    ("draw.js", include_str!("page/draw.js")),
    ("forms.js", include_str!("page/forms.js")),
    ("keys.js", include_str!("page/keys.js")),
];

/// The page runs its own scripts and styles and fetches nothing from elsewhere; nothing may frame it.
const OF_PAGE: &str =
    "Content-Security-Policy: default-src 'none'; script-src 'self'; style-src 'self'; connect-src 'self'; img-src data:; \
                       form-action 'none'; base-uri 'none'; frame-ancestors 'none'";
/// A report is a page of its own, which cannot reach the desk.
const OF_REPORT: &str =
    "Content-Security-Policy: default-src 'none'; script-src 'unsafe-inline'; style-src 'unsafe-inline'; img-src data:; \
                         sandbox allow-scripts; frame-ancestors 'none'";

const JSON: &str = "application/json; charset=utf-8";
const HTML: &str = "text/html; charset=utf-8";

/// The answer to a request.
pub fn reply(bench: &mut Bench, request: &Request) -> Reply {
    if request.is_post {
        done(bench, request)
    } else {
        shown(bench, request)
    }
}

fn shown(bench: &mut Bench, request: &Request) -> Reply {
    match request.path.as_str() {
        "" => with(Reply::of(HTML, PAGE), OF_PAGE),
        "page.css" => Reply::of("text/css; charset=utf-8", STYLE),
        "state" => answered(bench, &query(request, "at"), None),
        "log" => Reply::of(JSON, state::log(bench, query(request, "to").parse().unwrap_or(0))),
        "day.records" => match bench.save() {
            Ok(bytes) => with(Reply::of("application/octet-stream", bytes), "Content-Disposition: attachment; filename=\"day.records\""),
            Err(advice) => Reply::text(409, &advice),
        },
        "day.txt" => match bench.save_words() {
            Ok(words) => with(Reply::of("text/plain; charset=utf-8", words), "Content-Disposition: attachment; filename=\"day.txt\""),
            Err(advice) => Reply::text(409, &advice),
        },
        "active-profile" => match bench.active() {
            Ok(text) => with(Reply::of("text/plain; charset=utf-8", text), "Content-Disposition: attachment; filename=\"active-profile\""),
            Err(advice) => Reply::text(409, &advice),
        },
        "account.csv" => match bench.account() {
            Ok(text) => with(Reply::of("text/csv; charset=utf-8", text), "Content-Disposition: attachment; filename=\"account.csv\""),
            Err(advice) => Reply::text(409, &advice),
        },
        "report.html" => report(bench, "report.html", HTML).map_or_else(|reply| reply, |reply| with(reply, OF_REPORT)),
        "report.json" => report(bench, "report.json", JSON).unwrap_or_else(|reply| reply),
        "report.csv" => report(bench, "report.csv", "text/csv; charset=utf-8").unwrap_or_else(|reply| reply),
        name => match SCRIPTS.iter().find(|(own, _)| *own == name) {
            Some((_, script)) => Reply::of("text/javascript; charset=utf-8", *script),
            None => Reply::text(404, "there is nothing of that name\n"),
        },
    }
}

fn with(mut reply: Reply, header: &str) -> Reply {
    reply.headers.push(header.to_string());
    reply
}

fn report(bench: &Bench, name: &str, kind: &'static str) -> Result<Reply, Reply> {
    bench.report(name).map(|text| Reply::of(kind, text)).map_err(|advice| Reply::text(409, &advice))
}

fn done(bench: &mut Bench, request: &Request) -> Reply {
    let (body, name) = (&request.body, query(request, "name"));
    let line = || String::from_utf8_lossy(body).trim().to_string();
    let said = match request.path.as_str() {
        "check" => {
            let (good, words) = checked(body);
            return Reply::of(JSON, object(&[("good", good.to_string()), ("words", text(&words))]));
        }
        "arm" => bench.arm(if name.is_empty() { "profile" } else { &name }, body).map(words),
        "clear" => bench.clear().map(words),
        "back" => bench.bring_back().map(words),
        "line" => bench.line(&crate::words::plain(&line())).map(|said| match said {
            Said::Event(entry) => ("event", entry.json()),
            Said::Words(shown) => words(shown),
        }),
        "go" => {
            line().parse().map_err(|_| "go to which place? a number is missing".to_string()).and_then(|place| bench.go(place)).map(words)
        }
        "replay" => {
            let form = Form::asked(query(request, "form") == "old");
            bench.replay(if name.is_empty() { "records" } else { &name }, body, form).map(words)
        }
        _ => return Reply::text(404, "there is nothing of that name\n"),
    };
    match said {
        Ok(said) => answered(bench, "", Some(said)),
        Err(advice) => Reply { status: 422, ..Reply::of(JSON, object(&[("advice", text(&advice))])) },
    }
}

fn words(said: String) -> (&'static str, String) {
    ("words", text(&said))
}

/// The state, and beside it what was just said.
fn answered(bench: &Bench, at: &str, said: Option<(&'static str, String)>) -> Reply {
    match state::of(bench, at) {
        Ok(state) => {
            let said = said.map_or_else(|| "null".to_string(), |(name, value)| json::object(&[(name, value)]));
            Reply::of(JSON, object(&[("state", state), ("said", said)]))
        }
        Err(advice) => Reply { status: 422, ..Reply::of(JSON, object(&[("advice", text(&advice))])) },
    }
}

/// A word of the query, with %41 for A and + for a blank.
fn query(request: &Request, name: &str) -> String {
    let pairs = request.query.split('&').filter_map(|pair| pair.split_once('='));
    let value = pairs.into_iter().find(|(own, _)| *own == name).map_or("", |(_, value)| value);
    crate::words::plain(&unescaped(value)).chars().take(200).collect()
}

fn unescaped(value: &str) -> String {
    let bytes = value.as_bytes();
    let (mut out, mut at) = (Vec::new(), 0);
    while at < bytes.len() {
        let digits = value.get(at + 1..at + 3).filter(|digits| bytes[at] == b'%' && digits.bytes().all(|byte| byte.is_ascii_hexdigit()));
        match digits.and_then(|digits| u8::from_str_radix(digits, 16).ok()) {
            Some(byte) => {
                out.push(byte);
                at += 3;
            }
            None => {
                out.push(if bytes[at] == b'+' { b' ' } else { bytes[at] });
                at += 1;
            }
        }
    }
    String::from_utf8_lossy(&out).into_owned()
}
