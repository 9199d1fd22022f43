//! Orders sent away as they are seen in a real browser: on the page of a day, what came back apart from what was granted and where it went past a limit;
//! on the served page, by keys and clicks.
mod browser;
#[path = "common/page.rs"]
mod page;
#[path = "common/serving.rs"]
mod serving;
use browser::json::Json;
use browser::{Browser, Looks};
use page::gauge;
use serving::{workplace, Serving};
use std::fs;
use std::process::Command;

const PROFILE: &str = "ABCD,abs_vol,XYZ,100\nABCD,rate_ntnl,,5000,1000,T\n";
const DAY: &str = "\
# a day at the desk, in words
away 0ms XYZ call front 7.00 200 5 3
offer 100ms XYZ call front 7.00 60
back 400ms 5 30
back 600ms 5 90
away 700ms XYZ put front 1.00 10 6 2
order 800ms XYZ reset symbol
away 850ms XYZ put front 1.00 10 7 2
close 900ms 5
order 1000ms XYZ
";
/// Where a rule's picture has its limit and its nothing, in pixels from its top.
const PLOT: (f64, f64) = (22.0, 106.0);

fn number(browser: &Browser, script: &str) -> f64 {
    match browser.script(&format!("return Number({script})")) {
        Json::Number(number) => number,
        other => panic!("{script} is {other:?}"),
    }
}

fn holds(browser: &Browser, script: &str) {
    assert_eq!(browser.script(&format!("return !!({script})")), Json::Bool(true), "{script}");
}

#[test]
fn the_page_shows_what_came_back_and_where_it_went_past_a_limit() {
    let place = workplace("seen-away");
    let Some(browser) = Browser::begin(&place, &Looks { width: 1100, height: 2400, dark: false }) else { return };
    fs::write(place.join("profile"), PROFILE).expect("written");
    fs::write(place.join("day.txt"), DAY).expect("written");
    let output = Command::new(env!("CARGO_BIN_EXE_desk")).args(["report", "profile", "day.txt", "page.html"]).current_dir(&place).output();
    let output = output.expect("the desk runs");
    assert!(output.status.success(), "{}", String::from_utf8_lossy(&output.stderr));
    for width in [1100, 390] {
        browser.resize(width, 2400);
        browser.open(&format!("file://{}/page.html", place.display()));
        holds(&browser, "document.documentElement.scrollWidth <= innerWidth");
        told_in_figures(&browser);
        drawn_apart(&browser);
        said_by_the_crosshair(&browser);
        assert_eq!(browser.complaints(), [""; 0], "the page complains of nothing");
    }
    drop(browser);
    fs::remove_dir_all(place).expect("removed");
}

/// In the counts, in columns of their own, and in a table of the orders sent away.
fn told_in_figures(browser: &Browser) {
    let counts = browser.text("#overview dl");
    for wanted in
        ["contracts granted\n60", "notional granted\n$420", "fills from away\n2", "contracts come back\n120", "notional come back\n$840"]
    {
        assert!(counts.contains(wanted), "{wanted} in {counts}");
    }
    let cells = "[...document.querySelector('#rules tbody tr').cells].map((cell) => cell.textContent)";
    let row = browser.script(&format!("const cells = {cells}; return [cells[0], cells[2], cells[8], cells[9]].join('|')"));
    assert_eq!(row.text(), "rule 0 abs_vol 100 of XYZ call front|180.0%|120|80");
    // a bar is full at the limit and no longer past it
    holds(browser, "(({ width }, bar) => Math.abs(width - bar.width) < 1)(document.querySelector('#rules .bar i').getBoundingClientRect(), document.querySelector('#rules .bar').getBoundingClientRect())");
    let orders = browser.script("return [...document.querySelectorAll('#order-list tbody tr')].map((row) => [...row.cells].map((cell) => cell.textContent).join('|')).join('\\n')");
    assert_eq!(orders.text(), "5|0ms|XYZ call front|$7.00|200|120|1|900ms\n7|850ms|XYZ put front|$1.00|10|0|2|open");
    assert_eq!(browser.script("return document.querySelectorAll('#away-list tbody tr').length").number(), 5);
    holds(browser, "document.querySelector('#rejected-list').textContent.includes('order 6 not sent')");
}

/// What came back is an area of its own within the use of the limit; a band stands above the limit while more is used; each fill has its mark.
fn drawn_apart(browser: &Browser) {
    let count = "document.querySelector('#rule0-call-front .plot')";
    let top = |part: &str| {
        number(browser, &format!("{count}.querySelector('{part}').getBoundingClientRect().top - {count}.getBoundingClientRect().top"))
    };
    let height = |share: f64| PLOT.1 - (PLOT.1 - PLOT.0) * share;
    // at the most 180 of 100 were used, and 120 of them had come back
    for (path, share) in [("path.use", 1.8), ("path.away", 1.2)] {
        assert!((top(path) - height(share)).abs() < 2.0, "{path} reaches {}, not {}", top(path), height(share));
    }
    assert!((PLOT.0 - 8.0..=PLOT.0 - 5.0).contains(&top("path.past")), "the band is just above the limit: {}", top("path.past"));
    let band = number(browser, &format!("(({{ left, width }}, plot) => (left - plot.left) / plot.width)({count}.querySelector('path.past').getBoundingClientRect(), {count}.getBoundingClientRect())"));
    let length = number(browser, &format!("(({{ width }}, plot) => width / plot.width)({count}.querySelector('path.past').getBoundingClientRect(), {count}.getBoundingClientRect())"));
    assert!((band - 0.6).abs() < 0.01 && (length - 0.2).abs() < 0.01, "past the limit from 600 to 800 ms of 1000: {band} and {length}");
    assert_eq!(number(browser, &format!("{count}.querySelectorAll('use[href=\"#back\"]').length")), 2.0);
    holds(browser, &format!("/^1 fill from away, record 3$/.test({count}.querySelector('use[href=\"#back\"] title').textContent)"));
    let mark = number(browser, &format!("(({{ top, height }}, plot) => top + height / 2 - plot.top)({count}.querySelector('use[href=\"#back\"]').getBoundingClientRect(), {count}.getBoundingClientRect())"));
    assert!((mark - height(0.0)).abs() < 2.0, "a fill from away is marked at the bottom: {mark}");
    holds(browser, "document.querySelector('.legend').innerText.includes('of it came back from away') && document.querySelector('.legend').innerText.includes('past the limit')");
    holds(
        browser,
        "document.querySelector('#rule0-call-front p').innerText.includes('Past the limit by up to 80. 120 came back from away.')",
    );
}

fn said_by_the_crosshair(browser: &Browser) {
    for (ms, words) in [
        (200, "200ms: used 60, limit 100, left 40"),
        (500, "500ms: used 90, of it 30 from away, limit 100, left 10"),
        (700, "700ms: used 180, of it 120 from away, limit 100, 80 past it"),
        (900, "900ms: used 0, limit 100, left 100"),
    ] {
        let said = browser.script(&format!(
            "const plot = document.querySelector('#rule0-call-front .plot'), box = plot.getBoundingClientRect(); \
             plot.dispatchEvent(new PointerEvent('pointermove', {{ clientX: box.left + box.width * ({ms} + 0.5) / 1001, clientY: box.top + 40 }})); \
             return document.querySelector('#rule0-call-front .readout').innerText"
        ));
        assert_eq!(said.text(), words);
    }
}

#[test]
fn orders_are_sent_away_by_keys_and_clicks() {
    let place = workplace("away-clicks");
    let Some(browser) = Browser::begin(&place, &Looks { width: 1280, height: 1000, dark: true }) else { return };
    fs::write(place.join("profile"), PROFILE).expect("written");
    let serving = Serving::begin(&place, &["profile"]);
    browser.open(&serving.address);
    browser.wait("document.querySelector('#verdict').innerText === 'Good'");
    browser.click("#arm");
    browser.wait("!document.querySelector('#work').hidden");
    holds(&browser, "document.querySelector('#open-orders').hidden");
    browser.fill("#identity", "5");
    browser.click("#do-away");
    browser.wait_text("#words", "order 5 sent away: 100 of XYZ call front at $7.00, 3 reports allowed, 3 log places kept");
    browser.script("document.activeElement.blur()");
    assert_eq!(browser.text("#orders tr"), "5\tXYZ call front\t$7.00\t0 of 100\t100\t3");
    browser.press("o");
    browser.wait_text("#words", "granted all 100 at $7.00; limit reached: rule 0 abs_vol 100 of XYZ call front; root XYZ tripped");
    browser.fill("#contracts", "40");
    browser.script("document.activeElement.blur()");
    browser.press("b");
    browser.wait("document.querySelector('#words').innerText.startsWith('40 of order 5 came back on XYZ call front, 60 contracts open and 2 reports left; past the limit')");
    assert_eq!(gauge(&browser, 0), ["140%", "used 140 of 100", "left 0 [0]", "tripped at 20ms", "100%"]);
    assert_eq!(
        (browser.text("#rules li .back"), browser.text("#rules li .past")),
        ("40 of it came back from away".into(), "40 past the limit".into())
    );
    // another order cannot be sent under the lock, and the one that is open can be chosen and closed
    browser.fill("#identity", "6");
    browser.script("document.activeElement.blur()");
    browser.press("a");
    browser.wait_text("#words", "rejected, root XYZ is tripped (s: RiskMgmtSymLevel), order 6 not sent: 40 at $7.00");
    browser.click("#orders button");
    browser.press("x");
    browser.wait_text("#words", "order 5 closed, 40 of 100 had come back, 2 log places free again");
    browser.wait("document.querySelector('#open-orders').hidden");
    assert_eq!(browser.script("return document.querySelector('#save').getAttribute('href')").text(), "day.records");
    // undone, the order is open again
    browser.press("u");
    browser.wait("!document.querySelector('#open-orders').hidden");
    assert_eq!(browser.text("#orders tr"), "5\tXYZ call front\t$7.00\t40 of 100\t60\t2");
    assert_eq!(browser.complaints(), [""; 0]);
    drop(browser);
    fs::remove_dir_all(place).expect("removed");
}
