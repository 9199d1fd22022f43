//! The page as it is seen in a real browser, at three widths and in both styles: what stands where, in which colours, and what the crosshair says.
mod browser;
use browser::json::{quoted, Json};
use browser::{Browser, Looks};
use std::fs;
use std::path::{Path, PathBuf};

const PROFILE: &str = "ABCD,rate_vol,XYZ,500,1000\nABCD,abs_ntnl,XYZ,20000\nABCD,rate_count,QQQ,10,60000,,P,F\nABCD,abs_vol,,50000,,T\n";
const LINES: &str = "\
offer 0ms XYZ call front 7.00 450
offer 10ms XYZ call front 7.00 200
order 20ms XYZ
offer 27ms XYZ call front 7.00 200
order 30ms XYZ reset symbol
offer 2s XYZ put front 3.00 300
offer 2500ms QQQ put front 3.00 300
lock 2600ms QQQ
order 2610ms QQQ
order 2700ms QQQ reset symbol
offer 2900ms XYZ put front 3.00 150
order 1ms QQQ
offer 3400ms QQQ put front 13.00 300
";
/// Where a rule's picture has its limit and its nothing, in pixels from its top.
const PLOT: (f64, f64) = (22.0, 106.0);

fn workplace(name: &str) -> PathBuf {
    let place = std::env::temp_dir().join(format!("desk-seen-{name}-{}", std::process::id()));
    fs::create_dir_all(&place).expect("a folder");
    place
}

/// The page of the dialogue above, written by the desk itself.
fn dialogue_page(place: &Path) -> String {
    fs::write(place.join("profile"), PROFILE).expect("written");
    fs::write(place.join("script"), format!("arm profile\n{LINES}report page.html\n")).expect("written");
    let output = std::process::Command::new(env!("CARGO_BIN_EXE_desk")).arg("script").current_dir(place).output().expect("the desk runs");
    assert!(output.status.success(), "{}", String::from_utf8_lossy(&output.stdout));
    format!("file://{}/page.html", place.display())
}

/// A number that a script answers.
fn measured(browser: &Browser, script: &str) -> f64 {
    match browser.script(&format!("return Number({script})")) {
        Json::Number(number) => number,
        other => panic!("{script} is {other:?}"),
    }
}

fn holds(browser: &Browser, script: &str) {
    assert_eq!(browser.script(&format!("return !!({script})")), Json::Bool(true), "{script}");
}

#[test]
fn at_three_widths_and_in_both_styles() {
    let place = workplace("looks");
    let address = dialogue_page(&place);
    for dark in [false, true] {
        let looks = Looks { width: 1280, height: 2600, dark };
        let Some(browser) = Browser::begin(&place, &looks) else { return };
        for width in [1280, 768, 375] {
            browser.resize(width, 4200);
            browser.open(&address);
            stands_in_order(&browser, width);
            is_drawn_to_measure(&browser);
            is_readable(&browser);
            is_coloured(&browser, &place, dark);
            has_a_crosshair(&browser);
            assert_eq!(browser.complaints(), Vec::<String>::new(), "the page complains of nothing");
        }
    }
    fs::remove_dir_all(place).expect("removed");
}

/// Overview first, nothing wider than the window, the rules by share, each linked to its picture.
fn stands_in_order(browser: &Browser, width: u32) {
    assert_eq!(measured(browser, "innerWidth"), f64::from(width));
    holds(browser, "document.documentElement.scrollWidth <= innerWidth");
    let tops = "['#overview', '#locks', '#legend', '#rule0', '#events', '#profile', 'footer'].map((name) => document.querySelector(name).getBoundingClientRect().top)";
    holds(browser, &format!("{tops}.every((top, at, all) => at === 0 || all[at - 1] < top)"));
    let rows = browser.script(
        "return [...document.querySelectorAll('#rules tbody tr')].map((row) => row.cells[0].innerText + '|' + row.cells[2].innerText)",
    );
    let rows: Vec<&str> = rows.list().iter().map(Json::text).collect();
    let wanted = [
        "rule 0 rate_vol 500 in 1 s of XYZ call front|100.0%",
        "rule 0 rate_vol 500 in 1 s of XYZ put front|90.0%",
        "rule 1 abs_ntnl $20,000 of XYZ call front|17.5%",
        "rule 2 rate_count 10 in 1 min of QQQ put front|10.0%",
        "rule 1 abs_ntnl $20,000 of XYZ put front|6.7%",
        "rule 3 abs_vol 50,000 of firm ABCD|3.1%",
        "rule 0 rate_vol 500 in 1 s of XYZ call trailing|0.0%",
        "rule 0 rate_vol 500 in 1 s of XYZ put trailing|0.0%",
        "rule 1 abs_ntnl $20,000 of XYZ call trailing|0.0%",
        "rule 1 abs_ntnl $20,000 of XYZ put trailing|0.0%",
    ];
    assert_eq!(rows, wanted);
    // the bar of a limit that was reached is full, that of 17.5% is as long, and one that was not used has none
    holds(
        browser,
        "[[0, 1], [2, 0.175], [6, 0]].every(([row, share]) => { const bar = document.querySelectorAll('#rules .bar')[row]; \
        return Math.abs(bar.firstChild.getBoundingClientRect().width / bar.getBoundingClientRect().width - share) < 0.02 })",
    );
    for text in ["notional granted\n$9,650", "rejected\n3", "faulty records\n0", "cuts\n1"] {
        holds(browser, &format!("document.querySelector('#overview dl').innerText.includes({})", quoted(text)));
    }
    browser.resize(width, 500);
    browser.click("#rules a[href='#rule1-put-front']");
    browser.wait("(({ top }) => -2 < top && top < innerHeight - 100)(document.querySelector('#rule1-put-front').getBoundingClientRect())");
    browser.resize(width, 4200);
    browser.script("scrollTo(0, 0)");
    let first = "document.querySelector('#lock-list tbody tr').innerText";
    holds(browser, &format!("{first}.startsWith('root XYZ') && {first}.includes('rule 0 rate_vol 500 in 1 s of XYZ call front tripped')"));
    let groups = browser.script("return [...document.querySelectorAll('#events h3')].map((head) => head.innerText)");
    let groups: Vec<&str> = groups.list().iter().map(Json::text).collect();
    assert_eq!(
        groups,
        ["Cuts and trips: 1", "Lockouts by hand and resets: 3", "Refused events and faulty records: 1", "Rejected orders and offers: 3"]
    );
}

/// Pictures fill their width, letters keep their size, labels do not lie on each other, and curves stand at the height of what was used.
fn is_drawn_to_measure(browser: &Browser) {
    holds(browser, "[...document.querySelectorAll('.plot')].every((plot) => { const box = plot.getBoundingClientRect(), chart = plot.parentElement.getBoundingClientRect(); \
        return Math.abs(box.right - chart.right) < 1 && box.width > 0.7 * chart.width && box.right <= innerWidth })");
    holds(browser, "[...document.querySelectorAll('.lanes .tick')].filter((tick) => tick.getBoundingClientRect().width > 0).length >= 2");
    holds(
        browser,
        "[...document.querySelectorAll('.lanes .tick')].map((tick) => tick.getBoundingClientRect()).filter((box) => box.width > 0) \
        .every((box, at, all) => box.height > 10 && box.height < 20 && (at === 0 || all[at - 1].right + 2 < box.left))",
    );
    holds(browser, "[...document.querySelectorAll('.names b')].every((name) => name.scrollWidth <= name.clientWidth)");
    let shares = [("0-call-front", 1.0), ("0-put-front", 0.9), ("1-call-front", 0.175), ("1-put-front", 0.0675), ("2", 0.1), ("3", 0.031)];
    for (rule, share) in shares {
        let top = measured(browser, &format!("document.querySelector('#rule{rule} path.use').getBoundingClientRect().top - document.querySelector('#rule{rule} .plot').getBoundingClientRect().top"));
        let wanted = PLOT.1 - (PLOT.1 - PLOT.0) * share;
        assert!((top - wanted).abs() < 1.5, "rule {rule} reaches {top}, not {wanted}");
    }
    // the names of the lines stand to the left of each picture, within its section
    holds(browser, "[...document.querySelectorAll('.rule .plot')].every((plot) => { const box = plot.querySelector('use[href=\"#levels\"]').getBoundingClientRect(); \
        return box.left < plot.getBoundingClientRect().left - 20 && box.left >= plot.closest('section').getBoundingClientRect().left })");
    // a rule has a picture for each unit that was used, one below the other, and names the others
    holds(
        browser,
        "['call front', 'put front'].join() === [...document.querySelectorAll('#rule0 h4')].map((head) => head.innerText).join()",
    );
    holds(browser, "document.querySelector('#rule0').innerText.includes('Not used: call trailing, put trailing.')");
    holds(browser, "document.querySelector('#rule0-call-front').getBoundingClientRect().bottom <= document.querySelector('#rule0-put-front').getBoundingClientRect().top");
    // the one trip and the one cut of rule 0 are at its first records, at the left of its picture
    for mark in ["trip", "cut"] {
        let uses = format!("document.querySelectorAll('.rule use[href=\"#{mark}\"]')");
        assert_eq!(measured(browser, &format!("{uses}.length")), 1.0);
        holds(browser, &format!("(({{ left, width }}, plot) => width > 5 && Math.abs(left + width / 2 - plot.left) < 0.02 * plot.width)({uses}[0].getBoundingClientRect(), document.querySelector('#rule0 .plot').getBoundingClientRect())"));
        holds(browser, &format!("/^1 {mark}, record 2$/.test({uses}[0].querySelector('title').textContent)"));
    }
    // the lock of QQQ, from 2600 to 2700 ms of 3400, is at its place in its lane
    holds(browser, "(({ left, width }, plot) => Math.abs((left - plot.left) / plot.width - 2600 / 3402) < 0.01 && Math.abs(width / plot.width - 100 / 3402) < 0.01) \
        (document.querySelector('.lanes use[href=\"#band2\"]').getBoundingClientRect(), document.querySelector('.lanes .plot').getBoundingClientRect())");
}

/// All text has enough contrast to its ground.
fn is_readable(browser: &Browser) {
    let script = "
        const numbers = (colour) => colour.match(/[\\d.]+/g).map(Number);
        const light = (colour) => { const [r, g, b] = numbers(colour).map((n) => { const s = n / 255; return s <= 0.03928 ? s / 12.92 : ((s + 0.055) / 1.055) ** 2.4 }); return 0.2126 * r + 0.7152 * g + 0.0722 * b };
        const ground = (element) => { for (let e = element; e; e = e.parentElement) { const c = getComputedStyle(e).backgroundColor; if (numbers(c)[3] !== 0) return c } };
        const poor = [];
        for (const name of ['h1', 'h4', 'header p', 'dt', 'dd', 'th', 'td', 'td.numbers', 'a', '.tick', '.names b', 'pre', 'code', 'footer p']) {
            const element = document.querySelector(name), style = getComputedStyle(element);
            const [high, low] = [light(element.matches('.tick') ? style.fill : style.color), light(ground(element))].sort((a, b) => b - a);
            if ((high + 0.05) / (low + 0.05) < 4.5) poor.push(name);
        }
        return poor.join(' ')";
    assert_eq!(browser.script(script), Json::Text(String::new()), "too little contrast");
}

/// The colours of pixels of what is on the screen, as "r,g,b".
fn pixels(browser: &Browser, place: &Path, points: &[(f64, f64)]) -> Vec<String> {
    let file = place.join("seen.png");
    browser.picture(&file);
    let letters = desk::report::page::base64(&fs::read(&file).expect("a picture"));
    let points: Vec<String> = points.iter().map(|(x, y)| format!("[{x},{y}]")).collect();
    let colours = browser.script(&format!(
        "return new Promise((done) => {{ const image = new Image(); image.onload = () => {{ const canvas = document.createElement('canvas'); canvas.width = image.width; \
         canvas.height = image.height; const context = canvas.getContext('2d', {{ willReadFrequently: true }}); context.drawImage(image, 0, 0); \
         done([{}].map(([x, y]) => [...context.getImageData(Math.round(x), Math.round(y), 1, 1).data].slice(0, 3).join(','))) }}; image.src = 'data:image/png;base64,{letters}' }})",
        points.join(",")
    ));
    colours.list().iter().map(|colour| colour.text().to_string()).collect()
}

/// What is on the screen has the style's colours: the page, a section, the area under a curve, a lock, and a line at 80 percent.
fn is_coloured(browser: &Browser, place: &Path, dark: bool) {
    let plot = |edge: &str| measured(browser, &format!("document.querySelector('#rule0-put-front .plot').getBoundingClientRect().{edge}"));
    let (left, top, width) = (plot("left"), plot("top"), plot("width"));
    let x = |ms: f64| left + width * ms / 3402.0;
    let y = |share: f64| top + PLOT.1 - (PLOT.1 - PLOT.0) * share;
    let lane = measured(browser, "document.querySelector('.lanes use[href=\"#band2\"]').getBoundingClientRect().top");
    let lanes = measured(browser, "document.querySelector('.lanes .plot').getBoundingClientRect().left");
    let lanes_width = measured(browser, "document.querySelector('.lanes .plot').getBoundingClientRect().width");
    // 300 of 500 is used at 2200 ms, and nothing at 1200 ms
    let mut points = vec![(2.0, 2.0), (x(1_260.0), y(0.3)), (x(2_260.0), y(0.3)), (lanes + lanes_width * 2_650.0 / 3_402.0, lane + 2.0)];
    points.extend((0..40).flat_map(|step| [(x(1_250.0) + f64::from(step), y(0.8) - 0.5), (x(1_250.0) + f64::from(step), y(0.8) + 0.5)]));
    let seen = pixels(browser, place, &points);
    let (page, card, area) = if dark { ("20,23,27", "29,33,38", "23,58,82") } else { ("244,245,247", "255,255,255", "207,227,242") };
    assert_eq!((seen[0].as_str(), seen[1].as_str(), seen[2].as_str()), (page, card, area));
    assert_ne!(seen[3], card, "a lock is seen in its lane");
    assert!(seen[4..].iter().any(|colour| colour != card) && seen[4..].iter().any(|colour| colour == card), "a dotted line at 80 percent");
}

/// The crosshair by pointer and by keys: time, used, limit and left, within the window.
fn has_a_crosshair(browser: &Browser) {
    for (rule, ms, words) in [
        ("0-put-front", 2_950, "2950ms to 2951ms: used 450, limit 500, left 50"),
        ("0-put-front", 1_000, "1000ms to 1001ms: used 0, limit 500, left 500"),
        ("0-call-front", 10, "10ms to 11ms: used 500 (between 450 and 500), limit 500, left 0"),
        ("1-put-front", 2_950, "2950ms to 2951ms: used $1,350, limit $20,000, left $18,650"),
        ("3", 3_401, "3400ms to 3401ms: used 1,550 (between 1,250 and 1,550), limit 50,000, left 48,450"),
    ] {
        let said = browser.script(&format!(
            "const plot = document.querySelector('#rule{rule} .plot'), box = plot.getBoundingClientRect(); \
             plot.dispatchEvent(new PointerEvent('pointermove', {{ clientX: box.left + box.width * ({ms} + 0.5) / 3402, clientY: box.top + 40 }})); \
             return document.querySelector('#rule{rule} .readout').innerText"
        ));
        assert_eq!(said.text(), words);
        holds(browser, &format!("(({{ left, right }}) => 0 <= left && right <= innerWidth)(document.querySelector('#rule{rule} .readout').getBoundingClientRect())"));
        holds(browser, &format!("(({{ left }}, box) => Math.abs((left - box.left) / box.width - {ms} / 3402) < 0.005)(document.querySelector('#rule{rule} .cross').getBoundingClientRect(), document.querySelector('#rule{rule} .plot').getBoundingClientRect())"));
        browser.script(&format!("document.querySelector('#rule{rule} .plot').dispatchEvent(new PointerEvent('pointerleave'))"));
        holds(browser, "document.querySelector('.readout, .cross') === null");
    }
    browser.script("document.querySelector('#rule0-call-front .plot').focus()");
    // keys go on from where the pointer was last, at 10 ms
    browser.press("\u{E014}\u{E014}");
    assert_eq!(browser.text("#rule0-call-front .readout"), "14ms to 15ms: used 500, limit 500, left 0");
    browser.press("\u{E012}\u{E012}\u{E012}");
    assert_eq!(browser.text("#rule0-call-front .readout"), "8ms to 9ms: used 450, limit 500, left 50");
    browser.script("document.querySelector('#rule2 .plot').focus()");
    browser.press("\u{E014}");
    assert_eq!(browser.text("#rule2 .readout"), "0ms to 1ms: used 0, limit 10, left 10");
    browser.script("document.activeElement.blur()");
    holds(browser, "document.querySelector('.readout, .cross') === null");
}
