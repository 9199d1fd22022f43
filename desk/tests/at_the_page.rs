//! What a person does at the served page besides, and how it looks at every width.
mod browser;
#[path = "common/page.rs"]
mod page;
#[path = "common/serving.rs"]
mod serving;
use browser::json::Json;
use browser::{Browser, Looks};
use page::{answered, dialogue, gauge, DESK};
use serving::{workplace, Serving};
use std::fs;
use std::path::PathBuf;

#[test]
fn what_a_person_does_at_the_page() {
    let place = workplace("undo");
    let Some(browser) = Browser::begin(&place, &Looks { width: 1280, height: 900, dark: true }) else { return };
    let (profile, _) = dialogue(DESK);
    fs::write(place.join("profile"), &profile).expect("written");
    let serving = Serving::begin(&place, &["profile"]);
    browser.open(&serving.address);
    judged_as_it_is_typed(&browser, &profile);
    undone_and_done_again(&browser);
    wrong_and_nothing_lost(&browser);
    at_another_time_and_as_a_line(&browser);
    // reloading the page loses nothing
    browser.open(&serving.address);
    lines(&browser, 2);
    cleared_and_brought_back(&browser);
    // a day in words goes on where the day stands
    fs::write(place.join("day"), "record ff00\n").expect("written");
    browser.keys("#day", &place.join("day").to_string_lossy());
    lines(&browser, 3);
    browser.wait("document.querySelector('#account-rows').innerText.includes('firm ABCD')");
    assert!(browser.text("#lines tr").contains("refused with 16"), "{}", browser.text("#lines tr"));
    unlocked_by_keys_and_saved(&browser);
    let complaints = browser.complaints();
    let wrong = |part: &str| complaints.iter().filter(|one| one.contains(part) && one.contains("422")).count();
    assert_eq!((wrong("/arm"), wrong("/line"), complaints.len()), (1, 1, 2), "only of the wrong profile and offer: {complaints:?}");
    drop(browser);
    fs::remove_dir_all(place).expect("removed");
}

/// Waits until the log has so many lines.
fn lines(browser: &Browser, count: usize) {
    browser.wait(&format!("document.querySelectorAll('#lines tr').length === {count}"));
}

/// A profile is judged as it is typed, with marks under what is wrong, and only a good one arms.
fn judged_as_it_is_typed(browser: &Browser, profile: &str) {
    browser.wait("document.querySelector('#verdict').innerText === 'Good'");
    browser.fill("#text", "ABCD,abs_volume,XYZ,5");
    browser.wait("document.querySelector('#verdict').innerText === 'Refused'");
    assert_eq!(browser.text("#check .marks"), "    |      ^^^^^^^^^^");
    browser.click("#arm");
    browser.wait("document.querySelector('#check').innerText.includes('not armed')");
    browser.fill("#text", profile);
    browser.wait("document.querySelector('#verdict').innerText === 'Good'");
    browser.click("#arm");
    browser.wait("!document.querySelector('#work').hidden");
}

/// Three offers by the key o, of 100 each and 10 ms apart; then back and forth by keys, and back by a click.
fn undone_and_done_again(browser: &Browser) {
    for count in 1..=3 {
        browser.press("o");
        lines(browser, count);
    }
    assert_eq!(gauge(browser, 0)[1], "used 300 of 500 in 1 s");
    browser.press("u");
    lines(browser, 2);
    assert_eq!(gauge(browser, 0)[1], "used 200 of 500 in 1 s");
    browser.press("y");
    lines(browser, 3);
    browser.click("[data-go='1']");
    lines(browser, 1);
    assert_eq!(gauge(browser, 0)[1..3], ["used 100 of 500 in 1 s", "left 400 [400]"]);
    assert!(browser.text("#counts").contains("2 undone"), "{}", browser.text("#counts"));
}

/// What is wrong is said, stays typed, and changes nothing.
fn wrong_and_nothing_lost(browser: &Browser) {
    browser.fill("#contracts", "many");
    browser.click("#do-offer");
    browser.wait_text("#words", "'many' is no number of contracts; type 1 to 1000000");
    assert_eq!(browser.script("return document.querySelector('#contracts').value"), Json::Text("many".to_string()));
    assert!(browser.text("#counts").contains("2 undone"), "nothing is lost");
}

/// The gauges at a later time, at which the window has passed over the fill; and a line as at the desk.
fn at_another_time_and_as_a_line(browser: &Browser) {
    browser.fill("#at", "+2s\u{E007}");
    browser.wait("document.querySelector('#rules li .used').innerText === 'used 0 of 500 in 1 s'");
    browser.wait_text("#drawn", "at 2010ms");
    browser.fill("#line", "order now XYZ reset symbol\u{E007}");
    browser.wait_text("#words", "root XYZ reset; the order on XYZ may pass");
}

/// The keys of T, E and TE unlock and leave what was counted; the day can be saved as records and in words.
fn unlocked_by_keys_and_saved(browser: &Browser) {
    let href = |of: &str| browser.script(&format!("return document.querySelector('{of}').getAttribute('href')")).text().to_string();
    assert_eq!((href("#save"), href("#save-words")), ("day.records".to_string(), "day.txt".to_string()));
    for (key, words) in [
        ("4", "root XYZ unlocked, its counts stay; the order on XYZ may pass"),
        ("5", "firm ABCD unlocked, its counts stay; the order on XYZ may pass"),
        ("6", "root XYZ and firm ABCD unlocked, their counts stay; the order on XYZ may pass"),
    ] {
        browser.press(key);
        browser.wait_text("#words", words);
    }
    lines(browser, 6);
    browser.click("#what-resets-do summary");
    browser.wait("document.querySelector('#resets').checkVisibility()");
    assert!(browser.text("#resets").contains("te\tnothing\tthe root and the firm"), "{}", browser.text("#resets"));
    assert_eq!(browser.script("return document.querySelectorAll('#resets tr').length").number(), 6);
}

fn cleared_and_brought_back(browser: &Browser) {
    browser.click("#clear");
    browser.accept();
    browser.wait("document.querySelector('#work').hidden");
    browser.click("#back");
    lines(browser, 2);
}

/// The page fits windows of three widths, in both styles; the pictures are kept where DESK_PICTURES names a folder.
#[test]
fn the_page_fits_every_width_in_both_styles() {
    let place = workplace("looks");
    let (profile, turns) = dialogue(DESK);
    fs::write(place.join("profile"), &profile).expect("written");
    let pictures = std::env::var("DESK_PICTURES").map_or_else(|_| place.clone(), PathBuf::from);
    let mut backgrounds = Vec::new();
    for dark in [false, true] {
        let Some(browser) = Browser::begin(&place, &Looks { width: 1280, height: 1000, dark }) else { return };
        let serving = Serving::begin(&place, &["profile"]);
        browser.open(&serving.address);
        browser.wait("document.querySelector('#verdict').innerText === 'Good'");
        for (width, armed) in [(390, false), (820, false), (1280, false), (390, true), (820, true), (1280, true)] {
            if armed && browser.script("return document.querySelector('#work').hidden") == Json::Bool(true) {
                browser.click("#arm");
                browser.wait("!document.querySelector('#work').hidden");
                for (line, answer) in turns.iter().filter(|(line, _)| ["offer", "order", "lock"].iter().any(|kind| line.starts_with(kind)))
                {
                    browser.fill("#line", &format!("{line}\u{E007}"));
                    answered(&browser, answer);
                }
            }
            browser.resize(width, 1000);
            fits(&browser, width, armed);
            let name = format!("desk-{width}-{}-{}.png", if dark { "dark" } else { "light" }, if armed { "armed" } else { "profile" });
            assert!(browser.picture(&pictures.join(name)) > 10_000, "something is to be seen");
        }
        backgrounds.push(browser.script("return getComputedStyle(document.body).backgroundColor").text().to_string());
    }
    assert_ne!(backgrounds[0], backgrounds[1], "the dark style is another one");
    fs::remove_dir_all(place).expect("removed");
}

/// Nothing stands outside the window, and what can be clicked is to be seen and not covered.
fn fits(browser: &Browser, width: u32, armed: bool) {
    let wide = browser.script("return document.documentElement.scrollWidth").number();
    assert!(wide <= i64::from(width), "the page is {wide} wide in a window of {width}");
    let covered = browser.script(
        "return [...document.querySelectorAll('main button, main input:not([type=file]):not([type=radio]), main select, main textarea')]\
         .filter((own) => own.checkVisibility() && !own.disabled).filter((own) => {\
           own.scrollIntoView({ block: 'center' }); const box = own.getBoundingClientRect();\
           const top = document.elementFromPoint(box.x + box.width / 2, box.y + box.height / 2);\
           return box.width < 8 || box.x < 0 || box.right > innerWidth || !(own === top || own.contains(top)); })\
         .map((own) => own.id || own.innerText)",
    );
    assert_eq!(covered, Json::List(Vec::new()), "at {width}");
    let gauges = browser.script("scrollTo(0, 0); return document.querySelectorAll('#rules li .bar').length").number();
    assert_eq!(gauges, if armed { 10 } else { 0 }, "one for each rule and unit that is counted for itself");
}
