//! The keys of the served page: none locks by a slip, and they can be switched off.
mod browser;
#[path = "common/serving.rs"]
mod serving;
use browser::json::Json;
use browser::{Browser, Looks};
use serving::{workplace, Serving};
use std::fs;

const ENTER: &str = "\u{E007}";
const ESCAPE: &str = "\u{E00C}";

fn lines(browser: &Browser) -> i64 {
    browser.script("return document.querySelectorAll('#lines tr').length").number()
}

#[test]
fn a_lock_by_a_key_needs_enter_and_keys_can_be_switched_off() {
    let place = workplace("page-keys");
    let Some(browser) = Browser::begin(&place, &Looks { width: 1280, height: 900, dark: false }) else { return };
    fs::write(place.join("profile"), "ABCD,abs_vol,XYZ,500\n").expect("written");
    let serving = Serving::begin(&place, &["profile"]);
    browser.open(&serving.address);
    browser.wait("document.querySelector('#verdict').innerText === 'Good'");
    browser.click("#arm");
    browser.wait("!document.querySelector('#work').hidden");
    nothing_by_a_slip(&browser);
    locked_by_enter(&browser);
    switched_off_and_on(&browser, &serving.address);
    assert_eq!(browser.complaints(), Vec::<String>::new());
    drop(browser);
    fs::remove_dir_all(place).expect("removed");
}

/// With the focus on the months f only asks, and any other key or a click leaves the firm free.
fn nothing_by_a_slip(browser: &Browser) {
    for (key, what) in [("f", "the firm"), ("l", "root XYZ")] {
        for other in [key, "o", ESCAPE, " "] {
            browser.script("document.querySelector('input[name=month]').focus()");
            browser.press(key);
            browser.wait_text("#words", &format!("Press Enter to lock {what}; any other key leaves it as it is."));
            browser.press(other);
            browser.wait_text("#words", "Nothing was locked.");
        }
    }
    browser.press("f");
    browser.click("[data-time='+10ms']");
    browser.script("document.activeElement.blur()");
    browser.press(ENTER);
    assert_eq!(lines(browser), 0, "no event was passed");
}

/// Enter locks, and does nothing else: the form that has the focus is not sent.
fn locked_by_enter(browser: &Browser) {
    for (key, words, count) in [("l", "root XYZ locked by hand", 1), ("f", "firm ABCD locked by hand", 2)] {
        browser.script("document.querySelector('input[name=month]').focus()");
        browser.press(key);
        browser.press(ENTER);
        browser.wait_text("#words", words);
        assert_eq!(lines(browser), count);
    }
    browser.click("[data-lock='firm']");
    browser.wait("document.querySelectorAll('#lines tr').length === 3");
}

/// Switched off, no key does anything, and that is kept when the page is loaded again.
fn switched_off_and_on(browser: &Browser, address: &str) {
    let is_on = || browser.script("return document.querySelector('#keys').checked");
    assert_eq!(is_on(), Json::Bool(true));
    browser.click("#keys");
    browser.open(address);
    browser.wait("document.querySelectorAll('#lines tr').length === 3");
    assert_eq!(is_on(), Json::Bool(false));
    for key in ["o", "u", "r", "f", ENTER] {
        browser.press(key);
    }
    browser.click("#keys");
    browser.press("r");
    browser.wait("document.querySelectorAll('#lines tr').length === 4");
    assert!(browser.text("#lines tr").contains("order 40ms XYZ"), "{}", browser.text("#lines tr"));
}
