//! The dialogues of the README and of docs/DESK.md by clicks, in a real browser at the served page.
mod browser;
#[path = "common/page.rs"]
mod page;
#[path = "common/serving.rs"]
mod serving;
use browser::{Browser, Looks};
use page::{answered, dialogue, gauge, DESK, README};
use serving::{workplace, Serving};
use std::fs;
use std::path::Path;
use std::process::Command;

/// Does by clicks what a line of the dialogue says.
fn clicked(browser: &Browser, line: &str) {
    let words: Vec<&str> = line.split_whitespace().collect();
    match words[..] {
        ["offer", time, root, side, month, premium, contracts] => {
            browser.fill("#time", time);
            browser.keys("#root", root);
            for choice in [side, month] {
                browser.script(&format!("document.querySelector('input[value={choice}]').closest('label').click()"));
            }
            browser.fill("#premium", premium);
            browser.fill("#contracts", contracts);
            browser.click("#do-offer");
        }
        ["order", time, root, ref reset @ ..] => {
            browser.fill("#time", time);
            browser.keys("#root", root);
            browser.click(&format!("[data-reset='{}']", reset.get(1).unwrap_or(&"")));
        }
        ["lock", root] => {
            browser.click("[data-time=now]");
            browser.keys("#root", root);
            browser.click("[data-lock=root]");
        }
        _ => panic!("nothing to click for {line}"),
    }
}

#[test]
fn the_readmes_dialogue_by_clicks() {
    by_clicks("readme", README);
}

#[test]
fn the_dialogue_in_the_paper_on_the_desk_by_clicks() {
    by_clicks("paper", DESK);
}

fn by_clicks(name: &str, paper: &str) {
    let place = workplace(name);
    let Some(browser) = Browser::begin(&place, &Looks { width: 1280, height: 900, dark: false }) else { return };
    let (profile, turns) = dialogue(paper);
    fs::write(place.join("profile"), &profile).expect("written");
    let serving = Serving::begin(&place, &[]);
    browser.open(&serving.address);
    browser.keys("#file", &place.join("profile").to_string_lossy());
    browser.wait("document.querySelector('#verdict').innerText === 'Good'");
    for (line, answer) in &turns {
        match line.split_whitespace().next().expect("a command") {
            "arm" => {
                browser.click("#arm");
                browser.wait("!document.querySelector('#work').hidden");
                assert!(browser.text("#shown").starts_with(answer.as_str()), "{}", browser.text("#shown"));
                browser.click("#active");
                assert_eq!(downloaded(&browser, "active-profile"), profile.as_bytes(), "the profile is written as the library writes it");
            }
            "offer" | "order" | "lock" => {
                clicked(&browser, line);
                answered(&browser, answer);
            }
            "remaining" => {
                assert_eq!(gauge(&browser, 0), ["100%", "used 500 of 500 in 1 s", "left 0 [0]", "tripped at 10ms", "100%"]);
                // the other units of the rule have used nothing
                for unit in 1..4 {
                    assert_eq!(gauge(&browser, unit), ["0%", "used 0 of 500 in 1 s", "left 500 [500]", "", "0%"]);
                }
                assert_eq!(gauge(&browser, 4), ["17%", "used $3,500 of $20,000", "left $16,500 [165000000]", "", "17.5%"]);
                assert_eq!(gauge(&browser, 9), ["1%", "used 500 of 50,000", "left 49,500 [49500]", "", "1%"]);
            }
            "status" => {
                assert_eq!(browser.text("#where"), "firm ABCD, clock 2000ms");
                assert_eq!(browser.text("#levels"), "firm ABCD: free\nroot XYZ: free\nroot QQQ: locked by hand");
                let locks = browser.text("#locks");
                assert!(locks.starts_with("root QQQ is locked since 2000ms: "), "{locks}");
                assert!(locks.ends_with("[0 1 1 1]"), "{locks}");
            }
            "save" => saved(&browser, &place, &turns),
            "report" => reported(&browser),
            other => panic!("{paper} has a line that no click is known for: {other}"),
        }
    }
    assert!(turns.len() >= 4, "the dialogue was found");
    assert_eq!(browser.complaints(), [""; 0], "the browser has nothing to complain of");
    drop(browser);
    fs::remove_dir_all(place).expect("removed");
}

/// The file that the browser saved is, byte for byte, what the desk saves after the same dialogue.
fn saved(browser: &Browser, place: &Path, turns: &[(String, String)]) {
    assert!(browser.text("#counts").ends_with("not saved"), "{}", browser.text("#counts"));
    browser.click("#save");
    browser.wait("!document.querySelector('#counts').innerText.includes('not saved')");
    let script: String = turns.iter().map(|(line, _)| format!("{line}\n")).take_while(|line| !line.starts_with("report")).collect();
    let own = place.join("own");
    fs::create_dir_all(&own).expect("a folder");
    fs::copy(place.join("profile"), own.join("profile")).expect("copied");
    fs::write(own.join("script"), script).expect("written");
    let output = Command::new(env!("CARGO_BIN_EXE_desk")).arg("script").current_dir(&own).output().expect("the desk runs");
    assert!(output.status.success());
    assert_eq!(downloaded(browser, "day.records"), fs::read(own.join("day.records")).expect("saved"));
}

/// What the browser has saved under a name, once it is there.
fn downloaded(browser: &Browser, name: &str) -> Vec<u8> {
    let file = browser.downloads().join(name);
    let begun = std::time::Instant::now();
    while !file.exists() && begun.elapsed().as_secs() < 10 {
        std::thread::sleep(std::time::Duration::from_millis(20));
    }
    fs::read(file).expect("a download")
}

fn reported(browser: &Browser) {
    browser.click("#report");
    assert_eq!(browser.last_tab(), 2, "the report has a tab of its own");
    browser.wait("document.readyState === 'complete' && document.querySelector('h1')");
    assert!(browser.text("h1").contains("ABCD"), "{}", browser.text("h1"));
}
