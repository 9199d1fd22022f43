//! A real browser for tests: chromium without a window, driven by chromedriver over its own protocol.
#![allow(dead_code)]
pub mod json;
#[path = "../common/skipped.rs"]
mod skipped;
mod wire;

use json::{quoted, Json};
use std::path::{Path, PathBuf};
use std::process::{Child, Command, Stdio};
use std::sync::{Mutex, MutexGuard, PoisonError};
use std::time::{Duration, Instant};
use wire::{from_base64, port_of, spoken};

/// The name under which the protocol hands out elements.
const ELEMENT: &str = "element-6066-11e4-a52e-4f735466cecf";
const PATIENCE: Duration = Duration::from_secs(60);

/// One browser at a time is enough for a machine.
static ONE: Mutex<()> = Mutex::new(());

/// A browser, until it is dropped.
pub struct Browser {
    driver: Child,
    port: u16,
    session: String,
    folder: PathBuf,
    _turn: MutexGuard<'static, ()>,
}

/// How a browser looks at pages.
pub struct Looks {
    pub width: u32,
    pub height: u32,
    pub dark: bool,
}

impl Browser {
    /// Begins; nothing where the machine has no chromium with its driver, which is said.
    pub fn begin(folder: &Path, looks: &Looks) -> Option<Browser> {
        let turn = ONE.lock().unwrap_or_else(PoisonError::into_inner);
        if !there("chromium") || !there("chromedriver") {
            skipped::skipped("the desk's pages in a browser, since there is no chromium with chromedriver");
            return None;
        }
        let mut command = Command::new("chromedriver");
        command.arg("--port=0").stdin(Stdio::null()).stdout(Stdio::piped()).stderr(Stdio::null());
        let mut driver = command.spawn().expect("chromedriver runs");
        let port = port_of(&mut driver);
        let mut browser = Browser { driver, port, session: String::new(), folder: folder.to_path_buf(), _turn: turn };
        match browser.tried("/session", &capabilities(folder, looks)) {
            Ok(answer) => browser.session = answer.get("sessionId").text().to_string(),
            Err(why) => {
                skipped::skipped(&format!(
                    "the desk's pages in a browser, since chromium does not start: {}",
                    why.chars().take(200).collect::<String>()
                ));
                return None;
            }
        }
        Some(browser)
    }

    fn command(&self, path: &str, body: &str) -> Json {
        self.post(&format!("/session/{}{path}", self.session), body)
    }

    fn post(&self, path: &str, body: &str) -> Json {
        self.tried(path, body).unwrap_or_else(|why| panic!("{path}: {why}"))
    }

    fn tried(&self, path: &str, body: &str) -> Result<Json, String> {
        let head = format!("POST {path} HTTP/1.1\r\nContent-Type: application/json\r\nContent-Length: {}", body.len());
        let (status, text) = spoken(self.port, &head, body);
        if status.contains(" 200 ") {
            Ok(Json::of(&text).get("value").clone())
        } else {
            Err(text)
        }
    }

    /// Goes to an address.
    pub fn open(&self, address: &str) {
        self.command("/url", &format!("{{\"url\":{}}}", quoted(address)));
    }

    /// What a script in the page answers.
    pub fn script(&self, script: &str) -> Json {
        self.command("/execute/sync", &format!("{{\"script\":{},\"args\":[]}}", quoted(script)))
    }

    fn element(&self, selector: &str) -> String {
        let found = self.command("/element", &format!("{{\"using\":\"css selector\",\"value\":{}}}", quoted(selector)));
        found.get(ELEMENT).text().to_string()
    }

    /// Clicks on what a selector finds, as a person would.
    pub fn click(&self, selector: &str) {
        let element = self.element(selector);
        self.command(&format!("/element/{element}/click"), "{}");
    }

    /// Types into a field, after what is there was taken out.
    pub fn fill(&self, selector: &str, text: &str) {
        let element = self.element(selector);
        self.command(&format!("/element/{element}/clear"), "{}");
        self.keys(selector, text);
    }

    /// Types into a field, or names a file for one that takes files.
    pub fn keys(&self, selector: &str, text: &str) {
        let element = self.element(selector);
        self.command(&format!("/element/{element}/value"), &format!("{{\"text\":{}}}", quoted(text)));
    }

    /// Presses keys wherever the page has its focus.
    pub fn press(&self, keys: &str) {
        let each: Vec<String> = keys
            .chars()
            .flat_map(|key| ["keyDown", "keyUp"].map(|kind| format!("{{\"type\":\"{kind}\",\"value\":{}}}", quoted(&key.to_string()))))
            .collect();
        self.command("/actions", &format!("{{\"actions\":[{{\"type\":\"key\",\"id\":\"keys\",\"actions\":[{}]}}]}}", each.join(",")));
    }

    /// Says yes to a question that the page asks.
    pub fn accept(&self) {
        self.command("/alert/accept", "{}");
    }

    /// The text that what a selector finds shows.
    pub fn text(&self, selector: &str) -> String {
        self.script(&format!("return document.querySelector({}).innerText", quoted(selector))).text().to_string()
    }

    /// Waits until a script answers true.
    pub fn wait(&self, what: &str) {
        let begun = Instant::now();
        while self.script(&format!("return !!({what})")) != Json::Bool(true) {
            assert!(begun.elapsed() < PATIENCE, "not so in time: {what}\n{}", self.text("body"));
            std::thread::sleep(Duration::from_millis(20));
        }
    }

    /// Waits until an element shows a text.
    pub fn wait_text(&self, selector: &str, wanted: &str) {
        let begun = Instant::now();
        while self.text(selector) != wanted {
            assert!(begun.elapsed() < PATIENCE, "{selector} shows {:?}, not {wanted:?}", self.text(selector));
            std::thread::sleep(Duration::from_millis(20));
        }
    }

    /// Gives the page's window a size.
    pub fn resize(&self, width: u32, height: u32) {
        // by the browser's own protocol, since a window has a least width that a page's view has not
        let view = format!("{{\"width\":{width},\"height\":{height},\"deviceScaleFactor\":1,\"mobile\":false}}");
        self.command("/goog/cdp/execute", &format!("{{\"cmd\":\"Emulation.setDeviceMetricsOverride\",\"params\":{view}}}"));
    }

    /// A picture of the window, kept in a file, and how many bytes it has.
    pub fn picture(&self, file: &Path) -> usize {
        let (_, text) = spoken(self.port, &format!("GET /session/{}/screenshot HTTP/1.1", self.session), "");
        let bytes = from_base64(Json::of(&text).get("value").text());
        assert!(bytes.starts_with(b"\x89PNG"), "a picture");
        std::fs::write(file, &bytes).expect("written");
        bytes.len()
    }

    /// How many tabs there are; goes to the last of them.
    pub fn last_tab(&self) -> usize {
        let (_, text) = spoken(self.port, &format!("GET /session/{}/window/handles HTTP/1.1", self.session), "");
        let handles = Json::of(&text).get("value").clone();
        let last = handles.list().last().expect("a tab").text().to_string();
        self.command("/window", &format!("{{\"handle\":{}}}", quoted(&last)));
        handles.list().len()
    }

    /// What the page has complained of, scripts and policies alike.
    pub fn complaints(&self) -> Vec<String> {
        let log = self.command("/se/log", "{\"type\":\"browser\"}");
        log.list().iter().map(|entry| entry.get("message").text().to_string()).collect()
    }

    /// The folder that downloads go to.
    pub fn downloads(&self) -> PathBuf {
        self.folder.clone()
    }
}

impl Drop for Browser {
    fn drop(&mut self) {
        if !self.session.is_empty() {
            let end = format!("DELETE /session/{} HTTP/1.1", self.session);
            // a browser that does not answer is ended with its driver
            let _ = std::panic::catch_unwind(|| spoken(self.port, &end, ""));
        }
        let _ = self.driver.kill();
        let _ = self.driver.wait();
    }
}

fn there(program: &str) -> bool {
    let asked = Command::new(program).arg("--version").stdout(Stdio::null()).stderr(Stdio::null()).status();
    asked.is_ok_and(|status| status.success())
}

fn capabilities(folder: &Path, looks: &Looks) -> String {
    let size = format!("--window-size={},{}", looks.width, looks.height);
    let profile = format!("--user-data-dir={}", folder.join("browser").display());
    let mut arguments =
        vec!["--headless=new", "--no-sandbox", "--disable-gpu", "--disable-dev-shm-usage", "--hide-scrollbars", &size, &profile];
    if looks.dark {
        arguments.push("--blink-settings=preferredColorScheme=0");
    } else {
        arguments.push("--blink-settings=preferredColorScheme=1");
    }
    let arguments: Vec<String> = arguments.iter().map(|argument| quoted(argument)).collect();
    let downloads = quoted(&folder.to_string_lossy());
    format!(
        "{{\"capabilities\":{{\"alwaysMatch\":{{\"goog:loggingPrefs\":{{\"browser\":\"ALL\"}},\"goog:chromeOptions\":{{\"args\":[{}],\
         \"prefs\":{{\"download.default_directory\":{downloads},\"download.prompt_for_download\":false}}}}}}}}}}",
        arguments.join(",")
    )
}
