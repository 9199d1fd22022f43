//! The desk spoken to by lines, in a folder of its own.
#![allow(dead_code)]
use desk::console::lines::{run, Ended, Manner};
use std::fs;
use std::path::PathBuf;

/// A folder of its own, with a profile in it.
pub struct Place(PathBuf);

impl Place {
    pub fn new(name: &str) -> Place {
        let place = std::env::temp_dir().join(format!("desk-spoken-{name}-{}", std::process::id()));
        fs::create_dir_all(&place).expect("a folder");
        fs::write(place.join("profile"), "ABCD,abs_vol,XYZ,100000\n").expect("written");
        Place(place)
    }

    /// A file in it.
    pub fn path(&self, name: &str) -> PathBuf {
        self.0.join(name)
    }

    /// What the desk says to lines, in which `@` stands for the folder, and how that ended.
    pub fn spoken(&self, lines: &str) -> (String, Ended) {
        let (mut out, at) = (Vec::new(), format!("{}/", self.0.display()));
        let ended = run(&mut lines.replace('@', &at).as_bytes(), &mut out, Manner::Shown).expect("memory takes every answer");
        (String::from_utf8(out).expect("text").replace(&at, "@"), ended)
    }

    /// What the desk says to one line on a state that was just armed, and how many lines were not done.
    pub fn said(&self, line: &str) -> (String, usize) {
        let (text, ended) = self.spoken(&format!("arm @profile\n{line}\n"));
        let answer = text.lines().skip_while(|own| *own != format!("> {line}")).skip(1).collect::<Vec<_>>().join("\n");
        (answer, ended.not_done)
    }
}

impl Drop for Place {
    fn drop(&mut self) {
        // a folder that stays behind spoils nothing
        let _ = fs::remove_dir_all(&self.0);
    }
}
