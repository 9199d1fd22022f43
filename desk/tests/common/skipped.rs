//! What a test does not try is said, and where MBRUMZHEG_SKIPPED names a file it stands there too: cargo shows nothing of a test that passes.
use std::fs::OpenOptions;
use std::io::Write;

/// Says what is not tried and why.
pub fn skipped(words: &str) {
    eprintln!("skipped: {words}");
    if let Some(file) = std::env::var_os("MBRUMZHEG_SKIPPED") {
        let mut file = OpenOptions::new().create(true).append(true).open(file).expect("the file of what is skipped");
        writeln!(file, "skipped: {words}").expect("a line in it");
    }
}
