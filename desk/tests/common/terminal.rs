//! A program at a terminal of its own, by `script`, with keys that are typed when the program has said what they wait for.
#[path = "skipped.rs"]
mod skipped;
use std::io::{Read, Write};
use std::path::Path;
use std::process::{Child, Command, Stdio};
use std::sync::{Arc, Mutex};
use std::time::{Duration, Instant};

const PATIENCE: Duration = Duration::from_secs(60);

/// What a program says at a terminal; nothing where the machine has no `script`. Each step waits for words and then types keys.
pub fn said(program: &str, place: &Path, environment: &[(&str, &str)], steps: &[(&str, &str)]) -> Option<String> {
    if Command::new("script").arg("--version").output().is_err() {
        skipped::skipped("the desk at a terminal, since there is no script to make one");
        return None;
    }
    let mut command = Command::new("script");
    command.args(["-qec", program, "/dev/null"]).current_dir(place).stdin(Stdio::piped()).stdout(Stdio::piped());
    command.env_remove("NO_COLOR").env("TERM", "xterm").env("DESK_HISTORY", "").envs(environment.iter().copied());
    let mut child = command.spawn().expect("script runs");
    let heard = listen(&mut child);
    let mut keys = child.stdin.take().expect("a pipe");
    let mut from = 0;
    for (wanted, typed) in steps {
        from = wait_for(&heard, from, wanted);
        keys.write_all(typed.as_bytes()).and_then(|()| keys.flush()).expect("typed");
    }
    end(&mut child);
    let all = heard.lock().expect("no listener has failed").clone();
    Some(String::from_utf8_lossy(&all).into_owned())
}

/// Gathers what a program writes, as it comes.
fn listen(child: &mut Child) -> Arc<Mutex<Vec<u8>>> {
    let heard = Arc::new(Mutex::new(Vec::new()));
    let (mut output, all) = (child.stdout.take().expect("a pipe"), Arc::clone(&heard));
    std::thread::spawn(move || {
        let mut piece = [0; 4096];
        while let Ok(length @ 1..) = output.read(&mut piece) {
            all.lock().expect("no other listener").extend_from_slice(&piece[..length]);
        }
    });
    heard
}

/// The place after words that are said from a place on.
fn wait_for(heard: &Mutex<Vec<u8>>, from: usize, wanted: &str) -> usize {
    let start = Instant::now();
    loop {
        let all = heard.lock().expect("no listener has failed").clone();
        let found = all[from..].windows(wanted.len().max(1)).position(|piece| piece.starts_with(wanted.as_bytes()));
        if let Some(at) = found {
            return from + at + wanted.len();
        }
        assert!(start.elapsed() < PATIENCE, "no '{wanted}' in {:?}", String::from_utf8_lossy(&all[from..]));
        std::thread::sleep(Duration::from_millis(10));
    }
}

fn end(child: &mut Child) {
    let start = Instant::now();
    while child.try_wait().expect("waited").is_none() {
        if start.elapsed() > PATIENCE {
            child.kill().expect("ended");
            panic!("the program does not end");
        }
        std::thread::sleep(Duration::from_millis(10));
    }
    // what was written last is heard a moment later
    std::thread::sleep(Duration::from_millis(100));
}
