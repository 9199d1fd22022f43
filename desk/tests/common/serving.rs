//! A desk that serves its page, until it is dropped.
#![allow(dead_code)]
use std::io::{BufRead, BufReader};
use std::path::{Path, PathBuf};
use std::process::{Child, ChildStdout, Command, Stdio};

/// A folder of its own.
pub fn workplace(name: &str) -> PathBuf {
    let place = std::env::temp_dir().join(format!("desk-serve-{name}-{}", std::process::id()));
    std::fs::create_dir_all(&place).expect("a folder");
    place
}

pub struct Serving {
    desk: Child,
    _says: BufReader<ChildStdout>,
    /// The address that it printed.
    pub address: String,
    /// The port in it.
    pub port: u16,
    /// The token in it.
    pub token: String,
}

impl Serving {
    /// Starts one in a folder.
    pub fn begin(place: &Path, arguments: &[&str]) -> Serving {
        let mut command = Command::new(env!("CARGO_BIN_EXE_desk"));
        command.arg("serve").args(arguments).current_dir(place).stdin(Stdio::null()).stdout(Stdio::piped());
        let mut desk = command.spawn().expect("the desk runs");
        let mut line = String::new();
        let mut says = BufReader::new(desk.stdout.take().expect("a pipe"));
        says.read_line(&mut line).expect("an address");
        let address = line.trim().strip_prefix("The desk is at ").unwrap_or_else(|| panic!("no address in {line:?}")).to_string();
        let parts: Vec<&str> = address.split('/').collect();
        let ["http:", "", host, token, ""] = parts[..] else { panic!("{address} has another form") };
        let (name, port) = host.split_once(':').expect("a port");
        assert_eq!(name, "127.0.0.1", "the loopback address alone");
        Serving { desk, _says: says, port: port.parse().expect("a port"), token: token.to_string(), address: address.clone() }
    }
}

impl Drop for Serving {
    fn drop(&mut self) {
        // it may have ended by itself, and a test has said so then
        let _ = self.desk.kill();
        let _ = self.desk.wait();
    }
}
