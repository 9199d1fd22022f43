//! Requests to a driver, and what it answers.

use std::io::{BufRead, BufReader, Read, Write};
use std::net::TcpStream;
use std::process::Child;
use std::time::Duration;

/// The port that a driver says it has taken.
pub fn port_of(driver: &mut Child) -> u16 {
    let mut lines = BufReader::new(driver.stdout.take().expect("a pipe")).lines();
    let said = lines.by_ref().map_while(Result::ok).find(|line| line.contains("successfully on port ")).expect("the driver says its port");
    // what it says later is read too, so that it never waits
    std::thread::spawn(move || lines.for_each(drop));
    let digits: String = said.split("on port ").nth(1).unwrap_or("").chars().take_while(char::is_ascii_digit).collect();
    digits.parse().unwrap_or_else(|_| panic!("no port in {said:?}"))
}

/// Sends a request to this machine, and answers the status line and the body.
pub fn spoken(port: u16, head: &str, body: &str) -> (String, String) {
    let mut stream = TcpStream::connect(("127.0.0.1", port)).expect("connected");
    stream.set_read_timeout(Some(Duration::from_secs(60))).expect("set");
    write!(stream, "{head}\r\nHost: 127.0.0.1:{port}\r\nConnection: close\r\n\r\n{body}").expect("sent");
    let mut bytes = Vec::new();
    let mut piece = [0; 65_536];
    // the length decides, since a driver may keep the connection
    loop {
        let text = String::from_utf8_lossy(&bytes).into_owned();
        if let Some((head, body)) = text.split_once("\r\n\r\n") {
            let length =
                head.lines().find_map(|line| line.to_ascii_lowercase().strip_prefix("content-length:").map(|n| n.trim().parse::<usize>()));
            if length.and_then(Result::ok).is_none_or(|length| body.len() >= length) {
                return (head.lines().next().unwrap_or("").to_string() + " ", body.to_string());
            }
        }
        match stream.read(&mut piece).expect("read") {
            0 => return (String::new(), String::new()),
            length => bytes.extend_from_slice(&piece[..length]),
        }
    }
}

/// The bytes of a text in base 64.
pub fn from_base64(text: &str) -> Vec<u8> {
    let value = |byte: u8| b"ABCDEFGHIJKLMNOPQRSTUVWXYZabcdefghijklmnopqrstuvwxyz0123456789+/".iter().position(|own| *own == byte);
    let (mut out, mut bits, mut count) = (Vec::new(), 0u32, 0);
    for digit in text.bytes().filter_map(value) {
        bits = bits << 6 | digit as u32;
        count += 6;
        if count >= 8 {
            count -= 8;
            out.push((bits >> count) as u8);
            bits &= (1 << count) - 1;
        }
    }
    out
}
