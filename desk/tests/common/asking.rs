//! Requests to a desk that serves its page, byte for byte.
#![allow(dead_code)]
use crate::browser::json::Json;
use crate::serving::Serving;
use std::io::{Read, Write};
use std::net::TcpStream;
use std::time::Duration;

/// Sends bytes as they are, and answers what comes back: the status and the body.
pub fn raw(port: u16, bytes: &[u8]) -> (u16, Vec<u8>) {
    let mut stream = TcpStream::connect(("127.0.0.1", port)).expect("connected");
    stream.set_read_timeout(Some(Duration::from_secs(30))).expect("set");
    // the desk may refuse before it has read everything
    let _ = stream.write_all(bytes);
    let mut answer = Vec::new();
    let _ = stream.read_to_end(&mut answer);
    let end = answer.windows(4).position(|four| four == b"\r\n\r\n").unwrap_or(answer.len());
    let head = String::from_utf8_lossy(&answer[..end]).into_owned();
    let status = head.split(' ').nth(1).and_then(|word| word.parse().ok()).unwrap_or(0);
    (status, answer.get(end + 4..).unwrap_or_default().to_vec())
}

pub fn request(serving: &Serving, method: &str, path: &str, more: &str, body: &[u8]) -> (u16, Vec<u8>) {
    let (port, token) = (serving.port, &serving.token);
    let mut bytes =
        format!("{method} /{token}/{path} HTTP/1.1\r\nHost: 127.0.0.1:{port}\r\nContent-Length: {}\r\n{more}\r\n", body.len()).into_bytes();
    bytes.extend_from_slice(body);
    raw(port, &bytes)
}

pub fn get(serving: &Serving, path: &str) -> (u16, Vec<u8>) {
    request(serving, "GET", path, "", b"")
}

pub fn post(serving: &Serving, path: &str, body: &[u8]) -> (u16, Json) {
    let (status, bytes) = request(serving, "POST", path, "", body);
    let text = String::from_utf8(bytes).expect("text");
    (status, if text.starts_with('{') { Json::of(&text) } else { Json::Text(text) })
}

pub fn state(serving: &Serving) -> Json {
    let (status, bytes) = get(serving, "state");
    assert_eq!(status, 200);
    Json::of(&String::from_utf8(bytes).expect("text")).get("state").clone()
}
