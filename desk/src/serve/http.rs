//! As much of HTTP as a page needs, bounded in every size and time.

use crate::serve::guard::Guard;
use crate::serve::message::{Head, Reply, Request};
use std::io::{self, Read, Write};
use std::net::{Shutdown, TcpStream};
use std::time::{Duration, Instant};

/// A request line and its headers together.
const MOST_OF_HEAD: usize = 16 * 1024;
/// What is sent with a request: a day of 100,000 records.
pub const MOST_OF_BODY: usize = 100_000 * mbrumzheg::RECORD16_SIZE;
/// From the first byte to the last.
const PATIENCE: Duration = Duration::from_secs(10);
/// For what comes after an answer.
const MOMENT: Duration = Duration::from_millis(500);

/// Why there is no request.
pub enum Trouble {
    /// Nobody is there any more.
    Gone(io::Error),
    /// Refused with this answer.
    Refused(Reply),
}

impl From<io::Error> for Trouble {
    fn from(error: io::Error) -> Trouble {
        match error.kind() {
            io::ErrorKind::WouldBlock | io::ErrorKind::TimedOut => {
                Trouble::Refused(Reply::text(408, "refused: the request took too long\n"))
            }
            _ => Trouble::Gone(error),
        }
    }
}

fn refused<T>(status: u16, words: &str) -> Result<T, Trouble> {
    Err(Trouble::Refused(Reply::text(status, words)))
}

/// Reads a request; what it sends along is read only after the guard has admitted it.
pub fn read(stream: &TcpStream, guard: &Guard) -> Result<Request, Trouble> {
    stream.set_write_timeout(Some(PATIENCE))?;
    let end = Instant::now() + PATIENCE;
    let mut bytes = Vec::new();
    let length = loop {
        if let Some(at) = bytes.windows(4).position(|four| four == b"\r\n\r\n") {
            break at;
        }
        if bytes.len() > MOST_OF_HEAD {
            return refused(431, "refused: the request's head is too long\n");
        }
        more(stream, &mut bytes, end)?;
    };
    let Some(head) = head_of(&bytes[..length]) else { return refused(400, "refused: that is no request\n") };
    let path = guard.admitted(&head).map_err(Trouble::Refused)?;
    let is_post = match head.method.as_str() {
        "GET" => false,
        "POST" => true,
        _ => return refused(405, "refused: the desk takes GET and POST\n"),
    };
    let body = body(stream, &head, bytes.split_off(length + 4), end)?;
    let query = head.target.split_once('?').map_or("", |(_, query)| query).to_string();
    Ok(Request { is_post, path, query, body })
}

fn body(stream: &TcpStream, head: &Head, mut bytes: Vec<u8>, end: Instant) -> Result<Vec<u8>, Trouble> {
    if head.header("transfer-encoding").is_some() {
        return refused(411, "refused: the request does not say its length\n");
    }
    let length = head.header("content-length").unwrap_or("0");
    if length.is_empty() || !length.bytes().all(|byte| byte.is_ascii_digit()) {
        return refused(400, "refused: the length is no number\n");
    }
    let Some(length) = length.parse::<usize>().ok().filter(|length| *length <= MOST_OF_BODY) else {
        return refused(413, "refused: more than a day of 100,000 records; for such a day use desk report\n");
    };
    while bytes.len() < length {
        more(stream, &mut bytes, end)?;
    }
    bytes.truncate(length);
    Ok(bytes)
}

/// Reads what has come, or waits for it as long as there is time.
fn more(mut stream: &TcpStream, bytes: &mut Vec<u8>, end: Instant) -> Result<(), Trouble> {
    let left = end.saturating_duration_since(Instant::now());
    if left.is_zero() {
        return Err(io::Error::from(io::ErrorKind::TimedOut).into());
    }
    stream.set_read_timeout(Some(left))?;
    let mut piece = [0; 16 * 1024];
    match stream.read(&mut piece)? {
        0 => Err(Trouble::Gone(io::ErrorKind::UnexpectedEof.into())),
        length => {
            bytes.extend_from_slice(&piece[..length]);
            Ok(())
        }
    }
}

/// The request line and the headers, each name in small letters and none twice.
fn head_of(bytes: &[u8]) -> Option<Head> {
    let text = std::str::from_utf8(bytes).ok()?;
    let mut lines = text.split("\r\n");
    let first: Vec<&str> = lines.next()?.split(' ').collect();
    let [method, target, "HTTP/1.1" | "HTTP/1.0"] = first[..] else { return None };
    let mut headers: Vec<(String, String)> = Vec::new();
    for line in lines {
        let (name, value) = line.split_once(':')?;
        let name = name.to_ascii_lowercase();
        let is_word = !name.is_empty() && name.bytes().all(|byte| byte.is_ascii_alphanumeric() || byte == b'-' || byte == b'_');
        if !is_word || headers.iter().any(|(own, _)| *own == name) {
            return None;
        }
        headers.push((name, value.trim().to_string()));
    }
    Some(Head { method: method.to_string(), target: target.to_string(), headers })
}

/// Writes an answer, and lets whoever asked read it before the connection ends.
pub fn write(mut stream: &TcpStream, reply: &Reply) -> io::Result<()> {
    let mut head = format!("HTTP/1.1 {} {}\r\nContent-Type: {}\r\n", reply.status, reason(reply.status), reply.kind);
    head.push_str(&format!("Content-Length: {}\r\nConnection: close\r\nCache-Control: no-store\r\n", reply.body.len()));
    head.push_str("X-Content-Type-Options: nosniff\r\nReferrer-Policy: no-referrer\r\nCross-Origin-Resource-Policy: same-origin\r\n");
    reply.headers.iter().for_each(|header| head.push_str(&format!("{header}\r\n")));
    head.push_str("\r\n");
    stream.write_all(head.as_bytes())?;
    stream.write_all(&reply.body)?;
    stream.shutdown(Shutdown::Write)?;
    // what of the request was not read is let pass for a moment, since an end with unread bytes would take the answer away
    stream.set_read_timeout(Some(MOMENT))?;
    let end = Instant::now() + MOMENT;
    let mut piece = [0; 16 * 1024];
    while Instant::now() < end && stream.read(&mut piece)? > 0 {}
    Ok(())
}

fn reason(status: u16) -> &'static str {
    match status {
        200 => "OK",
        400 => "Bad Request",
        403 => "Forbidden",
        404 => "Not Found",
        405 => "Method Not Allowed",
        408 => "Request Timeout",
        409 => "Conflict",
        411 => "Length Required",
        413 => "Content Too Large",
        422 => "Unprocessable Content",
        _ => "Request Header Fields Too Large",
    }
}
