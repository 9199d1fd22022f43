//! The server: takes requests at the loopback address, a few at a time, and answers each.

use crate::files::disk;
use crate::files::given;
use crate::serve::bench::Bench;
use crate::serve::guard::Guard;
use crate::serve::http::{self, Trouble};
use crate::serve::message::{Reply, Request};
use crate::serve::routes;
use std::io::{self, Write};
use std::net::{Ipv4Addr, TcpListener, TcpStream};
use std::sync::atomic::{AtomicUsize, Ordering};
use std::sync::{Arc, Mutex, PoisonError};
use std::thread;
use std::time::Duration;

/// So many requests are answered at a time; a browser needs six.
const MOST_AT_ONCE: usize = 32;

/// What all requests share.
struct Shared {
    bench: Mutex<Bench>,
    guard: Guard,
    at_once: AtomicUsize,
}

/// Serves the page until the program is ended; a profile's file may stand in it from the start.
pub fn serve(profile: Option<&str>, out: &mut dyn Write) -> io::Result<Result<(), String>> {
    let bench = match profile.map(|name| disk::profile(name).map(|text| (name, text))) {
        Some(Err(advice)) => return Ok(Err(advice)),
        Some(Ok((name, text))) => {
            if let Some(remark) = given::emptiness(name, &text) {
                writeln!(io::stderr(), "desk: {remark}; the page takes one")?;
            }
            Bench::with_profile(name, text)
        }
        None => Bench::default(),
    };
    // the loopback address alone, and a port that the system has free
    let listener = TcpListener::bind((Ipv4Addr::LOCALHOST, 0))?;
    let guard = Guard::new(listener.local_addr()?.port())?;
    writeln!(out, "The desk is at {}", guard.address())?;
    writeln!(out, "It answers this machine alone, and only whoever has this address. Ctrl-C ends it; save the day first.")?;
    out.flush()?;
    let shared = Arc::new(Shared { bench: Mutex::new(bench), guard, at_once: AtomicUsize::new(0) });
    for stream in listener.incoming() {
        match stream {
            Ok(stream) => take(&shared, stream),
            // one that went away before it was taken, or no room for more just now
            Err(_) => thread::sleep(Duration::from_millis(10)),
        }
    }
    Ok(Ok(()))
}

/// Answers a request beside the others, or not at all where there are too many.
fn take(shared: &Arc<Shared>, stream: TcpStream) {
    if shared.at_once.fetch_add(1, Ordering::SeqCst) >= MOST_AT_ONCE {
        shared.at_once.fetch_sub(1, Ordering::SeqCst);
        return;
    }
    let of_thread = Arc::clone(shared);
    let begun = thread::Builder::new().spawn(move || {
        // whoever asked has gone away, and needs no answer
        let _ = answer(&of_thread, &stream);
        of_thread.at_once.fetch_sub(1, Ordering::SeqCst);
    });
    if begun.is_err() {
        shared.at_once.fetch_sub(1, Ordering::SeqCst);
    }
}

fn answer(shared: &Shared, stream: &TcpStream) -> io::Result<()> {
    let reply = match http::read(stream, &shared.guard) {
        Ok(request) => routed(shared, &request),
        Err(Trouble::Gone(error)) => return Err(error),
        Err(Trouble::Refused(reply)) => reply,
    };
    http::write(stream, &reply)
}

fn routed(shared: &Shared, request: &Request) -> Reply {
    // a request that failed halfway has changed nothing that a replay does not make anew
    let mut bench = shared.bench.lock().unwrap_or_else(PoisonError::into_inner);
    routes::reply(&mut bench, request)
}
