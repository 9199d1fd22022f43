//! The served desk: who may ask, and what bad input does.
#[path = "common/asking.rs"]
mod asking;
mod browser;
mod common;
#[path = "common/serving.rs"]
mod serving;
use asking::{get, post, raw, request, state};
use browser::json::Json;
use common::{profile, Dice};
use serving::{workplace, Serving};
use std::fs;
use std::io::Write;
use std::net::{Shutdown, TcpStream};
use std::time::{Duration, Instant};

const PROFILE: &str = "ABCD,rate_vol,XYZ,500,1000\nABCD,abs_vol,QQQ,5\n";

#[test]
fn only_this_machine_this_page_and_this_token_are_answered() {
    let place = workplace("guard");
    let serving = Serving::begin(&place, &[]);
    let (port, token) = (serving.port, serving.token.clone());
    assert!(token.len() == 32 && token.bytes().all(|byte| byte.is_ascii_hexdigit()), "{token}");
    assert_eq!(post(&serving, "arm", PROFILE.as_bytes()).0, 200);
    let before = state(&serving);
    let own = format!("127.0.0.1:{port}");
    let ask = |path: &str, headers: &str| {
        let head = format!("POST {path} HTTP/1.1\r\n{headers}Content-Length: 13\r\n\r\n");
        raw(port, &[head.as_bytes(), b"lock now firm"].concat()).0
    };
    let path = format!("/{token}/line");
    let other = format!("/{}/line", "0".repeat(32));
    for (path, headers) in [
        (path.as_str(), String::new()),
        (&path, format!("Host: localhost:{port}\r\n")),
        (&path, format!("Host: evil.example:{port}\r\n")),
        (&path, "Host: 127.0.0.1\r\n".to_string()),
        (&path, format!("Host: {own}\r\nOrigin: http://evil.example\r\n")),
        (&path, format!("Host: {own}\r\nOrigin: null\r\n")),
        (&path, format!("Host: {own}\r\nOrigin: https://{own}\r\n")),
        (&path, format!("Host: {own}\r\nOrigin: http://localhost:{port}\r\n")),
        (&path, format!("Host: {own}\r\nSec-Fetch-Site: cross-site\r\n")),
        (&path, format!("Host: {own}\r\nSec-Fetch-Site: same-site\r\n")),
        (&other, format!("Host: {own}\r\n")),
        ("/line", format!("Host: {own}\r\n")),
        ("//line", format!("Host: {own}\r\n")),
        (&path[..path.len() - 6], format!("Host: {own}\r\n")),
        (&path.to_uppercase(), format!("Host: {own}\r\n")),
    ] {
        assert_eq!(ask(path, &headers), 403, "{path} {headers}");
    }
    for headers in [format!("Host: {own}\r\nHost: {own}\r\n"), format!("Host: {own}\r\n folded: x\r\n"), "Host\r\n".to_string()] {
        assert_eq!(ask(&path, &headers), 400, "{headers}");
    }
    assert_eq!(state(&serving), before, "what is refused changes nothing");
    assert_eq!(ask(&path, &format!("Host: {own}\r\nOrigin: http://{own}\r\nSec-Fetch-Site: same-origin\r\n")), 200);
    assert_eq!(state(&serving).get("place").number(), 1);
    fs::remove_dir_all(place).expect("removed");
}

#[test]
fn another_desk_has_another_token_and_the_loopback_address_alone() {
    let place = workplace("two");
    let (one, two) = (Serving::begin(&place, &[]), Serving::begin(&place, &[]));
    assert_ne!((one.port, &one.token), (two.port, &two.token));
    let listening = fs::read_to_string("/proc/net/tcp").unwrap_or_default() + &fs::read_to_string("/proc/net/tcp6").unwrap_or_default();
    let of_port = format!(":{:04X} ", one.port);
    let bound: Vec<&str> =
        listening.lines().filter_map(|line| line.split_whitespace().nth(1)).filter(|own| format!("{own} ").ends_with(&of_port)).collect();
    assert!(bound.iter().all(|own| own.starts_with("0100007F:")), "{bound:?}");
    fs::remove_dir_all(place).expect("removed");
}

#[test]
fn bad_input_gets_an_error_and_nothing_is_lost() {
    let place = workplace("bad");
    let serving = Serving::begin(&place, &[]);
    let advice = |(status, answer): (u16, Json)| {
        assert_eq!(status, 422, "{answer:?}");
        answer.get("advice").text().to_string()
    };
    assert!(advice(post(&serving, "line", b"lock now firm")).contains("not armed"));
    assert!(advice(post(&serving, "clear", b"")).contains("not armed") && get(&serving, "active-profile").0 == 409);
    assert!(advice(post(&serving, "back", b"")).contains("no day was cleared"));
    assert!(advice(post(&serving, "arm", b"ABCD,abs_volume,XYZ,5")).contains("the nearest is abs_vol"));
    assert_eq!(post(&serving, "arm?name=my%20profile", PROFILE.as_bytes()).0, 200);
    assert_eq!(state(&serving).get("profile").get("name").text(), "my profile");
    assert_eq!(get(&serving, "active-profile"), (200, PROFILE.as_bytes().to_vec()));
    for line in ["offer 0ms XYZ call front 7.00 450", "order 10ms XYZ", "lock 20ms QQQ"] {
        assert_eq!(post(&serving, "line", line.as_bytes()).0, 200, "{line}");
    }
    assert_eq!(post(&serving, "go", b"2").0, 200);
    let before = state(&serving);
    assert_eq!((before.get("place").number(), before.get("undone").number()), (2, 1));
    for line in [
        &b"offer"[..],
        b"",
        b"quit",
        b"clear",
        b"arm profile",
        b"save x",
        b"profile x",
        b"order 5ms",
        b"\xFF\xFE\x00",
        b"offer x XYZ put front 1 1",
        b"help nothing",
    ] {
        advice(post(&serving, "line", line));
    }
    for place in [&b"4"[..], b"-1", b"", b"x", b"99999999999999999999"] {
        advice(post(&serving, "go", place));
    }
    advice(post(&serving, "arm", PROFILE.as_bytes()));
    advice(post(&serving, "back", b""));
    advice(post(&serving, "replay", &vec![0; 16 * 99_999]));
    assert_eq!(get(&serving, "state?at=1ms").0, 422, "before the clock");
    assert_eq!((get(&serving, "nothing").0, post(&serving, "nothing", b"").0), (404, 404));
    assert_eq!((get(&serving, "../../etc/passwd").0, get(&serving, "page/page.html").0), (404, 404));
    assert_eq!(request(&serving, "PUT", "state", "", b"").0, 405);
    assert_eq!(request(&serving, "POST", "replay", "", &vec![0; 1_600_001]).0, 413);
    assert_eq!(request(&serving, "POST", "line", "Transfer-Encoding: chunked\r\n", b"").0, 411);
    assert_eq!(raw(serving.port, &[b'A'; 40_000]).0, 431);
    assert_eq!(raw(serving.port, b"hello\r\n\r\n").0, 400);
    assert_eq!(raw(serving.port, b"GET / HTTP/2.0\r\n\r\n").0, 400);
    assert_eq!(state(&serving), before, "nothing is lost");
    fs::remove_dir_all(place).expect("removed");
}

#[test]
fn slow_and_many_askers_do_not_hold_the_desk_up() {
    let place = workplace("slow");
    let serving = Serving::begin(&place, &[]);
    // some that say nothing, some that stop in the middle, some that go away
    let idle: Vec<TcpStream> = (0..12)
        .map(|number| {
            let mut stream = TcpStream::connect(("127.0.0.1", serving.port)).expect("connected");
            if number % 3 > 0 {
                stream.write_all(b"POST / HTTP/1.1\r\nContent-Le").expect("sent");
            }
            if number % 3 > 1 {
                stream.shutdown(Shutdown::Both).expect("gone");
            }
            stream
        })
        .collect();
    let begun = Instant::now();
    assert_eq!(post(&serving, "arm", PROFILE.as_bytes()).0, 200);
    assert!(begun.elapsed() < Duration::from_secs(8), "it answers beside them, before it gives them up");
    // more than it takes at once are turned away, and those that hang are given up in time
    let more: Vec<TcpStream> = (0..60).filter_map(|_| TcpStream::connect(("127.0.0.1", serving.port)).ok()).collect();
    while request(&serving, "GET", "state", "", b"").0 != 200 {
        assert!(begun.elapsed() < Duration::from_secs(60), "the desk is held up");
        std::thread::sleep(Duration::from_millis(200));
    }
    drop((idle, more));
    fs::remove_dir_all(place).expect("removed");
}

/// A state has the last lines of a long log, and the others are asked for by place.
#[test]
fn a_long_log_comes_in_pieces() {
    let place = workplace("log");
    let serving = Serving::begin(&place, &[]);
    assert_eq!(post(&serving, "arm", PROFILE.as_bytes()).0, 200);
    assert_eq!(post(&serving, "replay?name=faulty", "record ff\n".repeat(450).as_bytes()).0, 200);
    let places = |log: &Json| (log.list().first().map(|entry| entry.get("place").number()), log.list().len());
    assert_eq!(places(state(&serving).get("log")), (Some(251), 200));
    let before = |to: usize| Json::of(&String::from_utf8(get(&serving, &format!("log?to={to}")).1).expect("text"));
    assert_eq!(places(&before(250)), (Some(51), 200));
    assert_eq!(places(&before(50)), (Some(1), 50));
    assert_eq!(places(&before(0)), (None, 0));
    assert_eq!(places(&before(9_999)), (Some(251), 200));
    fs::remove_dir_all(place).expect("removed");
}

/// Whatever is sent by whoever has the address, the desk goes on, and its state stays well formed.
#[test]
fn random_requests_do_no_harm() {
    let place = workplace("random");
    let serving = Serving::begin(&place, &[]);
    let mut dice = Dice::new(3);
    let paths = [
        "arm",
        "line",
        "line",
        "go",
        "clear",
        "back",
        "replay",
        "check",
        "state",
        "log?to=3",
        "report.html",
        "day.records",
        "active-profile",
        "nothing",
        "arm?name=%41%zz%",
    ];
    for _ in 0..400 {
        let body = match dice.below(5) {
            0 => profile(&mut dice).into_bytes(),
            1 => (0..dice.below(80)).map(|_| dice.below(256) as u8).collect(),
            2 => dice.below(6).to_string().into_bytes(),
            _ => dice
                .pick(&["offer +1ms XYZ call front 1.00 5", "order now QQQ reset both", "lock firm", "status", "remaining", "help"])
                .into(),
        };
        let (status, _) = request(&serving, dice.pick(&["GET", "POST", "POST", "POST"]), dice.pick(&paths), "", &body);
        assert!([200, 404, 409, 422].contains(&status), "{status}");
        let state = state(&serving);
        assert!(state.get("log").list().len() as i64 <= state.get("place").number());
    }
    fs::remove_dir_all(place).expect("removed");
}
