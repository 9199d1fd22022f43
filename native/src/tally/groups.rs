//! The groups of what has to come up.

use super::{accounts, away, lifted, register, room, units};

/// What has to come up at least once, beside each refusal of a call on memory, in groups that are printed a line each.
pub const WANTED: [(&str, &[&str]); 37] = [
    ("calls", &["arm", "clear", "order", "lockout", "offer", "send", "report", "close", "remaining", "status", "text", "profile"]),
    ("offers", &["granted whole", "cut above 0", "cut to 0", "under a locked firm", "under a locked root"]),
    ("trips", &["of a root", "of the firm", "of both", "of an absolute rule just reached"]),
    ("resets", &["none", "SYMBOL", "FIRM", "BOTH", "T", "E", "T and E"]),
    ("lockouts", &["of a root", "of the firm"]),
    ("offers when a window", &["ended 1 ms ago", "ends", "ends in 1 ms"]),
    ("armed with", &["256 rules", "64 roots", "10 firm rules", "6 rules on a unit", "firm rules alone"]),
    ("damaged states", &["sound", "unsound", "with mark 0", "taken back"]),
    ("offers on a full log when the oldest entry", &["left 1 ms ago", "leaves", "leaves in 1 ms"]),
    ("lent numbers", &["0", "1", "2762", "other short", "2763", "2764", "more"]),
    ("profiles out", &["into just enough room", "into more", "room one byte short", "shorter", "short memory", "not armed", "unsound"]),
    ("Remaining of", units::ASKED),
    ("offers while another unit of the rule has", units::BESIDE),
    ("T or E lifts", lifted::LIFTED),
    ("offers while a total is at its limit or above", lifted::USED),
    ("SYMBOL, FIRM or BOTH leaves of the log", room::LEFT),
    ("damaged entries", room::FLAGLESS),
    ("damaged registers and totals", register::FOUND),
    ("offers refused with 15", &["by entries alone", "by kept places too"]),
    ("sent", away::SENT),
    ("not sent", away::NOT_SENT),
    ("reports", away::REPORTED),
    ("reports trip", away::TRIPPED),
    ("reports refused", away::NOT_REPORTED),
    ("closings", away::CLOSED),
    ("accounted", accounts::DONE),
    ("accounted at verdict", accounts::VERDICTS),
    ("accounted beside", accounts::BEFORE),
    ("accounted, 1 for", accounts::SHORT),
    ("accounted, 2 for", accounts::UNSOUND),
    ("figures of a root that rose", accounts::COLUMNS),
    ("figures of the firm that rose", accounts::COLUMNS),
    ("figures that reached the most", accounts::COLUMNS),
    ("21 for a root's", accounts::PASSED),
    ("21 for the firm's", accounts::PASSED_FIRM),
    ("accounted, and no figure rose", accounts::NOWHERE),
    ("accounted, refused beside a figure at the most with", accounts::OTHERS),
];
/// The groups by their places.
pub const CALLS: usize = 0;
pub const OFFERS: usize = 1;
pub const TRIPS: usize = 2;
pub const RESETS: usize = 3;
pub const LOCKOUTS: usize = 4;
pub const WINDOWS: usize = 5;
pub const PROFILES: usize = 6;
pub const DAMAGED: usize = 7;
pub const OLDEST: usize = 8;
pub const LENT: usize = 9;
pub const OUT: usize = 10;
pub const ASKED: usize = 11;
pub const BESIDE: usize = 12;
pub const LIFTED: usize = 13;
pub const USED: usize = 14;
pub const LEFT: usize = 15;
pub const FLAGLESS: usize = 16;
pub const FOUND: usize = 17;
pub const FULL: usize = 18;
/// Sendings, and the five groups after them.
pub const AWAY: usize = 19;
/// Accounted calls that were done, and the eleven groups after them.
pub const ACCOUNTS: usize = 25;
