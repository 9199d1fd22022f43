//! The desk misreads nothing: a line that it does not understand whole changes nothing, and what it understood is said.
#[path = "common/spoken.rs"]
mod spoken;
use spoken::Place;

#[test]
fn a_line_over_the_limit_is_refused_whole() {
    let place = Place::new("long");
    let answer = "the line has more than 65,536 bytes, so nothing of it was done; type a shorter one";
    for (before, filling) in [("#", 65_535), ("#", 65_536), ("#", 200_000), ("lock firm ", 65_535), ("", 65_536)] {
        let line = format!("{before}{}lock firm", "a".repeat(filling));
        let (text, ended) = place.spoken(&format!("arm @profile\n{line}\nstatus\n"));
        assert_eq!((text.matches(answer).count(), ended.not_done), (1, 1), "{before} and {filling}: {text}");
        assert!(text.contains("firm ABCD: free"), "{text}");
    }
    // the longest line that is taken, with either end and with none
    for end in ["", "\n", "\r\n"] {
        let line = format!("# {}{end}", "a".repeat(65_534 - end.len().saturating_sub(1)));
        let (text, ended) = place.spoken(&format!("arm @profile\n{line}"));
        assert_eq!((text.contains("so nothing of it"), ended.not_done), (false, 0), "{end:?}");
    }
}

#[test]
fn a_comma_stands_between_thousands_alone() {
    let place = Place::new("commas");
    for line in ["7,00 5", "70,00 5", "1,00,0 5", ",5 5", "0,500 5", "7.00 1,5", "7.00 ,500", "7.00 1,00,0", "7.00 1000,000"] {
        let (answer, not_done) = place.said(&format!("offer 0ms XYZ call front {line}"));
        assert!(answer.ends_with("; a comma stands between thousands alone, like 1,000") && not_done == 1, "{line}: {answer}");
    }
    for time in ["1,5s", "1,00ms", ",5s", "09:30:1,5", "+1,5s"] {
        let (answer, not_done) = place.said(&format!("lock {time} firm"));
        assert!(answer.starts_with(&format!("'{time}' is no time; ")) && not_done == 1, "{time}: {answer}");
    }
    let (answer, _) = place.said("offer 1,000ms XYZ call front $1,000.50 12,345");
    assert_eq!(answer, "granted all 12,345 at $1000.50  [1 0 0 12345 0 0]");
}

#[test]
fn every_answer_to_an_offer_or_a_sending_repeats_premium_and_contracts() {
    let place = Place::new("repeats");
    let offer = "offer 5ms XYZ call front 7 2,000";
    let away = "away 5ms XYZ call front 7.5 2,000 9 1";
    for (before, line, wanted) in [
        ("", offer, "granted all 2,000 at $7.00  ["),
        ("offer 0ms XYZ call front 1 99000\n", offer, "granted 1,000 of 2,000 at $7.00, cut by "),
        ("lock firm\n", offer, ", granted 0 of 2,000 at $7.00  ["),
        ("order 6ms XYZ\n", offer, "; asked for: 2,000 at $7.00; type 6ms or a later time  ["),
        ("", away, "order 9 sent away: 2,000 of XYZ call front at $7.50, 1 report allowed"),
        ("lock firm\n", away, ", order 9 not sent: 2,000 at $7.50  ["),
        ("order 6ms XYZ\n", away, "; asked for: 2,000 at $7.50; type 6ms or a later time  ["),
    ] {
        let (text, _) = place.spoken(&format!("arm @profile\n{before}{line}\n"));
        let answer = text.lines().last().unwrap_or_default();
        assert!(answer.contains(wanted), "{before}{line}: {answer}");
    }
}

#[test]
fn words_of_other_tools_lead_to_the_right_command() {
    let place = Place::new("words");
    let unlock = "type order TIME ROOT reset t to unlock a root, or order TIME ROOT reset e to unlock the firm";
    for (line, wanted) in [
        ("unlock", unlock),
        ("unlock XYZ", unlock),
        ("UNLOCK firm", unlock),
        ("unlok firm", unlock),
        ("load profile", "type arm FILE to take the profile in FILE"),
        ("reset XYZ", "a reset comes with an order: type order TIME ROOT [reset symbol|firm|both|t|e|te]"),
        ("reset", "a reset comes with an order: type order TIME ROOT [reset symbol|firm|both|t|e|te]"),
        ("loc XYZ", "type help for the list (did you mean lock?)"),
    ] {
        let word = line.split(' ').next().unwrap_or_default();
        assert_eq!(place.said(line), (format!("'{word}' is no command; {wanted}"), 1));
    }
}
