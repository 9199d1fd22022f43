//! The crate and the header for C have the same names for the same numbers.
use mbrumzheg::{Column, Level, Refusal, Reset, Root, UnitOfRoot, Verdict, ACCOUNT_SIZE, PROFILE_MOST, SIZE};

/// A name as C spells it: `NoRoom` is `MBRUMZHEG_NO_ROOM`, `ResetTE` is `MBRUMZHEG_RESET_TE`.
fn in_c(name: &str) -> String {
    let mut text = "MBRUMZHEG".to_string();
    let mut in_word = true;
    for letter in name.chars() {
        if letter.is_ascii_uppercase() && in_word {
            text.push('_');
        }
        in_word = letter.is_ascii_lowercase();
        text.push(letter.to_ascii_uppercase());
    }
    text
}

#[test]
fn rust_and_c_have_the_same_names_and_numbers() {
    let header = include_str!("../../../include/mbrumzheg.h");
    let numbers = include_str!("../../../include/mbrumzheg_numbers.h");
    let has = |name: String, number: u64| {
        let known = numbers
            .split([',', '{', '\n'])
            .any(|part| part.split_whitespace().take(3).eq([in_c(&name).as_str(), "=", &number.to_string()]));
        assert!(known, "{name} is {number} in Rust, so {} = {number} should be in the header", in_c(&name));
    };
    Refusal::ALL.iter().for_each(|refusal| has(format!("{refusal:?}"), refusal.number()));
    UnitOfRoot::ALL.iter().for_each(|unit| has(format!("{unit:?}"), unit.number()));
    Reset::ALL.iter().for_each(|reset| has(format!("Reset{reset:?}"), reset.number()));
    for verdict in [Verdict::Free, Verdict::FirmLocked, Verdict::RootLocked] {
        has(format!("{verdict:?}"), verdict.number());
    }
    has("LevelRoot".to_string(), Level::Root(Root::new(5).expect("a root number")).number());
    has("LevelFirm".to_string(), Level::Firm.number());
    Column::ALL.iter().for_each(|column| has(format!("Column{column:?}"), column.number()));
    assert!(header.contains(&format!("#define MBRUMZHEG_SIZE {SIZE}\n")));
    assert!(header.contains(&format!("#define MBRUMZHEG_ACCOUNT_SIZE {ACCOUNT_SIZE}\n")));
    assert!(header.contains(&format!("#define MBRUMZHEG_PROFILE_MOST {PROFILE_MOST}\n")));
}
