//! The header for C has each refusal's sentence in the crate's words, and the crate's sizes of records.
use mbrumzheg::{Column, Refusal, Time, RECORD16_SIZE, RECORD_SIZE};

const HEADER: &str = include_str!("../../../include/mbrumzheg.h");
const NUMBERS: &str = include_str!("../../../include/mbrumzheg_numbers.h");
const WORDS: &str = include_str!("../../../include/mbrumzheg_words.h");

#[test]
fn sentences_are_the_headers() {
    for refusal in Refusal::ALL {
        let line = WORDS.lines().find(|line| line.ends_with(&format!(": return \"{}\";", refusal.sentence())));
        let name = line.unwrap_or_else(|| panic!("{refusal}")).trim_start().split([' ', ':']).nth(1).expect("a name");
        let numbered = [name, "=", &refusal.number().to_string()];
        let of_line = |line: &str| line.replace(',', " ").split_whitespace().take(3).eq(numbered);
        assert!(NUMBERS.lines().any(of_line), "{name} {}", refusal.number());
    }
}

#[test]
fn columns_have_the_headers_words() {
    for column in Column::ALL {
        let name = WORDS.lines().find(|line| line.ends_with(&format!(": return \"{column}\";"))).unwrap_or_else(|| panic!("{column}"));
        let spelled = format!("{column:?}").to_uppercase();
        assert_eq!(
            name.split([' ', ':']).find(|word| word.starts_with("MBRUMZHEG_COLUMN_")).map(|word| word[17..].replace('_', "")),
            Some(spelled)
        );
    }
}

#[test]
fn a_record_has_as_many_bytes() {
    assert!(HEADER.contains(&format!("#define MBRUMZHEG_RECORD_BYTES {RECORD_SIZE}\n")));
    assert!(HEADER.contains(&format!("#define MBRUMZHEG_RECORD16_BYTES {RECORD16_SIZE}\n")));
    assert!(HEADER.contains(&format!("#define MBRUMZHEG_LAST_TIME {}\n", Time::LAST.ms())));
    assert!(HEADER.contains(&format!("#define MBRUMZHEG_LAST_STAMP {}\n", Time::LAST.us())));
}
