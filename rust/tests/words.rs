//! Values as text and back.
use mbrumzheg::{Contracts, Identity, Level, Premium, Refusal, Reports, Reset, Root, Time, Unit, UnitOfRoot, Verdict};
use std::error::Error;
use std::fmt::{Debug, Display};
use std::str::FromStr;

/// A value's text gives the value again.
fn comes_back<T: Display + FromStr + PartialEq + Debug>(value: T)
where
    T::Err: Debug,
{
    assert_eq!(value.to_string().parse::<T>().unwrap_or_else(|error| panic!("{value}: {error:?}")), value);
}

/// None of these texts is a value, and each for its form alone.
fn none_of<T: FromStr<Err = mbrumzheg::ParseError> + Debug>(texts: &[&str]) {
    for text in texts {
        let error = text.parse::<T>().expect_err(text);
        assert!(error.source().is_none(), "'{text}': {error}");
    }
}

/// The refusal of a text whose number is out of range.
fn refused<T: FromStr<Err = mbrumzheg::ParseError> + Debug>(text: &str) -> Refusal {
    let error = text.parse::<T>().expect_err(text);
    let source: Option<&Refusal> = error.source().and_then(|source| source.downcast_ref());
    *source.unwrap_or_else(|| panic!("'{text}': {error}"))
}

#[test]
fn what_is_written_is_read_again() {
    for n in (0..86_400_000).step_by(7_919).chain([1, 999, 1_000, 59_999, 60_000, 3_599_999, 86_399_999]) {
        comes_back(Time::from_ms(n).expect("a time"));
        comes_back(Time::from_us(n * 1_000 + n % 1_000).expect("a time"));
    }
    for us in [1, 999, 1_001, 10_250, 86_399_999_999] {
        comes_back(Time::from_us(us).expect("a time"));
    }
    for n in (1..=100_000_000).step_by(9_973).chain([10, 100, 1_000, 10_000, 99_999_999, 100_000_000]) {
        comes_back(Premium::from_ten_thousandths(n).expect("a premium"));
    }
    for n in (1..=1_000_000).step_by(997).chain([1_000_000]) {
        comes_back(Contracts::new(n).expect("contracts"));
    }
    for root in (0..64).map(|n| Root::new(n).expect("a root")) {
        comes_back(root);
        comes_back(Level::Root(root));
    }
    comes_back(Level::Firm);
    for n in [0, 1, 9_999, 65_535] {
        comes_back(Identity::new(n).expect("an identity"));
    }
    for n in 1..=16 {
        comes_back(Reports::new(n).expect("reports"));
    }
    UnitOfRoot::ALL.into_iter().for_each(comes_back);
    Reset::ALL.into_iter().for_each(comes_back);
    [Verdict::Free, Verdict::FirmLocked, Verdict::RootLocked].into_iter().for_each(comes_back);
}

#[test]
fn texts_are_as_a_person_writes_them() {
    let premium = |n| Premium::from_ten_thousandths(n).expect("a premium").to_string();
    assert_eq!([1, 100, 150, 70_000, 100_000_000].map(premium), ["0.0001", "0.01", "0.0150", "7.00", "10000.00"]);
    assert_eq!(Time::from_ms(34_200_250).expect("a time").to_string(), "09:30:00.250");
    assert_eq!(Time::from_us(34_200_250_125).expect("a time").to_string(), "09:30:00.250125");
    assert_eq!("09:30:00.0001".parse::<Time>().map(Time::us), Ok(34_200_000_100));
    assert_eq!("9:05:00.5".parse::<Time>(), Time::from_ms(32_700_500).map_err(|_| unreachable!("a time")));
    for text in ["7", "7.0", "$7.0000", "07.00"] {
        assert_eq!(text.parse::<Premium>().map(Premium::ten_thousandths), Ok(70_000), "{text}");
    }
    assert_eq!(format!("[{:>10}] [{:<6}]", Premium::from_ten_thousandths(5).expect("a premium"), Reset::Both), "[    0.0005] [both  ]");
    assert_eq!(format!("[{:>14}] [{:04}]", Time::START, Contracts::new(7).expect("contracts")), "[  00:00:00.000] [0007]");
}

#[test]
fn other_texts_are_no_values() {
    none_of::<Time>(&[
        "",
        "9",
        "09:60",
        "09:30:60",
        "09:30:00.",
        "09:30:00.0000000",
        "09:30:00:00",
        "+9:30",
        "009:30",
        " 09:30",
        "9:",
        ":30",
    ]);
    none_of::<Premium>(&["", "$", ".5", "7.", "7.00000", "7,00", "-7", "+7", "7e2", " 7", "7.5.0", "1234567890123"]);
    none_of::<Contracts>(&["", "1.0", "+1", "-1", "1,000", "one", " 1", "18446744073709551616"]);
    none_of::<Root>(&["", "x", "+1", "-1"]);
    none_of::<Identity>(&["", "x", "+1", "0x1"]);
    none_of::<Reports>(&["", "one", " 1", "1.0"]);
    none_of::<Level>(&["", "root", "root x", "root  1", "Firm", "firm "]);
    none_of::<UnitOfRoot>(&["", "call", "calls front", "front call", "Call front"]);
    none_of::<Reset>(&["", "all", "0"]);
    none_of::<Verdict>(&["", "locked", "firm"]);
}

#[test]
fn a_number_out_of_range_has_its_refusal() {
    assert_eq!(refused::<Time>("24:00"), Refusal::BadTime);
    assert_eq!([refused::<Time>("99:59:59.999999"), refused::<Time>("24:00:00.000001")], [Refusal::BadTime; 2]);
    assert_eq!([refused::<Premium>("0"), refused::<Premium>("10000.0001")], [Refusal::BadAmount; 2]);
    assert_eq!([refused::<Contracts>("0"), refused::<Contracts>("1000001")], [Refusal::BadAmount; 2]);
    assert_eq!([refused::<Reports>("0"), refused::<Reports>("17")], [Refusal::BadAmount; 2]);
    assert_eq!([refused::<Root>("64"), refused::<Level>("root 64"), refused::<Identity>("65536")], [Refusal::Unknown; 3]);
}

#[test]
fn an_error_has_what_stands_behind_it_as_its_source() {
    let refused = Unit::new().arm("ABCD,abs_vol,XYZ,0").expect_err("a limit of 0");
    let why = refused.source().expect("a source");
    assert_eq!(why.downcast_ref(), Some(&refused.why));
    assert_eq!(why.source().and_then(|source| source.downcast_ref()), Some(&Refusal::OutOfRange));
    assert!(Refusal::OutOfRange.source().is_none());
}
