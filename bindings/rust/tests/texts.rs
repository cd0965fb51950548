//! Numbers, texts and version are the repository's: its README's table, and its C header.
use std::error::Error;
use std::fs;

use vikkozhan::{check_version, version, Refusal, HEADER_VERSION};

const NAMED: [Refusal; 10] = [
    Refusal::BadLm,
    Refusal::BadChannels,
    Refusal::BadStart,
    Refusal::BadEnd,
    Refusal::BadDownsample,
    Refusal::CountFull,
    Refusal::BadLag,
    Refusal::BadFilter,
    Refusal::BadHistory,
    Refusal::ShortPcm,
];

/// A file of the repository that the crate is part of.
fn repository(name: &str) -> String {
    let path = format!("{}/../../{name}", env!("CARGO_MANIFEST_DIR"));
    fs::read_to_string(&path).unwrap_or_else(|error| panic!("{path}: {error}"))
}

#[test]
fn numbers_and_texts_are_the_readmes() {
    let readme = repository("README.md");
    for (number, refusal) in (1..).zip(NAMED) {
        assert_eq!(refusal.number(), number);
        let row = format!("| {number} | {} | {}", refusal.reason(), refusal.remedy());
        assert!(readme.contains(&row), "not a row of README.md: {row}");
        let said: Box<dyn Error> = Box::new(refusal);
        assert!(said.to_string().contains(refusal.reason()));
        assert!(said.to_string().contains(refusal.remedy()));
    }
}

#[test]
fn names_and_reasons_are_the_headers() {
    let header = repository("include/vikkozhan.h");
    for refusal in NAMED {
        let name = format!("{refusal:?}");
        let capital = |c: char| if c.is_uppercase() { format!("_{c}") } else { c.to_string() };
        let name = name.chars().map(capital).collect::<String>().to_uppercase();
        let line = format!("VIKKOZHAN{name} = {},", refusal.number());
        assert!(header.contains(&line), "not in the header: {line}");
        assert!(header.contains(&format!("\"{}\"", refusal.reason())));
    }
}

#[test]
fn an_unknown_number_is_said() {
    let later = Refusal::Other(12);
    assert_eq!(later.number(), 12);
    assert!(later.to_string().contains("(number 12)"));
    assert!(NAMED.iter().all(|known| known.reason() != later.reason()));
}

#[test]
fn version_is_the_headers() {
    let header = repository("include/vikkozhan.h");
    assert!(header.contains(&format!("\"vikkozhan {HEADER_VERSION}\"")));
    assert_eq!(version().major, HEADER_VERSION.major);
    assert_eq!(check_version(), Ok(()));
}
