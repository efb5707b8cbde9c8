//! The numbers that the module repeats are those of `include/sfn.h`, under the same names.

const HEADER: &str = include_str!("../../../include/sfn.h");
const CONSTANTS: &str = include_str!("../src/sfn/raw/constants.rs");
const REFUSALS: &str = include_str!("../src/sfn/refusal.rs");

/// Names and numbers of the header's `#define SFN_<prefix>..`, without the prefix.
fn defined(prefix: &str) -> Vec<(&str, u32)> {
    let named = |line: &'static str| {
        let mut words = line.strip_prefix("#define SFN_")?.split_whitespace();
        let name = words.next()?.strip_prefix(prefix)?;
        Some((name, words.next()?.parse().ok()?))
    };
    HEADER.lines().filter_map(named).collect()
}

/// Names and numbers of a source's `pub const NAME: TYPE = NUMBER;`, also where the number stands in `Refusal(..)`.
fn declared(source: &'static str) -> Vec<(&'static str, u32)> {
    let named = |line: &'static str| {
        let line = line.trim_start().strip_prefix("pub const ")?;
        let (name, rest) = line.split_once(": ")?;
        let (_, value) = rest.split_once(" = ")?;
        let digits = value.trim_matches(|c: char| !c.is_ascii_digit());
        Some((name, digits.parse().ok()?))
    };
    source.lines().filter_map(named).collect()
}

#[test]
fn every_refusal_has_its_name() {
    assert_eq!(declared(REFUSALS), defined("REFUSED_"));
    assert_eq!(declared(REFUSALS).len(), 38);
}

#[test]
fn the_constants_are_the_headers() {
    let of_header = defined("");
    let ours = declared(CONSTANTS);
    assert_eq!(ours.len(), 16);
    for constant in ours {
        assert!(of_header.contains(&constant), "{constant:?}");
    }
}
