//! The header has the sizes of the library that is linked, and the refusals' numbers.
use tsuvrankhe::{Refusal, Scanner, Tables, MOST_PHRASES};

const HEADER: &str = include_str!("../../include/tsuvrankhe.h");

/// The number that the header defines a name as.
fn defined(name: &str) -> usize {
    let start = format!("#define {name} ");
    let line = HEADER.lines().find_map(|line| line.strip_prefix(&start));
    line.and_then(|number| number.parse().ok())
        .unwrap_or_else(|| panic!("the header defines no {name}"))
}

#[test]
fn sizes() {
    assert_eq!(defined("TSUVRANKHE_TABLE_SIZE"), Tables::size());
    assert_eq!(defined("TSUVRANKHE_RUNNING_SIZE"), Scanner::size());
    assert_eq!(defined("TSUVRANKHE_MOST_PHRASES"), MOST_PHRASES);
}

#[test]
fn numbers() {
    let names = HEADER.lines().filter_map(|line| {
        let (name, rest) = line.trim().split_once(" = ")?;
        let name = name.strip_prefix("TSUVRANKHE_")?;
        let digits = rest.split(|c: char| !c.is_ascii_digit()).next()?;
        Some((name.replace('_', ""), digits.parse::<u32>().ok()?))
    });
    // A refusal's name in Rust is its name in C without the underscores.
    let ours = (0..=12).map(|number| match Refusal::numbered(number) {
        Some(refusal) => (format!("{refusal:?}").to_uppercase(), number),
        None => ("DONE".to_owned(), number),
    });
    assert!(names.eq(ours));
}
