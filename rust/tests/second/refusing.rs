//! Damaged books: truncated, flipped, swapped, with records doubled, lost and moved. Build's answer is compared with the second judge's.
use crate::book::{from, piece, within, Book, ANYWHERE};
use crate::chance::Chance;
use crate::desk::{Desk, Way};
use crate::expected::Expected;
use crate::judge::judged;
use crate::letters;
use crate::library::{Built, DONE};
use crate::shapes;
use std::collections::BTreeMap;
use std::panic::{self, AssertUnwindSafe};

/// Build's answers so far, counted by number.
#[derive(Default)]
pub struct Answers(BTreeMap<u32, usize>);

/// Builds from these bytes and compares number, offset and memory with the second judge's answer. A book that is accepted reads a letter too, now and
/// then, so that what was read is compared and not only that it was read.
pub fn compare(desk: &mut Desk, chance: &mut Chance, answers: &mut Answers, bytes: &[u8]) {
    let judged = judged(bytes);
    let expected = match &judged {
        Ok(_) => Built {
            number: DONE,
            offset: bytes.len(),
        },
        Err(refused) => Built {
            number: refused.number,
            offset: refused.offset,
        },
    };
    *answers.0.entry(expected.number).or_default() += 1;
    let margin = chance.once_in(2);
    let build = AssertUnwindSafe(|| desk.build(bytes, expected, margin));
    if panic::catch_unwind(build).is_err() {
        panic!("differs: {bytes:02X?}, which is {expected:?}");
    }
    if let Ok(book) = judged.as_ref() {
        assert_eq!(
            book.written(),
            bytes,
            "an accepted book is the written form of what was read"
        );
        if chance.once_in(20) {
            read_a_letter(desk, chance, book);
        }
    }
}

fn read_a_letter(desk: &mut Desk, chance: &mut Chance, book: &Book) {
    let letter = letters::of_some_kind(chance, book, 120);
    let expected = Expected::of(book, &letter);
    let parts = vec![letter.len()];
    let room = expected.phrases();
    let way = Way {
        parts,
        room,
        odd: true,
        margin: false,
    };
    let tables = desk.tables();
    let read = AssertUnwindSafe(|| desk.read(&tables, &letter, &expected, &way));
    if panic::catch_unwind(read).is_err() {
        panic!("differs: book\n{book}letter {letter:?}");
    }
}

/// Every number that the paper gives for books was answered at least once.
pub fn all_were_given(answers: &Answers, numbers: &[u32]) {
    println!("answers by number: {:?}", answers.0);
    for number in numbers {
        assert!(
            answers.0.contains_key(number),
            "no book was answered with {number}"
        );
    }
}

/// A short book with every kind of record.
fn every_kind() -> Book {
    let first = vec![piece(ANYWHERE, "not"), piece(within(1, 9), "print")];
    let second = vec![
        piece(within(0, 224), "a"),
        piece(from(3), "no"),
        piece(within(7, 7), "nor"),
    ];
    Book::of(vec![first, second])
}

/// The whole book, and each of its beginnings.
#[test]
fn truncated_everywhere() {
    let (chance, desk) = (&mut Chance::seeded(11), &mut Desk::new());
    let mut answers = Answers::default();
    let mut books = vec![every_kind()];
    for (_, shape) in shapes::SMALL {
        books.push(shape(chance));
    }
    for book in books {
        let bytes = book.written();
        for length in 0..=bytes.len() {
            compare(desk, chance, &mut answers, &bytes[..length]);
        }
    }
    all_were_given(&answers, &[0, 2]);
}

/// Every byte of a short book with every value; two bytes flipped in longer ones.
#[test]
fn flipped() {
    let (chance, desk) = (&mut Chance::seeded(12), &mut Desk::new());
    let mut answers = Answers::default();
    let bytes = every_kind().written();
    for at in 0..bytes.len() {
        for value in 0..=255 {
            let mut damaged = bytes.clone();
            damaged[at] = value;
            compare(desk, chance, &mut answers, &damaged);
        }
    }
    for (_, shape) in shapes::SMALL.iter().chain(&shapes::WIDE) {
        for _ in 0..20 {
            let bytes = shape(chance).written();
            for _ in 0..150 {
                let mut damaged = bytes.clone();
                for _ in 0..chance.between(1, 2) {
                    let at = chance.below(damaged.len());
                    damaged[at] ^= 1 << chance.below(8);
                }
                compare(desk, chance, &mut answers, &damaged);
            }
        }
    }
    all_were_given(&answers, &[0, 2, 3, 4, 5, 6, 8]);
}

/// Two bytes of a short book swapped, any two; bytes lost, doubled and put in.
#[test]
fn bytes_swapped_lost_and_put_in() {
    let (chance, desk) = (&mut Chance::seeded(13), &mut Desk::new());
    let mut answers = Answers::default();
    let bytes = every_kind().written();
    for at in 0..bytes.len() {
        for other in 0..at {
            let mut damaged = bytes.clone();
            damaged.swap(at, other);
            compare(desk, chance, &mut answers, &damaged);
        }
        for value in [
            0x00, 0x01, 0x02, 0x03, 0x04, 0x7F, 0x80, 0x81, 0xA0, 0xA1, 0xFF, bytes[at],
        ] {
            let mut longer = bytes.clone();
            longer.insert(at, value);
            compare(desk, chance, &mut answers, &longer);
        }
        let mut shorter = bytes.clone();
        shorter.remove(at);
        compare(desk, chance, &mut answers, &shorter);
    }
    all_were_given(&answers, &[0, 2, 3, 4, 5, 6, 8]);
}

/// Records swapped, lost, doubled and moved to other books: each is whole, and its place is wrong.
#[test]
fn records_swapped_lost_and_doubled() {
    let (chance, desk) = (&mut Chance::seeded(14), &mut Desk::new());
    let mut answers = Answers::default();
    for (_, shape) in shapes::SMALL
        .iter()
        .chain(&shapes::WIDE)
        .chain(&shapes::LARGEST[2..])
    {
        for _ in 0..25 {
            let (records, others) = (shape(chance).records(), every_kind().records());
            for _ in 0..40 {
                let mut damaged = records.clone();
                for _ in 0..chance.between(1, 3) {
                    let at = chance.below(damaged.len());
                    let other = chance.below(damaged.len());
                    match chance.below(5) {
                        0 => damaged.swap(at, other),
                        1 => damaged.insert(at, chance.one_of(&others).clone()),
                        2 => damaged.insert(at, records[other % records.len()].clone()),
                        3 if damaged.len() > 1 => drop(damaged.remove(at)),
                        _ => damaged.truncate(at + 1),
                    }
                }
                compare(desk, chance, &mut answers, &damaged.concat());
            }
        }
    }
    all_were_given(&answers, &[0, 2, 3, 6, 7, 8]);
}

/// The largest books, damaged at some bytes and cut at some places.
#[test]
fn largest_books_damaged() {
    let (chance, desk) = (&mut Chance::seeded(15), &mut Desk::new());
    let mut answers = Answers::default();
    for (_, shape) in shapes::LARGEST {
        let bytes = shape(chance).written();
        for _ in 0..150 {
            let cut = chance.below(bytes.len() + 1);
            compare(desk, chance, &mut answers, &bytes[..cut]);
            let mut damaged = bytes.clone();
            let at = chance.below(damaged.len());
            damaged[at] = chance.byte();
            compare(desk, chance, &mut answers, &damaged);
        }
    }
    all_were_given(&answers, &[0, 2, 3, 9]);
}

/// Any bytes at all, and such as begin like a book.
#[test]
fn any_bytes() {
    let (chance, desk) = (&mut Chance::seeded(16), &mut Desk::new());
    let mut answers = Answers::default();
    let kinds = [0x01, 0x02, 0x03, 0x04, 0x7F, 0x81, 0x82, 0x00, 0x01, 0x0C];
    for _ in 0..20_000 {
        let length = chance.below(40);
        let mut bytes = if chance.once_in(2) {
            vec![]
        } else {
            vec![1, 1, 2, 0, 1, 1]
        };
        bytes.extend(chance.bytes(length, &kinds));
        compare(desk, chance, &mut answers, &bytes);
    }
    all_were_given(&answers, &[2, 3, 4, 5]);
}
