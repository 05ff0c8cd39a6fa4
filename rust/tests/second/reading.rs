//! Letters read against books of every shape, handed in in every way, and compared with the second matcher call by call.
use crate::book::{piece, within, Book, ANYWHERE};
use crate::cases;
use crate::chance::Chance;
use crate::desk::{Desk, Way};
use crate::expected::Expected;
use crate::judge;
use crate::letters;
use crate::library::{Built, DONE};
use crate::matcher;
use crate::shapes::{self, Shape};
use std::panic::{self, AssertUnwindSafe};

/// The longest letter that is cut at every place.
const CUT_EVERYWHERE: usize = 64;
/// The longest letter that is handed in byte by byte.
const BYTE_BY_BYTE: usize = 4_096;
/// The most reports that a call is given room for here.
const AMPLE: usize = 1 << 12;

/// Every way to hand in a letter: whole, byte by byte, with the least room, cut at every place if it is short, and in some parts with some room.
fn ways(chance: &mut Chance, letter: &[u8], expected: &Expected) -> Vec<Way> {
    let (length, least) = (letter.len(), expected.phrases());
    let ample = (least + expected.reports_in_all()).min(AMPLE);
    let way = |parts: Vec<usize>, room: usize| Way {
        parts,
        room,
        odd: room % 2 == 0,
        margin: length % 2 == 0,
    };
    let mut ways = vec![
        way(vec![length], ample),
        way(vec![length], least),
        way(vec![length], least + 1),
    ];
    if length <= BYTE_BY_BYTE {
        ways.push(way(vec![1; length], ample));
        ways.push(way(vec![1; length], least));
    }
    if length <= CUT_EVERYWHERE {
        ways.extend((0..=length).map(|cut| way(vec![cut, length - cut], ample)));
        ways.extend((0..=length).map(|cut| way(vec![cut, length - cut], least)));
    }
    for _ in 0..4 {
        let room = chance.between(least, 2 * least + 3);
        let mut some = way(some_parts(chance, length), room);
        some.odd = chance.once_in(2);
        some.margin = chance.once_in(2);
        ways.push(some);
    }
    ways
}

/// Parts of any lengths, empty ones among them.
fn some_parts(chance: &mut Chance, length: usize) -> Vec<usize> {
    let mut parts = Vec::new();
    let mut left = length;
    let longest = if length <= BYTE_BY_BYTE {
        *chance.one_of(&[2, 7, 40])
    } else {
        BYTE_BY_BYTE
    };
    while left > 0 {
        let part = chance.below(left.min(longest) + 1);
        parts.push(part);
        left -= part;
    }
    parts.push(0);
    parts
}

/// Reads one letter against one book in every way. The running memory in the end is the same for all: it depends on the bytes taken alone.
fn compare(desk: &mut Desk, chance: &mut Chance, book: &Book, letter: &[u8]) {
    let bytes = book.written();
    assert_eq!(
        judge::judged(&bytes).as_ref(),
        Ok(book),
        "the second judge's own reading"
    );
    let built = Built {
        number: DONE,
        offset: bytes.len(),
    };
    desk.build(&bytes, built, chance.once_in(2));
    let tables = desk.tables();
    let expected = Expected::of(book, letter);
    let mut in_the_end = None;
    for way in ways(chance, letter, &expected) {
        let read = || desk.read(&tables, letter, &expected, &way);
        match panic::catch_unwind(AssertUnwindSafe(read)) {
            Ok(running) => {
                let first = in_the_end.get_or_insert_with(|| running.clone());
                assert!(*first == running, "memory differs with the way {way:?}");
            }
            Err(_) => panic!("differs: book\n{book}letter {:?}\n{way:?}", letter),
        }
    }
}

/// Compares so many books of each shape, each with so many letters.
fn compare_shapes(seed: u64, shapes: &[Shape], books: usize, letters: usize, longest: usize) {
    let chance = &mut Chance::seeded(seed);
    let desk = &mut Desk::new();
    for (name, shape) in shapes {
        let before = desk.seen;
        for _ in 0..books {
            let book = shape(chance);
            for _ in 0..letters {
                let letter = letters::of_some_kind(chance, &book, longest);
                compare(desk, chance, &book, &letter);
            }
        }
        println!(
            "{name}: {books} books, {} letters, {}",
            books * letters,
            desk.seen.since(before)
        );
        assert!(
            desk.seen.reports > before.reports,
            "no letter of shape {name} has a hit"
        );
        assert!(
            desk.seen.steps > before.steps,
            "no letter of shape {name} has a step"
        );
    }
}

#[test]
fn the_papers_rows_and_kept_cases() {
    let chance = &mut Chance::seeded(1);
    let desk = &mut Desk::new();
    for case in cases::all() {
        compare(desk, chance, &case.book, case.letter);
    }
}

#[test]
fn small_books_cut_everywhere() {
    compare_shapes(2, &shapes::SMALL, 60, 4, CUT_EVERYWHERE);
}

#[test]
fn small_books_longer_letters() {
    compare_shapes(3, &shapes::SMALL, 12, 2, 600);
}

#[test]
fn gaps_at_their_bounds() {
    compare_shapes(4, &shapes::WIDE[..2], 40, 2, 3_000);
}

#[test]
fn widest_gaps() {
    compare_shapes(5, &shapes::WIDE[2..], 10, 2, 130_000);
}

/// Two keywords with every number of bytes about the bounds between them: the second ends a match exactly when the gap admits it.
#[test]
fn one_byte_more_or_less_than_a_bound() {
    let chance = &mut Chance::seeded(7);
    let desk = &mut Desk::new();
    for (least, most) in [
        (0, 0),
        (0, 1),
        (1, 1),
        (3, 255),
        (224, 224),
        (224, 256),
        (223, 59_999),
        (0, 60_000),
        (224, 60_000),
    ] {
        for keyword in [&b"y"[..], &[b'y'; 32]] {
            let second = piece(within(least, most), keyword);
            let book = Book::of(vec![
                vec![piece(ANYWHERE, "x"), second.clone()],
                vec![second],
            ]);
            for between in [
                least.saturating_sub(1),
                least,
                least + 1,
                most.saturating_sub(1),
                most,
                most + 1,
            ] {
                let filler = vec![b'.'; between];
                let letter = [b"x", &filler[..], keyword].concat();
                let place = letter.len() as u32;
                let admitted = least..=most;
                // Phrase 1 counts from behind the x, phrase 2 from the letter's start.
                let after_x = admitted.contains(&between).then_some((1, place));
                let from_start = admitted.contains(&(between + 1)).then_some((2, place));
                let due: Vec<_> = after_x.into_iter().chain(from_start).collect();
                let reports = matcher::reports(&book, &letter);
                assert_eq!(reports, due, "{least} to {most}, {between} between");
                compare(desk, chance, &book, &letter);
            }
        }
    }
}

#[test]
fn largest_books() {
    compare_shapes(6, &shapes::LARGEST, 4, 4, 1_500);
}
