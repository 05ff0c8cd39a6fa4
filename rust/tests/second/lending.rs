//! What is lent to the calls: memory below its size, report room below the phrases, letters beyond the largest place, and which refusal comes first.
use crate::book::{piece, Book, ANYWHERE};
use crate::chance::Chance;
use crate::desk::{all_are, feed_refuses};
use crate::expected::Expected;
use crate::fenced::Fenced;
use crate::letters;
use crate::library::{self, DONE, NOT_PASSED, NO_ROOM, TOO_LONG, TOO_SMALL};
use crate::shapes;

const LARGEST_PLACE: usize = 4_294_967_295;
const UNTOUCHED: u8 = 0x5A;
const UNTOUCHED_ROOM: u32 = 0x5A5A_5A5A;

/// Two phrases that both end at every byte 0.
fn zeros_end_phrases() -> Book {
    Book::of(vec![vec![piece(ANYWHERE, [0])], vec![piece(ANYWHERE, [0])]])
}

/// Tables of a book, and running memory that was begun with them; each of exactly its size, at a fence.
fn begun(book: &Book) -> (Fenced<u8>, Fenced<u8>) {
    let mut tables = Fenced::zeroed(library::table_size());
    let mut running = Fenced::zeroed(library::running_size());
    assert_eq!(library::build(&book.written(), &mut tables).number, DONE);
    assert_eq!(library::begin(&tables, &mut running), DONE);
    (tables, running)
}

#[test]
fn the_published_sizes_keep_to_the_paper() {
    assert!(library::table_size() <= 49_152, "table memory");
    assert!(library::running_size() <= 16_384, "running memory");
    let header = include_str!("../../../include/tsuvrankhe.h");
    for (name, size) in [
        ("TABLE", library::table_size()),
        ("RUNNING", library::running_size()),
    ] {
        let line = format!("#define TSUVRANKHE_{name}_SIZE {size}\n");
        assert!(header.contains(&line), "the header does not say {line}");
    }
}

/// 1 comes before anything else, whatever the book, and touches nothing.
#[test]
fn memory_below_its_size() {
    let good = zeros_end_phrases().written();
    for book in [&good[..], &good[..5], &[], &[0xFF; 300]] {
        for length in [
            0,
            1,
            8,
            library::table_size() / 2,
            library::table_size() - 1,
        ] {
            let mut tables = vec![UNTOUCHED; length];
            let built = library::build(book, &mut tables);
            assert_eq!((built.number, built.offset), (TOO_SMALL, 0));
            assert!(all_are(&tables, UNTOUCHED));
        }
    }
    let (tables, running) = begun(&zeros_end_phrases());
    let zeroed = vec![0; tables.len()];
    for length in [0, 1, 100, running.len() - 1] {
        for tables in [&tables[..], &zeroed, &tables[..tables.len() - 1], &[]] {
            let mut short = running[..length].to_vec();
            assert_eq!(library::begin(tables, &mut short), TOO_SMALL);
            assert!(short == running[..length], "begin, refused, wrote");
            feed_refuses(TOO_SMALL, tables, &short, &[0], 0);
        }
    }
    for length in [0, 1, 8, tables.len() - 1] {
        let mut enough = running.to_vec();
        assert_eq!(library::begin(&tables[..length], &mut enough), TOO_SMALL);
        assert!(enough == running[..], "begin, refused, wrote");
        feed_refuses(TOO_SMALL, &tables[..length], &running, &[0], 0);
    }
}

/// Past the published sizes, and in the odd last element of the room, there is a fence here: nothing of it is written, nor even read.
#[test]
fn more_memory_than_needed() {
    let chance = &mut Chance::seeded(22);
    for (name, shape) in shapes::SMALL.iter().chain(&shapes::LARGEST) {
        let book = shape(chance);
        let letter = letters::of_its_phrases(chance, &book, 300, b"ab.");
        let expected = Expected::of(&book, &letter);
        let mut tables = Fenced::zeroed(library::table_size());
        let mut running = Fenced::zeroed(library::running_size());
        let mut room = Fenced::zeroed(2 * expected.phrases());
        let bytes = book.written();
        let (built, begun, fed) =
            library::with_more_lent(&bytes, &mut tables, &mut running, &letter, &mut room, 9_999);
        assert_eq!((built.number, begun), (DONE, DONE), "{name}");
        let answer = expected.feed(0, letter.len(), expected.phrases());
        assert_eq!(fed, answer.fed, "{name}");
    }
}

/// Begin doesn't care what the running memory held, nor build what the table memory held.
#[test]
fn what_memory_held_before() {
    let chance = &mut Chance::seeded(21);
    for (name, shape) in shapes::SMALL.iter().chain(&shapes::LARGEST) {
        let book = shape(chance);
        let (tables, running) = begun(&book);
        let mut other_tables = vec![0; tables.len()];
        let mut other_running = vec![0; running.len()];
        chance.fill(&mut other_tables);
        chance.fill(&mut other_running);
        assert_eq!(
            library::build(&book.written(), &mut other_tables).number,
            DONE
        );
        assert_eq!(library::begin(&other_tables, &mut other_running), DONE);
        assert!(other_tables == tables[..], "tables of a book of {name}");
        assert!(
            other_running == running[..],
            "running memory of a book of {name}"
        );
    }
}

/// Zeroed tables and zeroed running memory never pass; refused, begin and feed touch nothing. 12 comes before 10 and 11.
#[test]
fn zeroed_memory_never_passes() {
    let (tables, running) = begun(&zeros_end_phrases());
    let no_tables = vec![0; tables.len()];
    let mut anything = vec![UNTOUCHED; running.len()];
    assert_eq!(library::begin(&no_tables, &mut anything), NOT_PASSED);
    assert!(all_are(&anything, UNTOUCHED), "begin, refused, wrote");
    let too_long = Fenced::letter_of_zeros(LARGEST_PLACE + 1);
    for part in [&[][..], &[0; 9], &too_long] {
        feed_refuses(NOT_PASSED, &no_tables, &running, part, 0);
        feed_refuses(NOT_PASSED, &tables, &no_tables[..running.len()], part, 0);
    }
}

/// Room for one report less than there are phrases is refused with 10, even for an empty part, and before 11; an odd last element is no room.
#[test]
fn room_below_the_phrases() {
    let too_long = Fenced::letter_of_zeros(LARGEST_PLACE + 1);
    for phrases in [1, 2, 3, 127, 128] {
        let book = Book::of((0..phrases).map(|_| vec![piece(ANYWHERE, "a")]).collect());
        let (tables, mut running) = begun(&book);
        for part in [&b""[..], b"a", &too_long] {
            for length in [0, 1, 2 * phrases - 2, 2 * phrases - 1] {
                feed_refuses(NO_ROOM, &tables, &running, part, length);
            }
        }
        let mut room = vec![UNTOUCHED_ROOM; 2 * phrases + 1];
        let fed = library::feed(&tables, &mut running, b"ab", &mut room);
        let answer = (fed.number, fed.taken, fed.reports, fed.steps);
        assert_eq!(answer, (DONE, 1, phrases, 0), "no room for the second byte");
        assert_eq!(room[2 * phrases], UNTOUCHED_ROOM);
    }
}

/// 11 is judged on the whole part offered, before a byte of it is read: from every place reached, one byte more than is left is refused, and exactly
/// what is left is begun. The letters lent here are zeros that take up no space.
#[test]
fn a_part_beyond_the_largest_place() {
    let (tables, mut running) = begun(&zeros_end_phrases());
    let letter = Fenced::letter_of_zeros(LARGEST_PLACE + 1);
    let far_too_long = Fenced::letter_of_zeros(1 << 40);
    let mut room = Fenced::zeroed(2 * 6);
    for place in (0..).step_by(3).take(50) {
        let left = LARGEST_PLACE - place;
        feed_refuses(TOO_LONG, &tables, &running, &letter[..left + 1], 2 * 6);
        feed_refuses(TOO_LONG, &tables, &running, &far_too_long, 2 * 6);
        let fed = library::feed(&tables, &mut running, &letter[..left], &mut room);
        // Each byte brings two reports, so that three bytes fill the room. Each but the letter's first comes upon state 0, which fails once.
        let steps = if place == 0 { 2 } else { 3 };
        let answer = (fed.number, fed.taken, fed.reports, fed.steps);
        assert_eq!(answer, (DONE, 3, 6, steps), "at place {place}");
        let next = place as u32 + 1;
        let due: Vec<u32> = (next..next + 3)
            .flat_map(|place| [1, place, 2, place])
            .collect();
        assert_eq!(room[..], due[..]);
    }
}
