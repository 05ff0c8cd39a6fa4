//! Letters with known answers: rows A to M of the paper, with the reports that it says, and every input that ever differed.
use crate::automaton::States;
use crate::book::{piece, within, Book, Piece, ANYWHERE, NOTHING};
use crate::matcher;

pub struct Case {
    pub name: &'static str,
    pub book: Book,
    pub letter: &'static [u8],
    /// (phrase number, place)
    pub reports: Vec<(u32, u32)>,
}

/// A book of one phrase, number 1.
fn one(pieces: Vec<Piece>) -> Book {
    Book::of(vec![pieces])
}

/// ~a{1,2}a
fn a_then_a() -> Book {
    one(vec![piece(ANYWHERE, "a"), piece(within(1, 2), "a")])
}

/// ~aa{0,0}aa
fn aa_then_aa() -> Book {
    one(vec![piece(ANYWHERE, "aa"), piece(NOTHING, "aa")])
}

/// 1 ~aa, 2 ~abaaa, 3 ~abab
fn three() -> Book {
    let anywhere = |keyword: &str| vec![piece(ANYWHERE, keyword)];
    Book::of(vec![anywhere("aa"), anywhere("abaaa"), anywhere("abab")])
}

fn row(name: &'static str, book: Book, letter: &'static [u8], reports: &[(u32, u32)]) -> Case {
    let reports = reports.to_vec();
    Case {
        name,
        book,
        letter,
        reports,
    }
}

/// Inputs on which two answers ever differed are kept here, next to the rows. There is none so far.
pub fn all() -> Vec<Case> {
    vec![
        row("A", one(vec![piece(NOTHING, "ab")]), b"abab", &[(1, 2)]),
        row(
            "B",
            one(vec![piece(ANYWHERE, "ab")]),
            b"abab",
            &[(1, 2), (1, 4)],
        ),
        row("C", a_then_a(), b"aa", &[]),
        row("D", a_then_a(), b"aba", &[(1, 3)]),
        row("E", a_then_a(), b"abba", &[(1, 4)]),
        row("F", a_then_a(), b"abbba", &[]),
        row("G", a_then_a(), b"aaaaa", &[(1, 3), (1, 4), (1, 5)]),
        row(
            "H",
            one(vec![piece(ANYWHERE, "a"), piece(within(2, 2), "b")]),
            b"aaxb",
            &[(1, 4)],
        ),
        row("I", aa_then_aa(), b"aaa", &[]),
        row("J", aa_then_aa(), b"aaaa", &[(1, 4)]),
        row(
            "K",
            one(vec![piece(ANYWHERE, "a"), piece(ANYWHERE, "b")]),
            b"aab",
            &[(1, 3)],
        ),
        row("L", three(), b"abaaabab", &[(1, 4), (1, 5), (2, 5), (3, 8)]),
        row("M", three(), b"", &[]),
    ]
}

#[test]
fn the_second_matcher_gives_the_papers_reports() {
    for case in all() {
        assert_eq!(
            matcher::reports(&case.book, case.letter),
            case.reports,
            "row {}",
            case.name
        );
    }
}

#[test]
fn the_second_automaton_gives_the_papers_steps() {
    let states = States::of(&three());
    assert_eq!(states.steps(b"abaaabab"), [0, 0, 0, 0, 0, 2, 0, 0]);
    assert_eq!(states.after(b"abaaabab"), b"abab");
    // The listing's example: "do not ever print" costs one step.
    let not_print = one(vec![piece(ANYWHERE, "not"), piece(within(1, 9), "print")]);
    let letter = b"do not ever print";
    assert_eq!(matcher::reports(&not_print, letter), [(1, 17)]);
    assert_eq!(
        States::of(&not_print).steps(letter).iter().sum::<usize>(),
        1
    );
}

#[test]
fn the_second_matchers_two_readings_agree() {
    use crate::{chance::Chance, letters, shapes};
    let chance = &mut Chance::seeded(7);
    for (name, shape) in &shapes::SMALL[..5] {
        for _ in 0..40 {
            let book = shape(chance);
            let letter = letters::of_some_kind(chance, &book, 14);
            for phrase in &book.phrases {
                let literal = |place: &usize| matcher::matches_at(&letter, &phrase.pieces, *place);
                let literally: Vec<usize> = (1..=letter.len()).filter(literal).collect();
                assert_eq!(
                    matcher::ends(&letter, &phrase.pieces),
                    literally,
                    "{name} {book} {letter:?}"
                );
            }
        }
    }
}
