//! Books on both sides of every limit, and books with several faults at once: which are accepted, and where and with what the others are refused.
use crate::book::{from, piece, within, Book, Gap, Piece, ANYWHERE};
use crate::chance::Chance;
use crate::desk::Desk;
use crate::judge::{judged, Refused};
use crate::refusing::{all_were_given, compare, Answers};
use crate::shapes;

/// The offset of the first phrase, of its first gap, and of its keyword behind an open gap.
const PHRASE: usize = 2;
const GAP: usize = 6;
const KEYWORD: usize = 9;
/// How many bytes a piece anywhere "a" takes up, and a phrase that has but this one.
const PIECE: usize = 5;
const ONE_PIECE: usize = 4 + PIECE;

/// One phrase, and one piece: this gap and "a".
fn with_gap(gap: Gap) -> Vec<u8> {
    Book::of(vec![vec![piece(gap, "a")]]).written()
}

fn same_pieces(count: usize) -> Vec<Piece> {
    vec![piece(ANYWHERE, "a"); count]
}

/// One phrase with so many pieces.
fn pieces_of_a_phrase(count: usize) -> Vec<u8> {
    Book::of(vec![same_pieces(count)]).written()
}

/// So many phrases of one piece.
fn phrases(count: usize) -> Vec<u8> {
    Book::of(vec![same_pieces(1); count]).written()
}

/// 32 phrases of eight pieces, and one of so many more.
fn pieces_past_256(more: usize) -> Vec<u8> {
    let mut phrases = vec![same_pieces(8); 32];
    phrases.push(same_pieces(more));
    Book::of(phrases).written()
}

/// 63 different keywords of 32 bytes, which have 2,016 prefixes, and one that brings so many more.
fn prefixes_past_2016(more: usize) -> Vec<u8> {
    let keywords = (0..63).map(|byte| vec![byte; 32]).chain([vec![100; more]]);
    let anywhere = |keyword| vec![piece(ANYWHERE, keyword)];
    Book::of(keywords.map(anywhere).collect()).written()
}

/// The book with the bytes from this offset on replaced.
fn changed(book: &[u8], at: usize, bytes: &[u8]) -> Vec<u8> {
    let mut book = book.to_vec();
    book[at..at + bytes.len()].copy_from_slice(bytes);
    book
}

/// One phrase, one open gap, then these bytes.
fn then(bytes: &[u8]) -> Vec<u8> {
    [&with_gap(ANYWHERE)[..KEYWORD], bytes].concat()
}

#[test]
fn accepted_at_the_limits() {
    let (chance, desk) = (&mut Chance::seeded(17), &mut Desk::new());
    let longest = shapes::LARGEST[2].1(chance).written();
    assert_eq!(longest.len(), 10_245);
    let cases = [
        ("least 224", with_gap(from(224))),
        ("most 60,000", with_gap(within(0, 60_000))),
        ("least equal to most", with_gap(within(224, 224))),
        (
            "kind A0",
            then(&[&[0xA0][..], &[7; 32], &[0x7F, 0, 1]].concat()),
        ),
        ("rights code 12", changed(&phrases(1), PHRASE + 3, &[12])),
        (
            "number 65,535",
            changed(&phrases(1), PHRASE + 1, &[0xFF, 0xFF]),
        ),
        ("128 phrases", phrases(128)),
        ("8 pieces", pieces_of_a_phrase(8)),
        ("2,047 prefixes", prefixes_past_2016(31)),
        ("the longest book", longest),
    ];
    let mut answers = Answers::default();
    for (name, bytes) in cases {
        assert!(judged(&bytes).is_ok(), "{name}");
        compare(desk, chance, &mut answers, &bytes);
    }
    all_were_given(&answers, &[0]);
}

/// A name, a book, and the number and the offset that it is to be refused with.
type Case = (&'static str, Vec<u8>, u32, usize);

fn refused_as_said(seed: u64, numbers: &[u32], cases: Vec<Case>) {
    let (chance, desk) = (&mut Chance::seeded(seed), &mut Desk::new());
    let mut answers = Answers::default();
    for (name, bytes, number, offset) in cases {
        assert_eq!(judged(&bytes), Err(Refused { number, offset }), "{name}");
        compare(desk, chance, &mut answers, &bytes);
    }
    all_were_given(&answers, numbers);
}

#[test]
fn refused_past_the_limits() {
    let whole = phrases(1);
    let cases = vec![
        ("empty", vec![], 2, 0),
        (
            "no end record",
            whole[..whole.len() - 3].to_vec(),
            2,
            whole.len() - 3,
        ),
        ("kind 80", then(&[0x80]), 3, KEYWORD),
        ("kind A1", then(&[0xA1; 34]), 3, KEYWORD),
        ("no piece", pieces_of_a_phrase(0), 3, GAP),
        ("no phrase", phrases(0), 3, PHRASE),
        ("no gap", changed(&whole, GAP, &[0x81]), 3, GAP),
        (
            "a byte after the end",
            [&whole[..], &[1]].concat(),
            3,
            whole.len(),
        ),
        ("edition 2", changed(&whole, 1, &[2]), 4, 0),
        ("number 0", changed(&whole, PHRASE + 1, &[0, 0]), 4, PHRASE),
        (
            "rights code 0",
            changed(&whole, PHRASE + 3, &[0]),
            4,
            PHRASE,
        ),
        (
            "rights code 13",
            changed(&whole, PHRASE + 3, &[13]),
            4,
            PHRASE,
        ),
        ("least 225", with_gap(from(225)), 4, GAP),
        ("most 60,001", with_gap(within(0, 60_001)), 4, GAP),
        ("least above most", with_gap(within(224, 223)), 5, GAP),
        (
            "the same number",
            changed(&phrases(2), PHRASE + ONE_PIECE + 1, &[0, 1]),
            6,
            PHRASE + ONE_PIECE,
        ),
        ("129 phrases", phrases(129), 7, PHRASE + 128 * ONE_PIECE),
        ("9 pieces", pieces_of_a_phrase(9), 7, GAP + 8 * PIECE),
        (
            "257 pieces",
            pieces_past_256(1),
            7,
            PHRASE + 32 * (4 + 8 * PIECE) + 4,
        ),
        (
            "too many phrases said",
            changed(&whole, whole.len() - 2, &[1, 1]),
            8,
            whole.len() - 3,
        ),
        (
            "2,048 prefixes",
            prefixes_past_2016(32),
            9,
            PHRASE + 63 * (7 + 33) + 7,
        ),
    ];
    refused_as_said(18, &[2, 3, 4, 5, 6, 7, 8, 9], cases);
}

/// Two faults in one record: 3 on the kind alone comes first, then 2, 4, 5, 6, 7, 8, 9.
#[test]
fn the_first_of_two_faults() {
    let whole = phrases(1);
    let (phrase_129, piece_9) = (PHRASE + 128 * ONE_PIECE, GAP + 8 * PIECE);
    let past = prefixes_past_2016(32);
    let last_keyword = PHRASE + 63 * (7 + 33) + 7;
    let ninth = |gap: Gap| {
        let mut pieces = same_pieces(8);
        pieces.push(piece(gap, "a"));
        Book::of(vec![pieces]).written()
    };
    let cases = vec![
        (
            "3 before 2: a second header, cut",
            [&whole[..PHRASE], &[0x01]].concat(),
            3,
            PHRASE,
        ),
        (
            "2 before 4: rights code missing",
            [&whole[..PHRASE], &[0x02, 0, 0]].concat(),
            2,
            PHRASE,
        ),
        (
            "2 before 5: most cut",
            [&whole[..GAP], &[0x03, 0, 9, 0]].concat(),
            2,
            GAP,
        ),
        (
            "2 before 9: the keyword cut",
            past[..last_keyword + 32].to_vec(),
            2,
            last_keyword,
        ),
        (
            "2 before 8: the end record cut",
            [&whole[..whole.len() - 2], &[9]].concat(),
            2,
            whole.len() - 3,
        ),
        (
            "4 before 5: least 225, most 0",
            with_gap(within(225, 0)),
            4,
            GAP,
        ),
        (
            "4 before 6: number 0 again",
            changed(&phrases(2), PHRASE + ONE_PIECE + 1, &[0, 0]),
            4,
            PHRASE + ONE_PIECE,
        ),
        ("4 before 7: the ninth piece", ninth(from(225)), 4, piece_9),
        (
            "5 before 7: the ninth piece",
            ninth(within(2, 1)),
            5,
            piece_9,
        ),
        (
            "6 before 7: the 129th phrase",
            changed(&phrases(129), phrase_129 + 1, &[0, 128]),
            6,
            phrase_129,
        ),
        (
            "8 before 3: a byte after a wrong end",
            [&changed(&whole, whole.len() - 1, &[2])[..], &[1]].concat(),
            8,
            whole.len() - 3,
        ),
    ];
    refused_as_said(19, &[2, 3, 4, 5, 6, 8], cases);
}
