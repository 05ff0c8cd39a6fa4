//! Letters to read against a book: any bytes of its alphabet, its phrases with gaps at their bounds, keywords cut short, runs.
use crate::book::{Book, Gap, Phrase};
use crate::chance::Chance;

/// The bytes of the book's keywords, and one that is in none of them, if there is one.
fn alphabet(book: &Book) -> Vec<u8> {
    let mut bytes: Vec<u8> = book
        .pieces()
        .flat_map(|piece| piece.keyword.clone())
        .collect();
    bytes.sort_unstable();
    bytes.dedup();
    bytes.extend((0..=255).rev().find(|byte| !bytes.contains(byte)));
    bytes
}

/// As many bytes as the gap's bounds have, or one more or less, or some number between them.
fn near_a_bound(chance: &mut Chance, gap: Gap) -> usize {
    let most = gap.most.unwrap_or(gap.least + 9);
    let between = chance.between(gap.least, most);
    let widths = [
        gap.least,
        gap.least + 1,
        most,
        most + 1,
        between,
        gap.least.saturating_sub(1),
        most.saturating_sub(1),
    ];
    *chance.one_of(&widths)
}

/// A phrase written out, each gap filled with as many bytes as `near_a_bound` says.
fn laid_out(chance: &mut Chance, phrase: &Phrase, filler: &[u8]) -> Vec<u8> {
    let mut bytes = Vec::new();
    for (at, piece) in phrase.pieces.iter().enumerate() {
        // An open gap in front asks for nothing.
        if at > 0 || piece.gap.most.is_some() {
            let width = near_a_bound(chance, piece.gap);
            bytes.extend(chance.bytes(width, filler));
        }
        bytes.extend(&piece.keyword);
    }
    bytes
}

/// Any bytes of the book's alphabet.
pub fn of_its_alphabet(chance: &mut Chance, book: &Book, length: usize) -> Vec<u8> {
    chance.bytes(length, &alphabet(book))
}

/// Phrases one after the other, some bytes between them, from the letter's start.
pub fn of_its_phrases(chance: &mut Chance, book: &Book, length: usize, filler: &[u8]) -> Vec<u8> {
    let mut letter = Vec::new();
    while letter.len() < length {
        let phrase = chance.one_of(&book.phrases);
        letter.extend(laid_out(chance, phrase, filler));
        let between = chance.below(4);
        letter.extend(chance.bytes(between, filler));
    }
    letter.truncate(length);
    letter
}

/// Keywords, most of them without their last bytes: the state goes deep and fails.
pub fn of_keywords_cut_short(chance: &mut Chance, book: &Book, length: usize) -> Vec<u8> {
    let keywords: Vec<&Vec<u8>> = book.pieces().map(|piece| &piece.keyword).collect();
    let mut letter = Vec::new();
    while letter.len() < length {
        let keyword = chance.one_of(&keywords);
        let cut = chance.below(3).min(keyword.len() - 1);
        letter.extend(&keyword[..keyword.len() - cut]);
    }
    letter.truncate(length);
    letter
}

/// Long runs of one byte of the book's alphabet, and then another.
pub fn of_runs(chance: &mut Chance, book: &Book, length: usize) -> Vec<u8> {
    let alphabet = alphabet(book);
    let mut letter = Vec::new();
    while letter.len() < length {
        let run = chance.between(1, 40);
        letter.resize(letter.len() + run, *chance.one_of(&alphabet));
    }
    letter.truncate(length);
    letter
}

/// A letter of one of the kinds above, up to so many bytes.
pub fn of_some_kind(chance: &mut Chance, book: &Book, longest: usize) -> Vec<u8> {
    let length = chance.below(longest + 1);
    match chance.below(5) {
        0 => of_its_alphabet(chance, book, length),
        1 => of_keywords_cut_short(chance, book, length),
        2 => of_runs(chance, book, length),
        3 => of_its_phrases(chance, book, length, b"."),
        _ => of_its_phrases(chance, book, length, &alphabet(book)),
    }
}
