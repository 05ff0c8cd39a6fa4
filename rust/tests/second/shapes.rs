//! Books of many shapes, each within the limits. The letters to read against them are in `letters`.
use crate::automaton::States;
use crate::book::{from, piece, within, Book, Gap, Phrase, Piece, ANYWHERE, NOTHING};
use crate::chance::Chance;

pub const MOST_PHRASES: usize = 128;
pub const MOST_PIECES: usize = 256;
pub const LONGEST_KEYWORD: usize = 32;
pub const LARGEST_LEAST: usize = 224;
pub const LARGEST_MOST: usize = 60_000;
/// Different nonempty prefixes of keywords.
pub const MOST_PREFIXES: usize = 2_047;

/// A shape: its name, and a book of it.
pub type Shape = (&'static str, fn(&mut Chance) -> Book);

/// Small books, for letters that are cut at every place.
pub const SMALL: [Shape; 9] = [
    ("two letters", two_letters),
    ("nested keywords", nested),
    ("repeated keywords", repeated),
    ("open gaps", open_gaps),
    ("gaps in front", gaps_in_front),
    ("eight pieces", eight_pieces),
    ("runs of one byte", runs),
    ("any bytes", any_bytes),
    ("one phrase for each byte", one_for_each_byte),
];

/// Books whose gaps are at the limits, for letters that reach over them.
pub const WIDE: [Shape; 3] = [
    ("delays at the limit", delays_at_the_limit),
    ("wide gaps", wide_gaps),
    ("widest gaps", widest_gaps),
];

/// Books at the limits of phrases, pieces, prefixes and length.
pub const LARGEST: [Shape; 5] = [
    ("most prefixes of two letters", most_prefixes_of_two),
    ("most prefixes of any bytes", most_prefixes_of_any),
    ("longest book", longest),
    ("all phrases end together", all_end_together),
    ("one keyword everywhere", one_keyword_everywhere),
];

/// Phrases in ascending order with any numbers and rights codes; the last number is the largest, now and then.
fn numbered(chance: &mut Chance, phrases: Vec<Vec<Piece>>) -> Book {
    let mut book = Book::of(phrases);
    let count = book.phrases.len() as u32;
    let mut free = if chance.once_in(3) { 0 } else { 65_535 - count };
    for (at, Phrase { number, right, .. }) in book.phrases.iter_mut().enumerate().rev() {
        *number = at as u32 + 1 + free;
        *right = chance.between(1, 12) as u8;
        free -= chance.below(free as usize / 4 + 1) as u32;
    }
    book
}

fn some_gap(chance: &mut Chance, widest: usize) -> Gap {
    let least = chance.below(widest + 1);
    match chance.below(4) {
        0 => from(least),
        1 => within(least, least),
        _ => within(least, least + chance.below(widest + 1)),
    }
}

/// A phrase of so many pieces, the first anywhere, most of the time.
fn some_phrase(
    chance: &mut Chance,
    pieces: usize,
    widest: usize,
    mut keyword: impl FnMut(&mut Chance) -> Vec<u8>,
) -> Vec<Piece> {
    let mut phrase = Vec::new();
    for at in 0..pieces {
        let front = at == 0 && !chance.once_in(5);
        let gap = if front {
            ANYWHERE
        } else {
            some_gap(chance, widest)
        };
        phrase.push(piece(gap, keyword(chance)));
    }
    phrase
}

fn two_letters(chance: &mut Chance) -> Book {
    let phrases = (0..chance.between(1, 6))
        .map(|_| {
            let pieces = chance.between(1, 4);
            some_phrase(chance, pieces, 4, |chance| {
                let length = chance.between(1, 4);
                chance.bytes(length, b"ab")
            })
        })
        .collect();
    numbered(chance, phrases)
}

/// Every keyword is a part of one string, so that they lie in each other as prefixes, suffixes and middles.
fn nested(chance: &mut Chance) -> Book {
    let whole = chance.bytes(12, b"abb");
    let phrases = (0..chance.between(2, 8))
        .map(|_| {
            let pieces = chance.between(1, 3);
            some_phrase(chance, pieces, 5, |chance| {
                let start = chance.below(whole.len());
                let end = chance.between(start + 1, whole.len());
                whole[start..end].to_vec()
            })
        })
        .collect();
    numbered(chance, phrases)
}

/// Two keywords, used again and again in one phrase and in many; whole phrases twice.
fn repeated(chance: &mut Chance) -> Book {
    let lengths = [chance.between(1, 3), chance.between(1, 3)];
    let keywords = lengths.map(|length| chance.bytes(length, b"ab"));
    let mut phrases = Vec::new();
    for _ in 0..chance.between(2, 5) {
        let pieces = chance.between(1, 5);
        let phrase = some_phrase(chance, pieces, 3, |chance| chance.one_of(&keywords).clone());
        if chance.once_in(2) {
            phrases.push(phrase.clone());
        }
        phrases.push(phrase);
    }
    numbered(chance, phrases)
}

fn open_gaps(chance: &mut Chance) -> Book {
    let phrases = (0..chance.between(1, 5))
        .map(|_| {
            let keyword = |chance: &mut Chance| {
                let length = chance.between(1, 3);
                chance.bytes(length, b"abc")
            };
            (0..chance.between(1, 5))
                .map(|_| piece(from(chance.below(7)), keyword(chance)))
                .collect()
        })
        .collect();
    numbered(chance, phrases)
}

/// No phrase may begin anywhere: each is tied to the letter's start.
fn gaps_in_front(chance: &mut Chance) -> Book {
    let phrases = (0..chance.between(1, 6))
        .map(|_| {
            let least = chance.below(9);
            let front = *chance.one_of(&[
                NOTHING,
                within(0, 3),
                within(least, least),
                within(least, 20),
                from(least),
            ]);
            let mut phrase = vec![piece(front, chance.bytes(1, b"ab"))];
            if chance.once_in(2) {
                phrase.push(piece(some_gap(chance, 3), chance.bytes(2, b"ab")));
            }
            phrase
        })
        .collect();
    numbered(chance, phrases)
}

fn eight_pieces(chance: &mut Chance) -> Book {
    let phrases = (0..chance.between(1, 3))
        .map(|_| {
            some_phrase(chance, 8, 2, |chance| {
                let length = chance.between(1, 2);
                chance.bytes(length, b"ab")
            })
        })
        .collect();
    numbered(chance, phrases)
}

/// Keywords a, aa, aaa, .. and such that a byte b ends them: long walks along failures.
fn runs(chance: &mut Chance) -> Book {
    let phrases = (0..chance.between(2, 8))
        .map(|_| {
            let pieces = chance.between(1, 2);
            some_phrase(chance, pieces, 6, |chance| {
                let mut keyword = vec![b'a'; chance.between(1, 9)];
                if chance.once_in(3) {
                    keyword.push(b'b');
                }
                keyword
            })
        })
        .collect();
    numbered(chance, phrases)
}

/// Keywords of any of the 256 byte values, the lowest and the highest among them.
fn any_bytes(chance: &mut Chance) -> Book {
    let phrases = (0..chance.between(1, 6))
        .map(|_| {
            let pieces = chance.between(1, 3);
            some_phrase(chance, pieces, 4, |chance| {
                let length = chance.between(1, 3);
                let any: Vec<u8> = (0..length).map(|_| chance.byte()).collect();
                let edge = chance.bytes(length, &[0x00, 0x7F, 0x80, 0xFF]);
                chance.one_of(&[any, edge]).clone()
            })
        })
        .collect();
    numbered(chance, phrases)
}

/// 128 phrases of two pieces, each piece one byte: every one of the 256 byte values is a keyword.
fn one_for_each_byte(chance: &mut Chance) -> Book {
    let step = chance.below(128) * 2 + 1;
    let phrases = (0..MOST_PHRASES)
        .map(|at| {
            let first = (2 * at * step) as u8;
            let second = ((2 * at + 1) * step) as u8;
            vec![
                piece(ANYWHERE, [first]),
                piece(some_gap(chance, 30), [second]),
            ]
        })
        .collect();
    numbered(chance, phrases)
}

/// The keyword of a shape with wide gaps: short, or as long as may be.
fn short_or_longest(chance: &mut Chance) -> Vec<u8> {
    let mut keyword = match chance.below(3) {
        0 => chance.bytes(1, b"ab"),
        1 => vec![b'a'; LONGEST_KEYWORD],
        _ => vec![b'a'; LONGEST_KEYWORD - 1],
    };
    if keyword.len() == LONGEST_KEYWORD - 1 {
        keyword.push(b'b');
    }
    keyword
}

/// Least and the keyword's length come to 256, or nearly: windows wait as long as they ever do.
fn delays_at_the_limit(chance: &mut Chance) -> Book {
    let phrases = (0..chance.between(1, 4))
        .map(|_| {
            let mut phrase = vec![piece(ANYWHERE, short_or_longest(chance))];
            for _ in 0..chance.between(1, 2) {
                let least = LARGEST_LEAST - chance.below(3);
                let more = *chance.one_of(&[0, 1, 2, 40]);
                let gap = *chance.one_of(&[from(least), within(least, least + more)]);
                phrase.push(piece(gap, short_or_longest(chance)));
            }
            phrase
        })
        .collect();
    numbered(chance, phrases)
}

/// Mosts on both sides of the powers of two that a number could be cut at.
fn wide_gaps(chance: &mut Chance) -> Book {
    let phrases = (0..chance.between(1, 4))
        .map(|_| {
            let least = *chance.one_of(&[0, 1, 127, 128, LARGEST_LEAST]);
            let most = *chance.one_of(&[255, 256, 257, 511, 512, 1_023, 1_024]);
            let front = *chance.one_of(&[ANYWHERE, within(least, most)]);
            let first = piece(front, chance.bytes(2, b"xyz"));
            vec![first, piece(within(least, most), chance.bytes(1, b"xyz"))]
        })
        .collect();
    numbered(chance, phrases)
}

fn widest_gaps(chance: &mut Chance) -> Book {
    let phrases = (0..chance.between(1, 3))
        .map(|_| {
            let least = *chance.one_of(&[0, 1, LARGEST_LEAST]);
            let most = *chance.one_of(&[32_767, 32_768, LARGEST_MOST - 1, LARGEST_MOST]);
            let first = piece(ANYWHERE, chance.bytes(2, b"xy"));
            vec![first, piece(within(least, most), chance.bytes(2, b"yz"))]
        })
        .collect();
    numbered(chance, phrases)
}

/// 128 phrases of two pieces with exactly 2,047 different prefixes.
fn most_prefixes(chance: &mut Chance, alphabet: &[u8]) -> Book {
    let mut keywords: Vec<Vec<u8>> = (0..MOST_PIECES)
        .map(|_| chance.bytes(1, alphabet))
        .collect();
    let book_of = |chance: &mut Chance, keywords: &[Vec<u8>]| {
        let phrases = keywords
            .chunks(2)
            .map(|two| {
                vec![
                    piece(ANYWHERE, two[0].clone()),
                    piece(some_gap(chance, 60), two[1].clone()),
                ]
            })
            .collect();
        numbered(chance, phrases)
    };
    // One byte more for one keyword brings one prefix more, or none where the longer one is a prefix already.
    while States::of(&book_of(chance, &keywords)).count() - 1 < MOST_PREFIXES {
        let lacking = MOST_PREFIXES + 1 - States::of(&book_of(chance, &keywords)).count();
        for _ in 0..(lacking + 1) / 2 {
            let keyword = chance.below(MOST_PIECES);
            if keywords[keyword].len() < LONGEST_KEYWORD {
                let byte = *chance.one_of(alphabet);
                keywords[keyword].push(byte);
            }
        }
    }
    book_of(chance, &keywords)
}

fn most_prefixes_of_two(chance: &mut Chance) -> Book {
    most_prefixes(chance, b"ab")
}

fn most_prefixes_of_any(chance: &mut Chance) -> Book {
    let all: Vec<u8> = (0..=255).collect();
    most_prefixes(chance, &all)
}

/// 10,245 bytes: 256 keywords of 32 bytes, of which 63 differ, behind bounded gaps.
fn longest(chance: &mut Chance) -> Book {
    let keywords: Vec<Vec<u8>> = (0..63)
        .map(|_| chance.bytes(LONGEST_KEYWORD, b"abcd"))
        .collect();
    let phrases = (0..MOST_PHRASES)
        .map(|at| {
            let first = keywords[2 * at % keywords.len()].clone();
            let second = chance.one_of(&keywords).clone();
            let front = piece(within(0, LARGEST_MOST), first);
            let most = *chance.one_of(&[20, 100, LARGEST_MOST]);
            let least = chance.below(most.min(LARGEST_LEAST) + 1);
            vec![front, piece(within(least, most), second)]
        })
        .collect();
    numbered(chance, phrases)
}

/// 128 phrases that end at nearly every byte of a run of a.
fn all_end_together(chance: &mut Chance) -> Book {
    let phrases = (0..MOST_PHRASES)
        .map(|most| vec![piece(ANYWHERE, "a"), piece(within(0, most), "a")])
        .collect();
    numbered(chance, phrases)
}

/// 32 phrases of eight pieces, all 256 of which are the same keyword.
fn one_keyword_everywhere(chance: &mut Chance) -> Book {
    let phrases = (0..MOST_PIECES / 8)
        .map(|_| some_phrase(chance, 8, 3, |_| b"a".to_vec()))
        .collect();
    numbered(chance, phrases)
}
