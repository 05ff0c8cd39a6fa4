//! The books that speed is measured with.
use crate::book::{from, piece, within, Book, Piece, ANYWHERE, NOTHING};
use crate::chance::Chance;
use crate::words;
use std::collections::HashSet;

const MOST_PREFIXES: usize = 2_047;
const MOST_PHRASES: usize = 128;
const MOST_PIECES: usize = 256;
const LONGEST_KEYWORD: usize = 32;

/// "first", then between least and most bytes, then "second".
fn two(first: &str, least: usize, most: usize, second: &str) -> Vec<Piece> {
    vec![piece(ANYWHERE, first), piece(within(least, most), second)]
}

/// Eight phrases as a licensing officer would put them first.
pub fn english8() -> Book {
    Book::of(vec![
        two("not", 1, 9, "print"),
        two("never", 1, 20, "publish"),
        two("keep", 1, 30, "private"),
        two("burn", 1, 12, "letter"),
        two("without", 1, 24, "permission"),
        two("strictly", 1, 1, "secret"),
        two("for", 1, 16, "family"),
        two("no", 1, 12, "copies"),
    ])
}

/// Forty phrases of one to three pieces, some tied to the letter's start and some with open gaps.
pub fn english40() -> Book {
    let chance = &mut Chance::seeded(40);
    let firsts: Vec<&str> = "not never without keep burn destroy return sealed until consent secret forbid trust promise wish private owner"
        .split_whitespace()
        .collect();
    let lasts: Vec<&str> = "print publish copy quote release reproduce photograph newspaper press permission editor scholar archive library"
        .split_whitespace()
        .collect();
    let mut phrases = vec![
        vec![piece(NOTHING, "Confidential")],
        vec![
            piece(within(0, 200), "private"),
            piece(within(1, 40), "letter"),
        ],
    ];
    while phrases.len() < 40 {
        let (first, last) = (*chance.one_of(&firsts), *chance.one_of(&lasts));
        let most = chance.between(8, 40);
        phrases.push(match phrases.len() % 8 {
            7 => vec![
                piece(ANYWHERE, format!("{first} to")),
                piece(from(chance.below(6)), format!("{last}ed")),
            ],
            1 | 4 => vec![
                piece(ANYWHERE, first),
                piece(within(1, 12), "be"),
                piece(within(1, most), last),
            ],
            _ => two(first, 1, most, last),
        });
    }
    Book::of(phrases)
}

/// 256 different keywords of these whose different prefixes keep to the limit and come near it: each brings about as many new ones as are left for
/// each keyword. Where too few do, those are taken that come less near.
fn within_the_prefixes(candidates: &[String]) -> Vec<String> {
    let mut prefixes = HashSet::new();
    let mut keywords = Vec::new();
    for off_by in [1, 3, 5, 8] {
        for word in candidates {
            if keywords.len() == MOST_PIECES {
                return keywords;
            }
            let share = (MOST_PREFIXES - prefixes.len()) / (MOST_PIECES - keywords.len());
            let new = (1..=word.len())
                .filter(|&length| !prefixes.contains(&word[..length]))
                .count();
            let near = new <= share && new + off_by >= share;
            if near && !keywords.contains(word) {
                prefixes.extend((1..=word.len()).map(|length| &word[..length]));
                keywords.push(word.clone());
            }
        }
    }
    panic!("there are too few words for {MOST_PIECES} keywords");
}

fn shuffled<T>(chance: &mut Chance, mut all: Vec<T>) -> Vec<T> {
    for at in (1..all.len()).rev() {
        all.swap(at, chance.below(at + 1));
    }
    all
}

/// 128 phrases of two keywords each.
fn in_pairs(chance: &mut Chance, keywords: &[String]) -> Book {
    let pair = |two_of: &[String]| {
        let least = *chance.one_of(&[0, 1, 1, 1, 2, 8]);
        two(&two_of[0], least, least + chance.between(5, 60), &two_of[1])
    };
    Book::of(keywords.chunks(2).map(pair).collect())
}

/// 128 phrases of two pieces, 256 different English words of some length.
pub fn english128() -> Book {
    let chance = &mut Chance::seeded(128);
    let long = |word: &String| (6..=14).contains(&word.len());
    let words = words::all().into_iter().filter(long).collect();
    let keywords = within_the_prefixes(&shuffled(chance, words));
    in_pairs(chance, &keywords)
}

/// 128 phrases whose keywords have capitals and spaces: "Sealed letter", " the Estate", "my Brother".
pub fn capitals128() -> Book {
    let chance = &mut Chance::seeded(129);
    let all = words::all();
    let (common, longer) = (&all[..60], &all[100..]);
    let candidates = (0..60_000).map(|_| {
        let (short, long) = (chance.one_of(common), chance.one_of(longer));
        let long = words::capital(long);
        match chance.below(4) {
            0 => format!("{long} {short}"),
            1 => format!(" {long}"),
            2 => format!("{short} {long}"),
            _ => format!("{} {long}", words::capital(short)),
        }
    });
    let candidates: Vec<String> = candidates.filter(|words| words.len() <= 16).collect();
    let keywords = within_the_prefixes(&candidates);
    in_pairs(chance, &keywords)
}

/// Keywords of a and b with 2,047 different prefixes: runs that end in a surprise, repeated pairs, and any others, so that failures are many and deep.
pub fn hostile() -> Book {
    let chance = &mut Chance::seeded(2);
    let mut keywords = vec![
        vec![b'a'; 32],
        b"ab".repeat(16),
        b"aab".repeat(10),
        b"abb".repeat(10),
        b"ba".repeat(15),
    ];
    for run in (2..31).step_by(3) {
        keywords.push([vec![b'a'; run], b"ba".to_vec()].concat());
        keywords.push([vec![b'a'; run + 1], b"bb".to_vec()].concat());
    }
    keywords.resize_with(MOST_PIECES, Vec::new);
    let mut prefixes: HashSet<Vec<u8>> = HashSet::new();
    for keyword in keywords.iter() {
        prefixes.extend((1..=keyword.len()).map(|length| keyword[..length].to_vec()));
    }
    // The others grow by one byte at a time, all alike, until the prefixes are used up.
    while prefixes.len() < MOST_PREFIXES {
        let at = chance.below(MOST_PIECES);
        if keywords[at].len() < LONGEST_KEYWORD {
            keywords[at].push(*chance.one_of(b"ab"));
            prefixes.insert(keywords[at].clone());
        }
    }
    for keyword in keywords.iter_mut().filter(|keyword| keyword.is_empty()) {
        keyword.push(b'a');
    }
    let keywords = shuffled(chance, keywords);
    let phrase = |two_of: &[Vec<u8>]| {
        let least = *chance.one_of(&[0, 1, 3, 40, 120, 224]);
        let more = *chance.one_of(&[0, 1, 7, 40]);
        let gap = if chance.once_in(16) {
            from(least)
        } else {
            within(least, least + more)
        };
        vec![
            piece(ANYWHERE, two_of[0].clone()),
            piece(gap, two_of[1].clone()),
        ]
    };
    Book::of(keywords.chunks(2).map(phrase).collect())
}

/// The longest book, 10,245 bytes: 256 keywords of 32 bytes behind bounded gaps.
pub fn longest() -> Book {
    let chance = &mut Chance::seeded(10_245);
    let keywords: Vec<Vec<u8>> = (0..63)
        .map(|_| chance.bytes(LONGEST_KEYWORD, b"abcd"))
        .collect();
    let bounded = |at: usize| piece(within(0, 100), keywords[at % keywords.len()].clone());
    Book::of(
        (0..MOST_PHRASES)
            .map(|at| vec![bounded(2 * at), bounded(2 * at + 1)])
            .collect(),
    )
}

/// The first phrases of a book.
pub fn first_phrases(book: &Book, count: usize) -> Book {
    Book {
        phrases: book.phrases[..count].to_vec(),
    }
}
