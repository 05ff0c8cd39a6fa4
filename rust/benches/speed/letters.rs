//! The letters that speed is measured with: sentences with capitals and punctuation, hits now and then, and letters of two bytes only.
use crate::book::{Book, Phrase};
use crate::chance::Chance;
use crate::words;

/// About how many bytes there are from one planted phrase to the next.
const BETWEEN_HITS: usize = 2_000;

/// Draws words, common ones more often: the word of rank r about as often as 1 in r.
struct Drawer {
    words: Vec<String>,
    /// Ranks in the proportion in which they are drawn.
    lots: Vec<u16>,
}

impl Drawer {
    fn of(words: Vec<String>) -> Drawer {
        let mut lots = Vec::new();
        for rank in 0..words.len() {
            let times = 60_000 / (rank + 3);
            lots.extend(std::iter::repeat(rank as u16).take(times.max(1)));
        }
        Drawer { words, lots }
    }

    fn draw(&self, chance: &mut Chance) -> &str {
        &self.words[usize::from(*chance.one_of(&self.lots))]
    }
}

/// A phrase written out within its bounds.
fn planted(chance: &mut Chance, phrase: &Phrase, drawer: &Drawer, letter: &mut Vec<u8>) {
    for (at, piece) in phrase.pieces.iter().enumerate() {
        if at > 0 {
            let most = piece.gap.most.unwrap_or(piece.gap.least + 90);
            let past = letter.len() + chance.between(piece.gap.least, most);
            while letter.len() < past {
                letter.push(b' ');
                letter.extend(drawer.draw(chance).bytes());
            }
            letter.truncate(past);
        }
        letter.extend(&piece.keyword);
    }
}

/// One sentence, with a capital, commas and the like, and an end.
fn sentence(chance: &mut Chance, drawer: &Drawer, letter: &mut Vec<u8>) {
    let words = chance.between(4, 24);
    for at in 0..words {
        let word = drawer.draw(chance);
        if at == 0 || word == "i" || chance.once_in(25) {
            letter.extend(words::capital(word).bytes());
        } else {
            letter.extend(word.bytes());
        }
        if at + 1 < words {
            let between = match chance.below(40) {
                0..=2 => ", ",
                3 => "; ",
                4 => "\n",
                5 => " - ",
                6 => "'s ",
                _ => " ",
            };
            letter.extend(between.bytes());
        }
    }
    let end = *chance.one_of(&[". ", ". ", ". ", ".\n", "? ", "! ", ".\n\n"]);
    letter.extend(end.bytes());
}

fn prose(seed: u64, drawer: &Drawer, length: usize, book: Option<&Book>) -> Vec<u8> {
    let chance = &mut Chance::seeded(seed);
    let mut letter = b"Dear Sir,\n\n".to_vec();
    letter.reserve(length + 1_000);
    let mut next_hit = chance.below(BETWEEN_HITS);
    while letter.len() < length {
        sentence(chance, drawer, &mut letter);
        match book {
            Some(book) if letter.len() > next_hit => {
                let phrase = chance.one_of(&book.phrases);
                planted(chance, phrase, drawer, &mut letter);
                letter.extend(b". ");
                next_hit = letter.len() + chance.between(BETWEEN_HITS / 2, 3 * BETWEEN_HITS / 2);
            }
            _ => (),
        }
    }
    letter.truncate(length);
    letter
}

/// English-like, with phrases of the book now and then.
pub fn english(book: &Book, length: usize) -> Vec<u8> {
    prose(1, &Drawer::of(words::all()), length, Some(book))
}

/// English-like, of words in which no phrase's last keyword is.
pub fn without_a_hit(book: &Book, length: usize) -> Vec<u8> {
    let lasts: Vec<&[u8]> = book
        .phrases
        .iter()
        .filter_map(|phrase| phrase.pieces.last())
        .map(|piece| &piece.keyword[..])
        .collect();
    let mut words = words::all();
    words.retain(|word| {
        !lasts.iter().any(|last| {
            word.as_bytes()
                .windows(last.len())
                .any(|part| part == *last)
        })
    });
    prose(2, &Drawer::of(words), length, None)
}

/// Of a and b, seldom c: any of them, long runs, keywords without their last bytes, and repeated pairs.
pub fn hostile(book: &Book, length: usize) -> Vec<u8> {
    let chance = &mut Chance::seeded(3);
    let keywords: Vec<&Vec<u8>> = book.pieces().map(|piece| &piece.keyword).collect();
    let mut letter = Vec::with_capacity(length + 1_000);
    while letter.len() < length {
        let past = letter.len() + chance.between(500, 2_000);
        match chance.below(4) {
            0 => letter.extend(chance.bytes(1_000, b"ab")),
            1 => {
                while letter.len() < past {
                    letter.resize(letter.len() + chance.between(20, 200), b'a');
                    letter.extend(chance.one_of(&[&b"b"[..], b"bb", b"c"]).iter());
                }
            }
            2 => {
                while letter.len() < past {
                    let keyword = chance.one_of(&keywords);
                    let cut = (*chance.one_of(&[0, 1, 1, 1, 2])).min(keyword.len() - 1);
                    letter.extend(&keyword[..keyword.len() - cut]);
                }
            }
            _ => {
                letter.extend(b"ab".repeat(chance.between(10, 300)));
                letter.extend(b"aab".repeat(chance.between(10, 200)));
            }
        }
    }
    letter.truncate(length);
    letter
}
