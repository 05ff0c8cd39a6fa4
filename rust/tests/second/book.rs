//! What a phrase book says, and how the paper writes it.
use std::fmt;

/// How many bytes may lie before a keyword: from least to most, or from least on.
#[derive(Clone, Copy, Debug, PartialEq, Eq)]
pub struct Gap {
    pub least: usize,
    pub most: Option<usize>,
}

#[derive(Clone, Debug, PartialEq, Eq)]
pub struct Piece {
    pub gap: Gap,
    pub keyword: Vec<u8>,
}

#[derive(Clone, Debug, PartialEq, Eq)]
pub struct Phrase {
    pub number: u32,
    pub right: u8,
    pub pieces: Vec<Piece>,
}

#[derive(Clone, Debug, Default, PartialEq, Eq)]
pub struct Book {
    pub phrases: Vec<Phrase>,
}

/// At least so many bytes.
pub const fn from(least: usize) -> Gap {
    Gap { least, most: None }
}

/// Between so many and so many bytes.
pub const fn within(least: usize, most: usize) -> Gap {
    let most = Some(most);
    Gap { least, most }
}

/// A phrase may begin anywhere.
pub const ANYWHERE: Gap = from(0);

/// Nothing lies between; in front, the phrase stands at the very start.
pub const NOTHING: Gap = within(0, 0);

pub fn piece(gap: Gap, keyword: impl Into<Vec<u8>>) -> Piece {
    let keyword = keyword.into();
    Piece { gap, keyword }
}

impl Book {
    /// A book of these phrases, numbered 1, 2, .. with rights codes 1 to 12 in turn.
    pub fn of(phrases: Vec<Vec<Piece>>) -> Book {
        let numbered = |(at, pieces)| Phrase {
            number: at as u32 + 1,
            right: at as u8 % 12 + 1,
            pieces,
        };
        let phrases = phrases.into_iter().enumerate().map(numbered).collect();
        Book { phrases }
    }

    pub fn pieces(&self) -> impl Iterator<Item = &Piece> {
        self.phrases.iter().flat_map(|phrase| &phrase.pieces)
    }

    /// The bytes of the book, record after record, whether or not they keep to the limits.
    pub fn written(&self) -> Vec<u8> {
        self.records().concat()
    }

    /// The records of the book, each with its kind byte.
    pub fn records(&self) -> Vec<Vec<u8>> {
        let mut records = vec![vec![0x01, 1]];
        for phrase in &self.phrases {
            let [high, low] = two_bytes(phrase.number as usize);
            records.push(vec![0x02, high, low, phrase.right]);
            for piece in &phrase.pieces {
                records.push(gap_record(piece.gap));
                records.push(keyword_record(&piece.keyword));
            }
        }
        let [high, low] = two_bytes(self.phrases.len());
        records.push(vec![0x7F, high, low]);
        records
    }
}

/// High byte first.
fn two_bytes(number: usize) -> [u8; 2] {
    [(number / 256) as u8, (number % 256) as u8]
}

fn gap_record(gap: Gap) -> Vec<u8> {
    let [high, low] = two_bytes(gap.least);
    match gap.most.map(two_bytes) {
        None => vec![0x04, high, low],
        Some([most_high, most_low]) => vec![0x03, high, low, most_high, most_low],
    }
}

fn keyword_record(keyword: &[u8]) -> Vec<u8> {
    let mut record = vec![0x80 + keyword.len() as u8];
    record.extend(keyword);
    record
}

/// A book as a person would note it down: `7: ~"not" {1,9}"print"`.
impl fmt::Display for Book {
    fn fmt(&self, f: &mut fmt::Formatter<'_>) -> fmt::Result {
        for phrase in &self.phrases {
            write!(f, "{}:", phrase.number)?;
            for piece in &phrase.pieces {
                let keyword = String::from_utf8_lossy(&piece.keyword);
                match piece.gap.most {
                    None => write!(f, " {{{},}}{keyword:?}", piece.gap.least)?,
                    Some(most) => write!(f, " {{{},{most}}}{keyword:?}", piece.gap.least)?,
                }
            }
            writeln!(f)?;
        }
        Ok(())
    }
}
