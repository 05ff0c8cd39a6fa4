//! Which books are accepted, and why and where the others are refused: the paper's "The phrase book" and its table of numbers.
use crate::book::{from, within, Book, Gap, Phrase, Piece};
use std::collections::HashSet;
use std::convert::TryInto;

const MOST_PHRASES: usize = 128;
const MOST_PIECES_OF_A_PHRASE: usize = 8;
const MOST_PIECES: usize = 256;
const MOST_PREFIXES: usize = 2_047;
const RIGHTS: std::ops::RangeInclusive<u8> = 1..=12;
const LARGEST_LEAST: usize = 224;
const LARGEST_MOST: usize = 60_000;

/// Why, by the paper's number, and where: the offset of a record's kind byte, or the book's length where it stops between records.
#[derive(Clone, Copy, Debug, PartialEq, Eq)]
pub struct Refused {
    pub number: u32,
    pub offset: usize,
}

/// What was read last, which decides what may come next.
#[derive(Clone, Copy, PartialEq, Eq)]
enum Last {
    Nothing,
    Header,
    Phrase,
    Gap,
    Keyword,
    End,
}

/// A kind of record, with how many bytes follow its kind byte.
#[derive(Clone, Copy, PartialEq, Eq)]
enum Kind {
    Header,
    Phrase,
    BoundedGap,
    OpenGap,
    Keyword(usize),
    End,
}

impl Kind {
    fn of(byte: u8) -> Option<Kind> {
        match byte {
            0x01 => Some(Kind::Header),
            0x02 => Some(Kind::Phrase),
            0x03 => Some(Kind::BoundedGap),
            0x04 => Some(Kind::OpenGap),
            0x81..=0xA0 => Some(Kind::Keyword(byte as usize - 0x80)),
            0x7F => Some(Kind::End),
            _ => None,
        }
    }

    fn body(self) -> usize {
        match self {
            Kind::Header => 1,
            Kind::Phrase => 3,
            Kind::BoundedGap => 4,
            Kind::OpenGap => 2,
            Kind::Keyword(length) => length,
            Kind::End => 2,
        }
    }

    fn may_follow(self, last: Last) -> bool {
        match self {
            Kind::Header => last == Last::Nothing,
            Kind::Phrase => last == Last::Header || last == Last::Keyword,
            Kind::BoundedGap | Kind::OpenGap => last == Last::Phrase || last == Last::Keyword,
            Kind::Keyword(_) => last == Last::Gap,
            Kind::End => last == Last::Keyword,
        }
    }
}

/// The first two bytes as a number, high byte first.
fn two(bytes: &[u8]) -> usize {
    let pair: [u8; 2] = bytes[..2].try_into().unwrap();
    u16::from_be_bytes(pair).into()
}

/// A book that is being read.
struct Reading {
    last: Last,
    book: Book,
    gap: Gap,
    prefixes: HashSet<Vec<u8>>,
}

impl Reading {
    /// Takes in one whole record, or says the first number that it is to be refused with.
    fn take(&mut self, kind: Kind, body: &[u8]) -> Result<(), u32> {
        match kind {
            Kind::Header => self.header(body[0]),
            Kind::Phrase => self.phrase(two(body) as u32, body[2]),
            Kind::BoundedGap => self.gap(within(two(body), two(&body[2..]))),
            Kind::OpenGap => self.gap(from(two(body))),
            Kind::Keyword(_) => self.keyword(body),
            Kind::End => self.end(two(body)),
        }
    }

    fn header(&mut self, edition: u8) -> Result<(), u32> {
        if edition != 1 {
            return Err(4);
        }
        self.last = Last::Header;
        Ok(())
    }

    fn phrase(&mut self, number: u32, right: u8) -> Result<(), u32> {
        let before = self.book.phrases.last().map_or(0, |phrase| phrase.number);
        if number == 0 || !RIGHTS.contains(&right) {
            return Err(4);
        }
        if number <= before {
            return Err(6);
        }
        if self.book.phrases.len() == MOST_PHRASES {
            return Err(7);
        }
        let pieces = Vec::new();
        self.book.phrases.push(Phrase {
            number,
            right,
            pieces,
        });
        self.last = Last::Phrase;
        Ok(())
    }

    fn gap(&mut self, gap: Gap) -> Result<(), u32> {
        if gap.least > LARGEST_LEAST || gap.most.map_or(false, |most| most > LARGEST_MOST) {
            return Err(4);
        }
        if gap.most.map_or(false, |most| gap.least > most) {
            return Err(5);
        }
        let of_this_phrase = self
            .book
            .phrases
            .last()
            .map_or(0, |phrase| phrase.pieces.len());
        if of_this_phrase == MOST_PIECES_OF_A_PHRASE || self.book.pieces().count() == MOST_PIECES {
            return Err(7);
        }
        self.gap = gap;
        self.last = Last::Gap;
        Ok(())
    }

    fn keyword(&mut self, keyword: &[u8]) -> Result<(), u32> {
        for length in 1..=keyword.len() {
            self.prefixes.insert(keyword[..length].to_vec());
        }
        if self.prefixes.len() > MOST_PREFIXES {
            return Err(9);
        }
        let phrase = self.book.phrases.last_mut().unwrap();
        phrase.pieces.push(Piece {
            gap: self.gap,
            keyword: keyword.to_vec(),
        });
        self.last = Last::Keyword;
        Ok(())
    }

    fn end(&mut self, phrases: usize) -> Result<(), u32> {
        if phrases != self.book.phrases.len() {
            return Err(8);
        }
        self.last = Last::End;
        Ok(())
    }
}

/// The book that these bytes are, or why and where they are refused.
pub fn judged(bytes: &[u8]) -> Result<Book, Refused> {
    let mut reading = Reading {
        last: Last::Nothing,
        book: Book::default(),
        gap: from(0),
        prefixes: HashSet::new(),
    };
    let mut offset = 0;
    while offset < bytes.len() {
        let refused = |number| Refused { number, offset };
        let kind = Kind::of(bytes[offset])
            .filter(|kind| kind.may_follow(reading.last))
            .ok_or_else(|| refused(3))?;
        let body = bytes[offset + 1..]
            .get(..kind.body())
            .ok_or_else(|| refused(2))?;
        reading.take(kind, body).map_err(refused)?;
        offset += 1 + kind.body();
    }
    if reading.last != Last::End {
        return Err(Refused { number: 2, offset });
    }
    Ok(reading.book)
}
