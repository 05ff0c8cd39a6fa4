//! Writes the listing of a phrase book and a letter, as the paper has it.
//!
//! With no argument it lists the paper's example: the book of one phrase, "not", then 1 to 9 bytes, then "print", and the letter
//! `do not ever print`. With two it reads the book and the letter from these files: `scan BOOK LETTER`.
use std::collections::BTreeMap;
use std::io::{self, Read, Write};
use std::{env, fs, process};
use tsuvrankhe::{Fed, Scanner, Tables};

const BOOK: &[u8] =
    b"\x01\x01\x02\x00\x07\x01\x04\x00\x00\x83not\x03\x00\x01\x00\x09\x85print\x7f\x00\x01";
const LETTER: &[u8] = b"do not ever print";

/// How many bytes of a letter are offered at once.
const PART: usize = 4096;

/// The rights code of each phrase number, from the records of a book that build has accepted.
fn rights_codes(book: &[u8]) -> BTreeMap<u32, u8> {
    let mut codes = BTreeMap::new();
    let mut at = 0;
    while let Some(&kind) = book.get(at) {
        if kind == 0x02 {
            let number = u32::from(book[at + 1]) << 8 | u32::from(book[at + 2]);
            codes.insert(number, book[at + 3]);
        }
        at += 1 + match kind {
            0x01 => 1,
            0x02 => 3,
            0x03 => 4,
            0x04 | 0x7f => 2,
            keyword => usize::from(keyword - 0x80),
        };
    }
    codes
}

/// Fills the part as far as the letter goes, and says how far.
fn next_part(letter: &mut dyn Read, part: &mut [u8]) -> io::Result<usize> {
    let mut filled = 0;
    loop {
        match letter.read(&mut part[filled..])? {
            0 => return Ok(filled),
            more => filled += more,
        }
    }
}

fn list(book: &[u8], letter: &mut dyn Read, out: &mut dyn Write) -> io::Result<()> {
    let tables = match Tables::build(book) {
        Ok(tables) => tables,
        Err(refused) => {
            return writeln!(out, "book {} at {}", refused.refusal.number(), refused.at)
        }
    };
    let codes = rights_codes(book);
    writeln!(out, "book 0 at {} phrases {}", book.len(), codes.len())?;

    let mut scanner = Scanner::begin(&tables);
    let mut part = vec![0; PART];
    let mut all = Fed::default();
    loop {
        let length = next_part(letter, &mut part)?;
        if length == 0 {
            break;
        }
        let mut wrote = Ok(());
        let fed = scanner.feed(&part[..length], |report| {
            if wrote.is_ok() {
                let right = codes[&report.phrase];
                wrote = writeln!(
                    out,
                    "hit {} phrase {} right {right}",
                    report.place, report.phrase
                );
            }
        });
        wrote?;
        match fed {
            Ok(fed) => {
                all.taken += fed.taken;
                all.reports += fed.reports;
                all.steps += fed.steps;
            }
            Err(refused) => {
                return writeln!(out, "letter {} at {}", refused.refusal.number(), refused.at)
            }
        }
    }
    writeln!(
        out,
        "end {} hits {} steps {}",
        all.taken, all.reports, all.steps
    )?;
    if all.reports == 0 {
        writeln!(out, "no statement")?;
    }
    Ok(())
}

fn main() -> io::Result<()> {
    let words: Vec<_> = env::args_os().skip(1).collect();
    let mut out = io::stdout().lock();
    match &words[..] {
        [] => list(BOOK, &mut &LETTER[..], &mut out),
        [book, letter] => list(&fs::read(book)?, &mut fs::File::open(letter)?, &mut out),
        _ => {
            eprintln!(
                "scan: the paper's example; scan BOOK LETTER: the listing of these two files"
            );
            process::exit(2)
        }
    }
}

#[cfg(test)]
mod tests {
    use super::{list, BOOK, LETTER};

    fn listing(book: &[u8], mut letter: &[u8]) -> String {
        let mut out = Vec::new();
        list(book, &mut letter, &mut out).unwrap();
        String::from_utf8(out).unwrap()
    }

    #[test]
    fn the_papers_example() {
        assert_eq!(
            listing(BOOK, LETTER),
            "book 0 at 27 phrases 1\nhit 17 phrase 7 right 1\nend 17 hits 1 steps 1\n"
        );
    }

    #[test]
    fn least_above_most() {
        let mut book = BOOK.to_vec();
        book[15] = 9;
        book[17] = 1;
        assert_eq!(listing(&book, LETTER), "book 5 at 13\n");
    }

    #[test]
    fn no_hits() {
        assert_eq!(
            listing(BOOK, b"do print"),
            "book 0 at 27 phrases 1\nend 8 hits 0 steps 0\nno statement\n"
        );
    }

    #[test]
    fn a_hit_across_two_parts() {
        let mut letter = vec![b' '; 4090];
        letter.extend(LETTER);
        assert_eq!(
            listing(BOOK, &letter),
            "book 0 at 27 phrases 1\nhit 4107 phrase 7 right 1\nend 4107 hits 1 steps 1\n"
        );
    }
}
