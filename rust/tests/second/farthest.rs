//! Letters up to the largest place, 4,294,967,295, fed for real: run on demand, by the command in README.md.
//!
//! The letter is one block of bytes, again and again. Every phrase may begin anywhere and no gap is wider than a block, so that from the third
//! block on each has the reports and steps of the third, which the second matcher and the states as strings give.
use crate::book::{piece, within, Book, ANYWHERE};
use crate::expected::Expected;
use crate::library::{self, Fed, DONE, TOO_LONG};
use std::env;
use std::io::{BufRead, BufReader, Read, Write};
use std::path::{Path, PathBuf};
use std::process::{Child, Command, Stdio};
use std::thread;

const LARGEST_PLACE: u64 = 4_294_967_295;
/// The widest gap with the longest keyword is shorter.
const BLOCK: usize = 65_536;
/// The listing hands in parts of this length.
const PART: u64 = 4_096;

/// Windows that stay open for nearly a whole block, so that in the last block they close past the largest place; one that waits as long as may be;
/// and a phrase of which every block ends the next one's beginning.
fn far_book() -> Book {
    let long = |first: &str, second: &str| {
        vec![piece(ANYWHERE, first), piece(within(224, 60_000), second)]
    };
    let next_block = vec![piece(ANYWHERE, "late"), piece(within(0, 3_000), "early")];
    Book::of(vec![
        long("open", "shut"),
        long("open", "never"),
        next_block,
        vec![piece(ANYWHERE, "shut")],
    ])
}

/// One block: "open" near its start, "shut" when that window is nearly past and once when it is past, parts of keywords now and then.
fn block() -> Vec<u8> {
    let mut block = vec![b'.'; BLOCK];
    let mut put = |at: usize, word: &[u8]| block[at..at + word.len()].copy_from_slice(word);
    for at in (3_000..60_000).step_by(1_000) {
        put(at, b"ope shu nev lat");
    }
    put(200, b"early");
    put(5_000, b"open");
    put(5_004 + 224, b"shut");
    put(5_004 + 60_000, b"shut");
    put(5_004 + 60_005, b"shut");
    put(BLOCK - 30, b"late");
    block
}

/// What a block brings: its reports with places counted from its start, and its steps.
struct Brings {
    reports: Vec<(u32, u64)>,
    steps: u64,
}

/// What the first, the second and every later block brings.
fn brings(book: &Book, block: &[u8]) -> [Brings; 3] {
    let expected = Expected::of(book, &block.repeat(3));
    [0, 1, 2].map(|at| {
        let start = at * BLOCK;
        let answer = expected.feed(start, BLOCK, usize::MAX);
        let from_start = |(number, place)| (number, u64::from(place) - start as u64);
        Brings {
            reports: answer.reports.into_iter().map(from_start).collect(),
            steps: answer.fed.steps,
        }
    })
}

/// The reports of a letter of so many bytes, in order, with places counted in 64 bits.
fn reports_of<'a>(blocks: &'a [Brings; 3], length: u64) -> impl Iterator<Item = (u32, u64)> + 'a {
    (0..)
        .zip((0..length).step_by(BLOCK))
        .flat_map(move |(at, start)| {
            let brings = &blocks[usize::min(at, 2)];
            let placed = brings
                .reports
                .iter()
                .map(move |&(number, place)| (number, start + place));
            placed.take_while(move |&(_, place)| place <= length)
        })
}

/// The steps of a letter of so many bytes, of whose last block one byte is missing that would cost `lost` steps.
fn steps_of(blocks: &[Brings; 3], length: u64, lost: u64) -> u64 {
    let count = (length + BLOCK as u64 - 1) / BLOCK as u64;
    blocks[0].steps + blocks[1].steps + (count - 2) * blocks[2].steps - lost
}

/// The steps of a third block's last byte.
fn last_byte_steps(book: &Book, block: &[u8]) -> u64 {
    let letter = block.repeat(3);
    let expected = Expected::of(book, &letter);
    expected.feed(letter.len() - 1, 1, usize::MAX).fed.steps
}

fn begun(book: &Book) -> (Vec<u8>, Vec<u8>) {
    let mut tables = vec![0; library::table_size()];
    let mut running = vec![0; library::running_size()];
    assert_eq!(library::build(&book.written(), &mut tables).number, DONE);
    assert_eq!(library::begin(&tables, &mut running), DONE);
    (tables, running)
}

#[test]
#[ignore = "feeds 4 GiB: a minute or more"]
fn the_largest_letter() {
    let (book, block) = (far_book(), block());
    let blocks = brings(&book, &block);
    let (tables, mut running) = begun(&book);
    let mut room = vec![0; 2 * 4_096];
    let mut due = reports_of(&blocks, LARGEST_PLACE);
    let (mut place, mut steps, mut reports) = (0_u64, 0, 0_u64);
    while place < LARGEST_PLACE {
        let part = &block[..BLOCK.min((LARGEST_PLACE - place) as usize)];
        let fed = library::feed(&tables, &mut running, part, &mut room);
        assert_eq!(
            (fed.number, fed.taken),
            (DONE, part.len()),
            "at place {place}"
        );
        for report in room[..2 * fed.reports].chunks(2) {
            assert_eq!(Some((report[0], u64::from(report[1]))), due.next());
        }
        place += fed.taken as u64;
        steps += fed.steps;
        reports += fed.reports as u64;
    }
    assert_eq!(due.next(), None, "a report is missing");
    assert_eq!(
        steps,
        steps_of(&blocks, LARGEST_PLACE, last_byte_steps(&book, &block))
    );
    println!("{place} bytes, {reports} reports, {steps} steps");
    let before = running.clone();
    let fed = library::feed(&tables, &mut running, b".", &mut room);
    assert_eq!(fed, Fed::refused(TOO_LONG), "one byte more");
    assert!(running == before, "feed, refused, changed its memory");
    let fed = library::feed(&tables, &mut running, b"", &mut room);
    assert_eq!(
        fed,
        Fed {
            number: DONE,
            ..Fed::refused(0)
        },
        "an empty part"
    );
    assert!(running == before, "an empty part changes nothing");
}

/// 128 phrases that all end at every byte a.
fn all_end_at_a() -> Book {
    Book::of((0..128).map(|_| vec![piece(ANYWHERE, "a")]).collect())
}

/// 128 phrases end at every byte: the reports pass 2^32.
#[test]
#[ignore = "more than 4,294,967,296 reports: a minute or more"]
fn reports_past_32_bits() {
    let (tables, mut running) = begun(&all_end_at_a());
    let part = vec![b'a'; 4_096];
    let mut room = vec![0; 2 * 128 * 64];
    let length = (1 << 25) + 1;
    let (mut place, mut reports, mut steps) = (0_u64, 0_u64, 0);
    while place < length {
        let offered = part.len().min((length - place) as usize);
        let fed = library::feed(&tables, &mut running, &part[..offered], &mut room);
        assert_eq!(fed.number, DONE);
        for (report, at) in room[..2 * fed.reports].chunks(2).zip(0_u64..) {
            assert_eq!(
                [at as u32 % 128 + 1, (place + at / 128 + 1) as u32],
                report[..]
            );
        }
        place += fed.taken as u64;
        reports += fed.reports as u64;
        steps += fed.steps;
    }
    assert_eq!((reports, steps), (128 * length, length - 1));
    assert!(reports > 1 << 32);
    println!("{place} bytes, {reports} reports, {steps} steps");
}

/// The listing program: the one that TSUVRANKHE_LIST names, as that of tools/native-list, or else bin/list.
fn list() -> PathBuf {
    env::var_os("TSUVRANKHE_LIST").map_or_else(
        || Path::new(env!("CARGO_MANIFEST_DIR")).join("../bin/list"),
        PathBuf::from,
    )
}

/// Starts the listing with this book and a letter that is the block again and again, up to so many bytes.
fn listing(list: &Path, book: &Book, block: Vec<u8>, length: u64) -> Child {
    let mut child = Command::new(list)
        .stdin(Stdio::piped())
        .stdout(Stdio::piped())
        .spawn()
        .unwrap();
    let mut input = child.stdin.take().unwrap();
    let bytes = book.written();
    thread::spawn(move || {
        input
            .write_all(&(bytes.len() as u16).to_be_bytes())
            .unwrap();
        input.write_all(&bytes).unwrap();
        let mut left = length;
        while left > 0 {
            let part = &block[..block.len().min(left as usize)];
            // A listing that is refused need not read on.
            if input.write_all(part).is_err() {
                return;
            }
            left -= part.len() as u64;
        }
    });
    child
}

/// Compares the listing of a letter of so many bytes with its hits up to `heard` bytes and with the line that ends it.
fn compare_listing(length: u64, heard: u64, last: impl Fn(u64, u64) -> String) {
    let list = list();
    let (book, block) = (far_book(), block());
    let blocks = brings(&book, &block);
    let mut child = listing(&list, &book, block.clone(), length);
    let mut lines = BufReader::new(child.stdout.take().unwrap())
        .lines()
        .map(Result::unwrap);
    let mut line = || lines.next().unwrap_or_default();
    assert_eq!(
        line(),
        format!(
            "book 0 at {} phrases {}",
            book.written().len(),
            book.phrases.len()
        )
    );
    let mut hits = 0;
    for (number, place) in reports_of(&blocks, heard) {
        let right = book
            .phrases
            .iter()
            .find(|phrase| phrase.number == number)
            .unwrap()
            .right;
        assert_eq!(line(), format!("hit {place} phrase {number} right {right}"));
        hits += 1;
    }
    let steps = steps_of(&blocks, LARGEST_PLACE, last_byte_steps(&book, &block));
    assert_eq!(line(), last(hits, steps));
    assert_eq!(line(), "", "nothing more is written");
    assert!(
        child.wait().unwrap().success() || length > LARGEST_PLACE,
        "the listing's status"
    );
    println!("{length} bytes, {hits} hits");
}

#[test]
#[ignore = "lists 4 GiB: minutes"]
fn the_listing_of_the_largest_letter() {
    compare_listing(LARGEST_PLACE, LARGEST_PLACE, |hits, steps| {
        format!("end {LARGEST_PLACE} hits {hits} steps {steps}")
    });
}

/// The whole last part is judged, so that its first 4,095 bytes are not taken either.
#[test]
#[ignore = "lists 4 GiB: minutes"]
fn the_listing_of_one_byte_more() {
    let heard = (LARGEST_PLACE + 1) / PART * PART - PART;
    assert_eq!(heard, 4_294_963_200);
    compare_listing(LARGEST_PLACE + 1, heard, |_, _| {
        "letter 11 at 4294963200".to_string()
    });
}

/// Every byte is a hit of 128 phrases: 4,294,967,424 lines, of which only the number and the last one are looked at.
#[test]
#[ignore = "writes 120 GB of lines into a pipe: many minutes"]
fn the_listing_counts_hits_past_32_bits() {
    let length = (1 << 25) + 1;
    let mut child = listing(&list(), &all_end_at_a(), vec![b'a'; BLOCK], length);
    let mut output = child.stdout.take().unwrap();
    let mut bytes = vec![0; 1 << 20];
    let (mut lines, mut tail) = (0_u64, Vec::new());
    loop {
        let read = output.read(&mut bytes).unwrap();
        if read == 0 {
            break;
        }
        lines += bytes[..read].iter().filter(|&&byte| byte == b'\n').count() as u64;
        tail.extend(&bytes[read.saturating_sub(100)..read]);
        tail.drain(..tail.len().saturating_sub(100));
    }
    assert!(child.wait().unwrap().success(), "the listing's status");
    let tail = String::from_utf8(tail).unwrap();
    let (hits, steps) = (128 * length, length - 1);
    assert!(
        tail.ends_with(&format!("\nend {length} hits {hits} steps {steps}\n")),
        "{tail}"
    );
    assert_eq!(
        lines,
        hits + 2,
        "a line for the book, one for each hit, one for the end"
    );
}
