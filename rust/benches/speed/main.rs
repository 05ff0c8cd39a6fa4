//! How fast the scanner reads, beside a textbook Aho-Corasick automaton on the same books and letters: `bin/bench` builds and runs this.
//!
//!     bin/bench                              everything; the last lines are the ratios, ours to the textbook's
//!     bin/bench files FOLDER                 writes the books and letters there
//!     bin/bench textbook BOOK LETTER         the textbook alone on files
#[allow(dead_code)]
#[path = "../../tests/second/book.rs"]
mod book;
mod books;
#[allow(dead_code)]
#[path = "../../tests/second/chance.rs"]
mod chance;
mod contest;
mod letters;
mod listing;
mod textbook;
mod timing;
mod words;

use book::Book;
use contest::{textbook_alone, Contest};
use std::path::Path;
use std::{env, fs};
use textbook::Textbook;
use timing::median_seconds;
use tsuvrankhe::{Refusal, Tables};

/// A million bytes.
const MB: usize = 1_000_000;
/// The letters of the contest.
const LETTER: usize = 8 * MB;
const LONGEST_LETTER: usize = 64 * MB;

/// A name, a book, and a letter to read against it.
type Case = (&'static str, Book, Vec<u8>);

fn cases() -> Vec<Case> {
    let english = |book: Book| {
        let letter = letters::english(&book, LETTER);
        (book, letter)
    };
    let named = |name, (book, letter)| (name, book, letter);
    let (hostile, quiet) = (books::hostile(), books::english128());
    let (hostile_letter, quiet_letter) = (
        letters::hostile(&hostile, LETTER),
        letters::without_a_hit(&quiet, LETTER),
    );
    vec![
        named("english8", english(books::english8())),
        named("english40", english(books::english40())),
        named("english128", english(books::english128())),
        named("capitals128", english(books::capitals128())),
        named("hostile", (hostile, hostile_letter)),
        named("nohit", (quiet, quiet_letter)),
    ]
}

/// What was measured, on what machine, and what else it was doing.
fn header() {
    let measured = env::var("TSUVRANKHE_MEASURED")
        .unwrap_or_else(|_| "the library that TSUVRANKHE_LIB names".to_string());
    println!("measured: {measured}");
    let load = fs::read_to_string("/proc/loadavg").unwrap_or_default();
    let cores = std::thread::available_parallelism().map_or(1, usize::from);
    println!(
        "machine: {}, {cores} cores, load {}",
        env::consts::ARCH,
        load.split(' ').take(3).collect::<Vec<_>>().join(" ")
    );
    println!(
        "speeds are in millions of bytes a second of processor time, the middle one of five passes"
    );
}

/// The time of building, of judging, and of the textbook's building.
fn building_times(cases: &[Case]) {
    println!(
        "\n{:12} {:>7} {:>6} {:>8} {:>6} {:>10} {:>10} {:>12}",
        "book", "phrases", "pieces", "prefixes", "bytes", "build us", "judge us", "textbook us"
    );
    let longest = books::longest();
    let named = cases[..5].iter().map(|(name, book, _)| (*name, book));
    for (name, book) in named.chain([("longest", &longest)]) {
        let bytes = book.written();
        let mut wrong_end = bytes.clone();
        *wrong_end.last_mut().unwrap() ^= 0x80;
        let refused = Tables::build(&wrong_end).unwrap_err();
        assert_eq!(
            (refused.refusal, refused.at),
            (Refusal::Total, bytes.len() - 3)
        );
        let build = median_seconds(|| drop(Tables::build(&bytes).unwrap()));
        let judge = median_seconds(|| assert!(Tables::build(&wrong_end).is_err()));
        let textbook = median_seconds(|| drop(Textbook::build(&bytes)));
        let prefixes = Textbook::build(&bytes).states() - 1;
        let (phrases, pieces) = (book.phrases.len(), book.pieces().count());
        println!(
            "{name:12} {phrases:7} {pieces:6} {prefixes:8} {:6} {:10.1} {:10.1} {:12.1}",
            bytes.len(),
            build * 1e6,
            judge * 1e6,
            textbook * 1e6
        );
    }
    println!("judge: of the same book with a wrong end record, which is judged to its end and refused; it includes clearing the table memory");
}

/// The contest proper. Answers the lines that are written last.
fn contests(cases: &[Case]) -> Vec<String> {
    println!(
        "\n{:12} {:>10} {:>9} {:>9} {:>9} {:>9}",
        "letter", "reports", "steps", "ours", "textbook", "ratio"
    );
    let mut ratios = Vec::new();
    for (name, book, letter) in cases {
        let mut contest = Contest::of(name, book);
        let came = contest.compare(letter);
        assert_eq!(
            *name == "nohit",
            came.reports == 0,
            "{name} has hits or has none"
        );
        let speeds = contest.measure(letter);
        println!(
            "{name:12} {:10} {:9} {:9.1} {:9.1} {:9.2}",
            came.reports, came.steps, speeds.ours, speeds.textbook, speeds.ratio
        );
        ratios.push(format!("ratio {name} {:.2}", speeds.ratio));
    }
    ratios
}

/// How the cost of a byte grows with the phrases of the book, and that of a letter with its length. Answers the scanner's speed on the longest.
fn growth(book: &Book, longest: &[u8]) -> f64 {
    println!(
        "\n{:>10} {:>8} {:>14} {:>18}",
        "phrases", "states", "ours ns/byte", "textbook ns/byte"
    );
    for count in [1, 2, 4, 8, 16, 32, 64, 128] {
        let mut contest = Contest::of("growth", &books::first_phrases(book, count));
        let speeds = contest.measure(&longest[..LETTER]);
        println!(
            "{count:10} {:8} {:14.2} {:18.2}",
            contest.states(),
            1e3 / speeds.ours,
            1e3 / speeds.textbook
        );
    }
    println!(
        "\n{:>10} {:>14} {:>18}",
        "bytes", "ours ns/byte", "textbook ns/byte"
    );
    let mut contest = Contest::of("growth", book);
    let mut last = 0.0;
    for length in [
        MB / 64,
        MB / 16,
        MB / 4,
        MB,
        4 * MB,
        16 * MB,
        LONGEST_LETTER,
    ] {
        let speeds = contest.measure(&longest[..length]);
        println!(
            "{length:10} {:14.2} {:18.2}",
            1e3 / speeds.ours,
            1e3 / speeds.textbook
        );
        last = speeds.ours;
    }
    last
}

fn everything() {
    header();
    let cases = cases();
    building_times(&cases);
    let ratios = contests(&cases);
    let book = &cases[2].1;
    let longest = letters::english(book, LONGEST_LETTER);
    let feed = growth(book, &longest);
    println!();
    listing::measure(book, &longest, feed);
    println!();
    ratios.iter().for_each(|line| println!("{line}"));
}

/// Writes each book and letter into a file, for other programs to be measured on.
fn write_files(folder: &Path) {
    fs::create_dir_all(folder).unwrap();
    for (name, book, letter) in cases() {
        fs::write(folder.join(format!("{name}.book")), book.written()).unwrap();
        fs::write(folder.join(format!("{name}.letter")), letter).unwrap();
    }
}

fn read_textbook(book: &str, letter: &str) {
    let (book, letter) = (fs::read(book).unwrap(), fs::read(letter).unwrap());
    let (best, came) = textbook_alone(&book, &letter);
    println!(
        "textbook: {} bytes, best {best:.1} MB/s, {} reports, {} steps",
        letter.len(),
        came.reports,
        came.steps
    );
}

fn main() {
    let words: Vec<String> = env::args()
        .skip(1)
        .filter(|word| word != "--bench")
        .collect();
    match words.iter().map(String::as_str).collect::<Vec<_>>()[..] {
        [] => everything(),
        ["files", folder] => write_files(Path::new(folder)),
        ["textbook", book, letter] => read_textbook(book, letter),
        _ => panic!("bench, or: bench files FOLDER, or: bench textbook BOOK LETTER"),
    }
}
