//! The whole listing of a letter through program `list`, beside feed.
use crate::book::Book;
use crate::timing::{median, programs_seconds, speed, PASSES};
use std::env;
use std::fs::{self, File};
use std::path::{Path, PathBuf};
use std::process::{Command, Stdio};
use std::time::Instant;
use tsuvrankhe::{Scanner, Tables};

/// The last line of the letter's listing but for `no statement`, through the library.
fn end_line(book: &[u8], letter: &[u8]) -> String {
    let tables = Tables::build(book).unwrap();
    let fed = Scanner::begin(&tables).feed(letter, |_| ()).unwrap();
    format!(
        "end {} hits {} steps {}",
        letter.len(),
        fed.reports,
        fed.steps
    )
}

/// One pass of the program from a file into a file: seconds of processor time, and by the clock on the wall.
fn pass(list: &Path, input: &Path, output: &Path) -> (f64, f64) {
    let mut command = Command::new(list);
    command
        .stdin(File::open(input).unwrap())
        .stdout(File::create(output).unwrap())
        .stderr(Stdio::null());
    let (before, started) = (programs_seconds(), Instant::now());
    assert!(command.status().unwrap().success(), "{}", list.display());
    (programs_seconds() - before, started.elapsed().as_secs_f64())
}

/// Lists the letter and says how that compares with feed's speed; both are speeds of processor time.
pub fn measure(book: &Book, letter: &[u8], feed: f64) {
    let Some(list) = env::var_os("TSUVRANKHE_LIST").map(PathBuf::from) else {
        println!("listing: not measured, TSUVRANKHE_LIST names no program (bin/bench sets it)");
        return;
    };
    let folder = Path::new(env!("CARGO_MANIFEST_DIR")).join("../target/bench");
    fs::create_dir_all(&folder).unwrap();
    let (input, output) = (folder.join("listing.in"), folder.join("listing.out"));
    let book = book.written();
    let length = (book.len() as u16).to_be_bytes();
    fs::write(&input, [&length, &book[..], letter].concat()).unwrap();
    let times: Vec<(f64, f64)> = (0..PASSES).map(|_| pass(&list, &input, &output)).collect();
    let written = fs::read_to_string(&output).unwrap();
    let end = end_line(&book, letter);
    assert_eq!(written.lines().last(), Some(&end[..]), "the listing's end");

    let listed = speed(
        letter.len(),
        median(times.iter().map(|time| time.0).collect()),
    );
    let by_the_wall = speed(
        letter.len(),
        median(times.iter().map(|time| time.1).collect()),
    );
    let part = listed / feed;
    println!("listing: {} bytes, {listed:.1} MB/s, {part:.2} of feed's {feed:.1}; by the wall {by_the_wall:.1} MB/s", letter.len());
    fs::remove_dir_all(&folder).unwrap();
}
