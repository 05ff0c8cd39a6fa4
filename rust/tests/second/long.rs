//! Long parts, whose states the scanner looks up ahead, block by block: its answers are compared with the second matcher call by call, and with tables from
//! elsewhere to those of the same bytes handed in one by one, which it does not look up ahead.
use crate::book::Book;
use crate::chance::Chance;
use crate::expected::Expected;
use crate::letters;
use crate::library::{self, DONE};
use crate::shapes;

/// Around the shortest and the longest block, and of several blocks.
const PARTS: [usize; 9] = [511, 512, 513, 1_003, 2_050, 4_095, 4_096, 4_097, 6_000];
const LETTER: usize = 6_000;
/// Room for so many reports beside one of every phrase: too few for a block, just enough, and more.
const SPARE: [usize; 4] = [0, 511, 512, 3_000];

fn built(book: &Book) -> (Vec<u8>, Vec<u8>) {
    let mut tables = vec![0; library::table_size()];
    let mut running = vec![0; library::running_size()];
    assert_eq!(library::build(&book.written(), &mut tables).number, DONE);
    assert_eq!(library::begin(&tables, &mut running), DONE);
    (tables, running)
}

fn long_letters(chance: &mut Chance, book: &Book) -> [Vec<u8>; 4] {
    [
        letters::of_its_phrases(chance, book, LETTER, b"."),
        letters::of_its_alphabet(chance, book, LETTER),
        letters::of_keywords_cut_short(chance, book, LETTER),
        letters::of_runs(chance, book, LETTER),
    ]
}

#[test]
fn long_parts_and_the_second_matcher() {
    let mut chance = Chance::seeded(4_096);
    let mut calls = 0;
    for (name, shape) in shapes::SMALL.iter().chain(&shapes::WIDE) {
        let book = shape(&mut chance);
        for letter in long_letters(&mut chance, &book) {
            let expected = Expected::of(&book, &letter);
            for (part, spare) in PARTS
                .iter()
                .flat_map(|&part| SPARE.map(|spare| (part, spare)))
            {
                let room_for = expected.phrases() + spare;
                let (tables, mut running) = built(&book);
                let mut room = vec![0; 2 * room_for];
                let mut taken = 0;
                while taken < letter.len() {
                    let offered = part.min(letter.len() - taken);
                    let answer = expected.feed(taken, offered, room_for);
                    let part = &letter[taken..taken + offered];
                    let fed = library::feed(&tables, &mut running, part, &mut room);
                    assert_eq!(fed, answer.fed, "{name}: at {taken} of {offered}");
                    let reports = room[..2 * fed.reports]
                        .chunks(2)
                        .map(|pair| (pair[0], pair[1]));
                    assert!(
                        reports.eq(answer.reports),
                        "{name}: the reports at {taken} of {offered}"
                    );
                    taken += fed.taken;
                    calls += 1;
                }
            }
        }
    }
    println!("{calls} calls");
}

/// The reports of a letter that is handed in in parts of one length, and the memory that is left.
fn read(tables: &[u8], begun: &[u8], letter: &[u8], part: usize) -> (Vec<u32>, Vec<u8>) {
    let mut running = begun.to_vec();
    let mut room = vec![0; 2 * (128 + 1_000)];
    let (mut reports, mut taken) = (Vec::new(), 0);
    while taken < letter.len() {
        let offered = part.min(letter.len() - taken);
        let fed = library::feed(
            tables,
            &mut running,
            &letter[taken..taken + offered],
            &mut room,
        );
        assert_eq!(fed.number, DONE);
        reports.extend_from_slice(&room[..2 * fed.reports]);
        taken += fed.taken;
    }
    (reports, running)
}

/// Behind the counts and the mark everything of the tables may be overwritten: a guess of where a quarter begins is then often wrong.
#[test]
fn long_parts_with_tables_from_elsewhere() {
    const HEAD: usize = 32;
    let mut chance = Chance::seeded(1_024);
    for (name, shape) in shapes::SMALL.iter().chain(&shapes::LARGEST[..2]) {
        let book = shape(&mut chance);
        let (sound, begun) = built(&book);
        for turn in 0..12 {
            let mut tables = sound.clone();
            for _ in 0..[1, 40, 4_000][turn % 3] {
                let at = chance.between(HEAD, tables.len() - 1);
                tables[at] = chance.byte();
            }
            let letter = match turn % 2 {
                0 => letters::of_its_phrases(&mut chance, &book, LETTER, b"."),
                _ => letters::of_its_alphabet(&mut chance, &book, LETTER),
            };
            let one_by_one = read(&tables, &begun, &letter, 1);
            for part in PARTS {
                assert!(
                    read(&tables, &begun, &letter, part) == one_by_one,
                    "{name}, turn {turn}: in parts of {part}"
                );
            }
        }
    }
}
