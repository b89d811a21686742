//! Compares the verified library with the reference: `differ [cards] [seed]`.
//!
//! Stops at the first difference with exit status 1.

use std::env;
use std::fmt::Debug;
use std::process::ExitCode;

use suhluva_bench::cards::{Card, Sort, benchmark_cards, random_card};
use suhluva_bench::door::Door;
use suhluva_bench::reference::{LINES, check_image, file_and_case, sheet};
use suhluva_bench::tally::Tally;

fn main() -> ExitCode {
    let mut arguments = env::args().skip(1).map(|text| text.parse().expect("a number"));
    let cards: u64 = arguments.next().unwrap_or(1_000_000);
    let seed: u64 = arguments.next().unwrap_or(1);
    let mut door = Door::default();
    let mut tally = Tally::default();

    for (name, card) in benchmark_cards() {
        if !same(&mut door, &mut tally, name, Sort::Large, &card) {
            return ExitCode::FAILURE;
        }
    }
    if !lines_are_the_same(&door) {
        return ExitCode::FAILURE;
    }
    for number in 0..cards {
        let (sort, card) = random_card(seed, number);
        let name = format!("card {number} of seed {seed} ({sort:?})");
        if !same(&mut door, &mut tally, &name, sort, &card) {
            print!("before that:\n{tally}");
            return ExitCode::FAILURE;
        }
    }
    print!("{tally}");
    println!("\nno difference in {} cards", tally.cards);
    ExitCode::SUCCESS
}

/// Whether both say the same of a card. If not, prints the card and what they say.
fn same(door: &mut Door, tally: &mut Tally, name: &str, sort: Sort, card: &Card) -> bool {
    let image = &card.image;
    let expected = check_image(image);
    let found = door.check_image(image);
    if found != Ok(expected) {
        report(name, card);
        say("check_image", &expected, &found);
        return false;
    }
    let expected = sheet(card.kind, card.declared, image);
    let found = door.sheet(card.kind, card.declared, image);
    tally.add(sort, card, &expected);
    if found == Ok(expected) {
        return true;
    }
    report(name, card);
    let (Ok(expected), Ok(Ok(found))) = (&expected, &found) else {
        say("sheet", &expected, &found);
        return false;
    };
    for (index, (expected, found)) in expected.lines.iter().zip(&found.lines).enumerate() {
        if expected != found {
            let (file, case) = file_and_case(index);
            say(&format!("file {file}, case {case}"), expected, found);
        }
    }
    if expected.counts != found.counts {
        say("counts", &expected.counts, &found.counts);
    }
    false
}

fn report(name: &str, card: &Card) {
    println!("DIFFERENCE in {name}");
    println!("kind {}, declared set {:04X} (hex), image:", card.kind, card.declared);
    let hex: String = card.image.iter().map(|byte| format!("{byte:02X}")).collect();
    println!("{hex}");
}

fn say(what: &str, reference: &dyn Debug, library: &dyn Debug) {
    println!("{what}: the reference says {reference:?}, the library {library:?}");
}

/// Whether both name every line alike, and no line stands past the last.
fn lines_are_the_same(door: &Door) -> bool {
    for index in (0..=1024).chain([u32::MAX]) {
        let line = usize::try_from(index).ok().filter(|line| *line < LINES).map(file_and_case);
        let expected = line.map(|(file, case)| (file as u8, case as u8));
        let found = door.file_and_case(index);
        if found != Ok(expected) {
            println!("DIFFERENCE in the line at {index}");
            say("file and case", &expected, &found);
            return false;
        }
    }
    true
}
