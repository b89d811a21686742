//! Times the verified library through its C interface, the reference, and a plain copy of the bytes:
//! `bench [milliseconds for each measurement]`.
//!
//! Both judge the image where it stands and never touch the inside of a plain value. The copy is what it would take to
//! move the bytes at all, in the pieces that a chip gives.

use std::env;
use std::hint::black_box;
use std::time::{Duration, Instant};

use suhluva_bench::cards::{Card, Shape, benchmark_cards, card_of_size};
use suhluva_bench::door::Door;
use suhluva_bench::reference::{LARGEST, sheet};

/// The measurements of one row are taken in this many rounds, one after the other, and the best
/// round counts: whatever else the machine does only makes a round slower.
const ROUNDS: u32 = 7;

struct Bench {
    door: Door,
    target: Vec<u8>,
    time: Duration,
}

fn main() {
    let milliseconds = env::args().nth(1).map_or(150, |text| text.parse().expect("a number"));
    let mut bench = Bench {
        door: Door::default(),
        target: vec![0; LARGEST],
        time: Duration::from_millis(milliseconds),
    };
    heading("card");
    for (name, card) in benchmark_cards() {
        bench.row(name, &card);
    }
    let sizes = [156, 512, 2_048, 8_192, 32_768, 65_536, 131_072, 262_144, 480_000];
    for (shape, what) in [
        (Shape::Plain, "as cards grow, plain values"),
        (Shape::Tiny, "as cards grow, tiny objects"),
        (Shape::Deep, "as cards grow, deep nesting"),
    ] {
        println!();
        heading(what);
        for size in sizes {
            bench.row("", &card_of_size(size, shape));
        }
    }
}

fn heading(what: &str) {
    println!(
        "{what:<28}   bytes |  library ns   per byte | reference ns  per byte |     copy ns   per byte | lib/ref  lib/copy"
    );
}

impl Bench {
    fn row(&mut self, name: &str, card: &Card) {
        let Card { kind, declared, image } = card;
        let judged = sheet(*kind, *declared, image).map(|sheet| sheet.counts);
        let through = self.door.sheet(*kind, *declared, image);
        assert_eq!(through.map(|result| result.map(|sheet| sheet.counts)), Ok(judged));

        let (mut library, mut reference, mut copy) = (f64::MAX, f64::MAX, f64::MAX);
        let time = self.time / ROUNDS;
        for _ in 0..ROUNDS {
            let door = &mut self.door;
            let round = nanoseconds(time, || {
                black_box(door.call_sheet(black_box(*kind), *declared, black_box(image)));
                black_box(&mut *door);
            });
            library = library.min(round);
            let round = nanoseconds(time, || {
                black_box(sheet(black_box(*kind), *declared, black_box(image))).ok();
            });
            reference = reference.min(round);
            let target = &mut self.target;
            copy = copy.min(nanoseconds(time, || copy_in_pieces(black_box(image), target)));
        }
        let size = image.len() as f64;
        println!(
            "{name:<28} {size:>7} | {library:>11.0} {:>10.3} | {reference:>12.0} {:>9.3} | {copy:>11.0} {:>10.3} | {:>7.2} {:>9.2}",
            library / size,
            reference / size,
            copy / size,
            library / reference,
            library / copy,
        );
    }
}

/// The floor: what it takes to move the bytes at all, in pieces as a read gives them.
fn copy_in_pieces(image: &[u8], target: &mut [u8]) {
    for whole in image.chunks(LARGEST) {
        for (piece, place) in whole.chunks(255).zip(target.chunks_mut(255)) {
            black_box(&mut place[..piece.len()]).copy_from_slice(piece);
        }
    }
    black_box(target);
}

/// The time of one call, over as many calls as fit into about the time given.
fn nanoseconds(time: Duration, mut call: impl FnMut()) -> f64 {
    let mut calls = 1u64;
    loop {
        let start = Instant::now();
        for _ in 0..calls {
            call();
        }
        let taken = start.elapsed();
        if taken >= time / 2 {
            return taken.as_nanos() as f64 / calls as f64;
        }
        calls *= 2;
    }
}
