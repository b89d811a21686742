//! Runs the generator and the reference alone: `coverage [cards] [seed]`.

use std::env;

use suhluva_bench::cards::random_card;
use suhluva_bench::reference::{LINES, Refusal, check_image, sheet};
use suhluva_bench::tally::Tally;

fn main() {
    let mut arguments = env::args().skip(1).map(|text| text.parse().expect("a number"));
    let cards: u64 = arguments.next().unwrap_or(200_000);
    let seed: u64 = arguments.next().unwrap_or(1);
    let mut tally = Tally::default();
    for number in 0..cards {
        let (sort, card) = random_card(seed, number);
        let result = sheet(card.kind, card.declared, &card.image);
        match (check_image(&card.image), &result) {
            (Ok(()), Ok(sheet)) => assert_eq!(sheet.counts.iter().sum::<u32>(), LINES as u32),
            (Err(at), Err(Refusal::Image { position })) => assert_eq!(at, *position),
            (_, Err(Refusal::Profile)) => {}
            other => panic!("card {number}: {other:?}"),
        }
        tally.add(sort, &card, &result);
    }
    print!("{tally}");
}
