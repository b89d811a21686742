//! A second implementation of the rules of the sheet, written from docs/RULES.md and
//! docs/DECISIONS.md alone, with what is needed to compare it with the verified library.
//!
//! ```text
//! cargo test
//! cargo run --release --bin coverage [cards] [seed]
//! SUHLUVA_LIB=folder cargo run --release --features door --bin differ [cards] [seed]
//! SUHLUVA_LIB=folder cargo run --release --features door --bin bench [milliseconds]
//! ```

#![deny(unsafe_code)]

pub mod cards;
#[cfg(feature = "door")]
#[allow(unsafe_code)]
pub mod door;
pub mod reference;
pub mod tally;
