//! Counts what a trial has met: sorts of cards, refusals, and for each case how often it passed
//! and failed, and by which of the rules of its place.

use std::collections::BTreeMap;
use std::fmt;

use crate::cards::{Card, Sort, digit};
use crate::reference::{FILES, Line, Refusal, Sheet, TEMPLATE_TAGS, file_and_case};

#[derive(Default)]
pub struct Tally {
    pub cards: u64,
    bytes: u64,
    clean: u64,
    sorts: BTreeMap<Sort, u64>,
    /// By case: pass, fail, not applicable, blocked.
    cases: [[u64; 4]; 25],
    /// By kind and case: pass, fail.
    kinds: [[[u64; 2]; 25]; 4],
    refusals: BTreeMap<(u32, &'static str), u64>,
    places: BTreeMap<(usize, &'static str), u64>,
}

impl Tally {
    pub fn add(&mut self, sort: Sort, card: &Card, result: &Result<Sheet, Refusal>) {
        self.cards += 1;
        self.bytes += card.image.len() as u64;
        *self.sorts.entry(sort).or_default() += 1;
        match result {
            Ok(sheet) => self.add_sheet(card, sheet),
            Err(refusal) => {
                let why = match *refusal {
                    Refusal::Profile if (1..=3).contains(&card.kind) => "the declared set",
                    Refusal::Profile if card.declared & 3 == 3 => "the kind",
                    Refusal::Profile => "both kind and set",
                    Refusal::Image { position } => why_broken(&card.image, position as usize),
                };
                *self.refusals.entry((refusal.number(), why)).or_default() += 1;
            }
        }
    }

    fn add_sheet(&mut self, card: &Card, sheet: &Sheet) {
        self.clean += u64::from(sheet.counts[1] == 0);
        let files = files_of(&card.image);
        for (index, line) in sheet.lines.iter().enumerate() {
            let (number, case) = file_and_case(index);
            let state = match line {
                Line::Pass => 0,
                Line::Fail { .. } => 1,
                Line::NotApplicable => 2,
                Line::Blocked => 3,
            };
            self.cases[case][state] += 1;
            if state < 2 {
                self.kinds[usize::from(card.kind)][case][state] += 1;
            }
            if let Line::Fail { place } = *line {
                let why = why_failed(case, place as usize, number, files[number]);
                *self.places.entry((case, why)).or_default() += 1;
            }
        }
    }
}

impl fmt::Display for Tally {
    fn fmt(&self, f: &mut fmt::Formatter) -> fmt::Result {
        writeln!(f, "{} cards, {} bytes of images, {} clean", self.cards, self.bytes, self.clean)?;
        writeln!(f, "\nsorts:")?;
        for (index, (sort, count)) in self.sorts.iter().enumerate() {
            let end = if index % 4 == 3 || index + 1 == self.sorts.len() { "\n" } else { "" };
            write!(f, "  {:<16}{count:>7}{end}", format!("{sort:?}"))?;
        }
        writeln!(f, "\nrefusals:")?;
        for ((number, why), count) in &self.refusals {
            writeln!(f, "  {number}  {why:<36}{count:>9}")?;
        }
        writeln!(f, "\ncase       pass       fail   not appl.    blocked")?;
        for (case, [pass, fail, not_applicable, blocked]) in self.cases.iter().enumerate().skip(1) {
            writeln!(f, "{case:>4} {pass:>10} {fail:>10}  {not_applicable:>10} {blocked:>10}")?;
        }
        writeln!(f, "\ncase   TD1 pass / fail       TD2 pass / fail       TD3 pass / fail")?;
        for case in 9..=20 {
            write!(f, "{case:>4}")?;
            for kind in 1..=3 {
                let [pass, fail] = self.kinds[kind][case];
                write!(f, " {pass:>10} / {fail:<8}")?;
            }
            writeln!(f)?;
        }
        writeln!(f, "\nfailures by the rule of their place:")?;
        for ((case, why), count) in &self.places {
            writeln!(f, "  case {case:>2}  {why:<48}{count:>9}")?;
        }
        Ok(())
    }
}

/// The files of a well-formed image.
fn files_of(image: &[u8]) -> [Option<&[u8]>; FILES] {
    let mut files = [None; FILES];
    let mut at = 0;
    while at < image.len() {
        let size = usize::from(u16::from_be_bytes([image[at + 1], image[at + 2]]));
        files[usize::from(image[at])] = Some(&image[at + 3..at + 3 + size]);
        at += 3 + size;
    }
    files
}

fn why_broken(image: &[u8], position: usize) -> &'static str {
    let Some(&[number, high, low]) = image[position..].first_chunk() else {
        return "fewer than three bytes left";
    };
    let size = usize::from(u16::from_be_bytes([high, low]));
    if number > 17 {
        "the number is above 17"
    } else if size > 32_767 {
        "the size is above 32,767"
    } else if size > image.len() - position - 3 {
        "the size is more than what is left"
    } else {
        "the number does not rise"
    }
}

fn why_failed(case: usize, place: usize, number: usize, file: Option<&[u8]>) -> &'static str {
    let Some(file) = file else {
        return "required but absent";
    };
    match case {
        1 if file.is_empty() => "present but not required, empty",
        1 => "present but not required",
        2 => why_no_template(place, number, file),
        3 => why_not_tiled(place, file),
        4 | 9 | 21 | 24 => match place {
            2 => "place 2, a header of two bytes",
            3 => "place 3, a header of three bytes",
            _ => "place 4, a header of four bytes",
        },
        5 | 6 => match file[place - 1] {
            0 => "an empty value",
            _ => "another text",
        },
        7 => match file[place] {
            0x60 | 0x77 => "60 or 77",
            tag if TEMPLATE_TAGS.contains(&tag) => "a tag repeated",
            _ => "no template tag",
        },
        8 if place == file.len() => "an empty list, the place is the size",
        8 => "another set",
        10 if place == 5 => "the first character",
        10 => "a later character",
        14 | 16 | 18 | 19 => why_not_checked(case, place, file),
        22 => match place - usize::from(file[1] > 0x7F) - usize::from(file[1] == 0x82) {
            ..10 => "the first entry",
            _ => "a later entry or long headers",
        },
        23 => match place - usize::from(file[1] > 0x7F) - usize::from(file[1] == 0x82) {
            ..15 => "the A1 of the first entry",
            _ => "the A1 of a later entry or long headers",
        },
        _ => "its field",
    }
}

fn why_no_template(place: usize, number: usize, file: &[u8]) -> &'static str {
    match (place, file) {
        (0, []) => "place 0, an empty file",
        (0, [tag, ..]) if TEMPLATE_TAGS.contains(tag) && *tag != TEMPLATE_TAGS[number] => {
            "place 0, the tag of another file"
        }
        (0, _) => "place 0, no template tag",
        (1, [_]) => "place 1, no length",
        (1, [_, 0x80, ..]) => "place 1, 80",
        (1, [_, 0x81] | [_, 0x82] | [_, 0x82, _]) => "place 1, a length cut off",
        (1, [_, 0x81 | 0x82, ..]) => "place 1, not the shortest form",
        (1, _) => "place 1, 83 or more",
        _ if place == file.len() => "the size, before the claimed end",
        _ => "the claimed end, before the size",
    }
}

/// The level of the object that starts at a place and the end of its parent, in a file all of
/// whose objects before this place are sound.
fn level_and_end(file: &[u8], place: usize) -> (usize, usize) {
    let header = |at: usize| {
        let tag = if file[at] & 0x1F == 0x1F { 2 } else { 1 };
        let (length, size) = match file[at + tag] {
            0x81 => (2, usize::from(file[at + tag + 1])),
            0x82 => (3, usize::from(file[at + tag + 1]) << 8 | usize::from(file[at + tag + 2])),
            size => (1, usize::from(size)),
        };
        (at + tag + length, at + tag + length + size)
    };
    let (mut level, (mut at, mut end)) = (2, header(0));
    while at != place {
        let (value, behind) = header(at);
        // A place at the end of an object is in it only if its parent ends there too; then the
        // broken object would be nothing at all.
        if place < behind {
            level += 1;
            (at, end) = (value, behind);
        } else {
            at = behind;
        }
    }
    (level, end)
}

fn why_not_tiled(place: usize, file: &[u8]) -> &'static str {
    let (level, end) = level_and_end(file, place);
    if level > 16 {
        return "level 17";
    }
    let rest = &file[place..end];
    let first = rest[0];
    let two = first & 0x1F == 0x1F;
    let length = rest.get(1 + usize::from(two)..).unwrap_or(&[]);
    match (first, length) {
        (0, _) => "a tag that begins with 00",
        _ if two && rest.get(1).is_some_and(|&second| second > 0x7F) => "a second tag byte from 80",
        (_, [] | [0x81 | 0x82] | [0x82, _]) => "a header cut off",
        (_, [0x80, ..]) => "a length of 80",
        (_, [0x81, ..0x80, ..] | [0x82, 0, ..]) => "a length not in its shortest form",
        (_, [0x83..=0xFF, ..]) => "a length that begins with 83 or more",
        _ => match level {
            2 => "past the template's end",
            _ => "past a deeper parent's end",
        },
    }
}

/// In cases 14, 16, 18 and 19: whether the check digit would have been right.
fn why_not_checked(case: usize, place: usize, file: &[u8]) -> &'static str {
    let size = match case {
        14 => 9,
        19 => 14,
        _ => 6,
    };
    let right = digit(&file[place..place + size]) == file[place + size];
    match file[place + size] {
        _ if right => "the field, its digit is right",
        b'<' => "a filler for the digit",
        b'0'..=b'9' => "another digit",
        _ => "a letter for the digit",
    }
}
