//! Every expected value stands in docs/RULES.md or docs/DECISIONS.md, or is worked out by hand
//! from them in the comment beside it.

use super::Line::{Blocked, NotApplicable, Pass};
use super::*;

const TD1_ZONE: &str =
    "I<UTOD231458907<<<<<<<<<<<<<<<7408122F1204159UTO<<<<<<<<<<<6ERIKSSON<<ANNA<MARIA<<<<<<<<<<";
const TD2_ZONE: &str = "I<UTOERIKSSON<<ANNA<MARIA<<<<<<<<<<<D231458907UTO7408122F1204159<<<<<<<6";
const TD3_ZONE: &str =
    "P<UTOERIKSSON<<ANNA<MARIA<<<<<<<<<<<<<<<<<<<L898902C36UTO7408122F1204159ZE184226B<<<<<10";
const ZONES: [&str; 3] = [TD1_ZONE, TD2_ZONE, TD3_ZONE];

const COMMON: &str = "60 14 5F 01 04 30 31 30 37 5F 36 06 30 34 30 30 30 30 5C 02 61 75";
const FACES: &str = "75 17 7F 61 14 02 01 01 7F 60 0E A1 08 87 02 01 01 88 02 00 08 5F 2E 01 AA";

fn hex(text: &str) -> Vec<u8> {
    text.split_whitespace().map(|byte| u8::from_str_radix(byte, 16).unwrap()).collect()
}

fn fail(place: u32) -> Line {
    Line::Fail { place }
}

fn image(files: &[(usize, Vec<u8>)]) -> Vec<u8> {
    let mut image = Vec::new();
    for (number, file) in files {
        image.push(*number as u8);
        image.extend((file.len() as u16).to_be_bytes());
        image.extend(file);
    }
    image
}

/// The line of a case of a file, by the order in which the cases stand in the sheet.
fn line(sheet: &Sheet, file: usize, case: usize) -> Line {
    let index = if case <= 3 { 3 * file + case - 1 } else { 50 + case };
    sheet.lines[index]
}

/// The lines of some cases of one file, on a card with this file only.
fn judge<const N: usize>(
    kind: u8,
    declared: u16,
    number: usize,
    file: Vec<u8>,
    cases: [usize; N],
) -> [Line; N] {
    let sheet = sheet(kind, declared, &image(&[(number, file)])).unwrap();
    cases.map(|case| line(&sheet, number, case))
}

fn zone_file(zone: &str) -> Vec<u8> {
    let size = zone.len() as u8;
    let mut file = vec![0x61, size + 3, 0x5F, 0x1F, size];
    file.extend(zone.bytes());
    file
}

/// Cases 9 to 20 for a zone.
fn zone_lines(kind: u8, zone: &str) -> [Line; 12] {
    judge(kind, 3, 1, zone_file(zone), [9, 10, 11, 12, 13, 14, 15, 16, 17, 18, 19, 20])
}

/// Puts characters into a zone, the first at a position counted from 1.
fn with(zone: &str, position: usize, characters: &str) -> String {
    let mut zone = zone.to_string();
    zone.replace_range(position - 1..position - 1 + characters.len(), characters);
    zone
}

/// Case 3 (or 1, 2) of a DG15 that is declared with bit 14.
fn dg15(bytes: &str) -> [Line; 3] {
    judge(3, 0x4003, 15, hex(bytes), [1, 2, 3])
}

/// Cases 1 to 3 of a declared DG13 (bit 12).
fn dg13(bytes: &str) -> [Line; 3] {
    judge(3, 0x1003, 13, hex(bytes), [1, 2, 3])
}

// Images.

#[test]
fn images_of_the_rule_book() {
    assert_eq!(check_image(&hex("00 00 01 AA 0D 00 00")), Ok(()));
    assert_eq!(check_image(&hex("00 00 01 AA 0D")), Err(4));
    assert_eq!(check_image(&hex("01 00 00 01 00 00")), Err(3));
    assert_eq!(check_image(&hex("12 00 00")), Err(0));
    assert_eq!(check_image(&hex("00 80 00")), Err(0));
    let mut long = hex("00 80 00");
    long.resize(3 + 32_768, 0x60);
    assert_eq!(check_image(&long), Err(0));
    let files = files_of(&[0, 0, 1, 0xAA, 13, 0, 0]).unwrap();
    assert_eq!(files[0], Some(&[0xAA][..]));
    assert_eq!(files[13], Some(&[][..]));
    assert!((1..18).filter(|&number| number != 13).all(|number| files[number].is_none()));
}

#[test]
fn edges_of_images() {
    assert_eq!(check_image(&[]), Ok(()));
    assert_eq!(check_image(&hex("11 00 00")), Ok(()));
    assert_eq!(check_image(&hex("00")), Err(0));
    assert_eq!(check_image(&hex("00 00")), Err(0));
    assert_eq!(check_image(&hex("00 00 01")), Err(0));
    assert_eq!(check_image(&hex("05 00 00 04 00 00")), Err(3));
    assert_eq!(check_image(&hex("04 00 00 05 00 02 AA")), Err(3));
    let mut largest = hex("07 7F FF");
    largest.resize(3 + 32_767, 0);
    assert_eq!(check_image(&largest), Ok(()));
    largest.pop();
    assert_eq!(check_image(&largest), Err(0));
    largest.extend([0, 0xFF]);
    assert_eq!(check_image(&largest), Err(32_770));
}

#[test]
fn all_eighteen_numbers_may_stand() {
    let files: Vec<_> = (0..18).map(|number| (number, vec![])).collect();
    let mut bytes = image(&files);
    assert_eq!(check_image(&bytes), Ok(()));
    bytes.extend([18, 0, 0]);
    assert_eq!(check_image(&bytes), Err(54));
}

// Refusals and profiles.

#[test]
fn unlawful_profiles() {
    for (kind, declared) in [(0, 3), (4, 3), (255, 0xFFFF), (3, 0), (1, 1), (2, 2), (3, 0xFFFC)] {
        assert_eq!(sheet(kind, declared, &[]), Err(Refusal::Profile), "{kind} {declared:04X}");
        // Refusal 1 is tried before refusal 8.
        assert_eq!(sheet(kind, declared, &[0xFF]), Err(Refusal::Profile));
    }
    for kind in 1..=3 {
        assert!(sheet(kind, 3, &[]).is_ok());
        assert_eq!(sheet(kind, 3, &[0, 0, 0, 18]), Err(Refusal::Image { position: 3 }));
    }
    assert_eq!(Refusal::Profile.number(), 1);
    assert_eq!(Refusal::Image { position: 0 }.number(), 8);
}

#[test]
fn a_card_without_files() {
    for (kind, counts) in [(3, [14, 4, 28, 29]), (1, [14, 4, 29, 28]), (2, [14, 4, 29, 28])] {
        let sheet = sheet(kind, 3, &[]).unwrap();
        assert_eq!(sheet.counts, counts);
        for file in [0, 1, 2, 17] {
            assert_eq!(line(&sheet, file, 1), fail(0));
            assert_eq!(line(&sheet, file, 2), Blocked);
            assert_eq!(line(&sheet, file, 3), Blocked);
        }
        for file in 3..17 {
            assert_eq!(line(&sheet, file, 1), Pass);
            assert_eq!(line(&sheet, file, 2), NotApplicable);
            assert_eq!(line(&sheet, file, 3), NotApplicable);
        }
        for case in 4..=24 {
            let expected = if case == 19 && kind != 3 { NotApplicable } else { Blocked };
            assert_eq!(sheet.lines[50 + case], expected);
        }
    }
}

#[test]
fn required_files_follow_the_declared_set() {
    // 5003 (hex) also requires DG13 and DG15.
    let sheet = sheet(3, 0x5003, &[]).unwrap();
    for file in 0..18 {
        let required = [0, 1, 2, 13, 15, 17].contains(&file);
        assert_eq!(line(&sheet, file, 1), if required { fail(0) } else { Pass }, "file {file}");
    }
    assert_eq!(line(&sheet, 13, 2), Blocked);
    assert_eq!(line(&sheet, 13, 3), NotApplicable);
    assert_eq!(line(&sheet, 15, 3), Blocked);
}

#[test]
fn the_order_of_the_lines() {
    let order: Vec<_> = (0..LINES).map(file_and_case).collect();
    assert_eq!(order[..4], [(0, 1), (0, 2), (0, 3), (1, 1)]);
    assert_eq!(order[53], (17, 3));
    assert_eq!(order[54..60], [(0, 4), (0, 5), (0, 6), (0, 7), (0, 8), (1, 9)]);
    assert_eq!(order[70..], [(1, 20), (2, 21), (2, 22), (2, 23), (17, 24)]);
}

// A whole clean card.

#[test]
fn a_clean_card() {
    for kind in 1..=3 {
        let files = [
            (0, hex(COMMON)),
            (1, zone_file(ZONES[kind - 1])),
            (2, hex(FACES)),
            (17, hex("77 02 30 00")),
        ];
        let sheet = sheet(kind as u8, 3, &image(&files)).unwrap();
        // 28 lines of fourteen groups do not apply, case 19 neither for kinds 1 and 2.
        let expected = if kind == 3 { [47, 0, 28, 0] } else { [46, 0, 29, 0] };
        assert_eq!(sheet.counts, expected);
    }
}

// Cases 1 to 3.

#[test]
fn files_that_are_present_but_not_required() {
    assert_eq!(judge(3, 3, 15, hex("6F 00"), [1, 2, 3]), [fail(0), Blocked, Blocked]);
    assert_eq!(judge(3, 3, 15, vec![], [1, 2, 3]), [fail(0), Blocked, Blocked]);
    assert_eq!(judge(3, 3, 13, hex("6D 00"), [1, 2, 3]), [fail(0), Blocked, NotApplicable]);
}

#[test]
fn case_2_of_the_rule_book() {
    assert_eq!(dg13("6D 00"), [Pass, Pass, NotApplicable]);
    assert_eq!(dg13(""), [Pass, fail(0), NotApplicable]);
    assert_eq!(dg13("6E 00"), [Pass, fail(0), NotApplicable]);
    assert_eq!(dg13("6D"), [Pass, fail(1), NotApplicable]);
    assert_eq!(dg13("6D 80"), [Pass, fail(1), NotApplicable]);
    assert_eq!(dg13("6D 81 7F"), [Pass, fail(1), NotApplicable]);
    assert_eq!(dg13("6D 01 00 00"), [Pass, fail(3), NotApplicable]);
    assert_eq!(dg13("6D 02 00"), [Pass, fail(3), NotApplicable]);
}

#[test]
fn edges_of_case_2() {
    // Free bytes that are no objects.
    assert_eq!(dg13("6D 03 00 FF FF"), [Pass, Pass, NotApplicable]);
    // Lengths that are cut off or cannot be read.
    for bytes in ["6D 81", "6D 82", "6D 82 01", "6D 82 00 FF", "6D 83 00 00 01", "6D FF", "6D 84"] {
        assert_eq!(dg13(bytes)[1], fail(1), "{bytes}");
    }
    // A claimed end beyond the file gives the size: 3, 4, 4.
    assert_eq!(dg13("6D 81 80")[1], fail(3));
    assert_eq!(dg13("6D 82 01 00")[1], fail(4));
    assert_eq!(dg13("6D 82 FF FF")[1], fail(4));
    // Headers of 3 and 4 bytes that fit, and one byte off on either side.
    for (header, value) in
        [("6D 7F", 127), ("6D 81 80", 128), ("6D 81 FF", 255), ("6D 82 01 00", 256)]
    {
        let mut file = hex(header);
        let end = file.len() + value;
        file.resize(end, 0);
        assert_eq!(judge(3, 0x1003, 13, file.clone(), [2]), [Pass]);
        file.push(0);
        assert_eq!(judge(3, 0x1003, 13, file.clone(), [2]), [fail(end as u32)]);
        file.truncate(end - 1);
        assert_eq!(judge(3, 0x1003, 13, file, [2]), [fail(end as u32 - 1)]);
    }
    // The largest file: 4 + 32,763 bytes, 32,763 is 7FFB (hex).
    let mut file = hex("6D 82 7F FB");
    file.resize(32_767, 0);
    assert_eq!(judge(3, 0x1003, 13, file, [2]), [Pass]);
}

#[test]
fn every_file_has_its_template_tag() {
    let tags = [
        0x60, 0x61, 0x75, 0x63, 0x76, 0x65, 0x66, 0x67, 0x68, 0x69, 0x6A, 0x6B, 0x6C, 0x6D, 0x6E,
        0x6F, 0x70, 0x77,
    ];
    for (number, tag) in tags.into_iter().enumerate() {
        assert_eq!(judge(3, 0xFFFF, number, vec![tag, 0], [1, 2]), [Pass, Pass]);
        assert_eq!(judge(3, 0xFFFF, number, vec![tag ^ 1, 0], [1, 2]), [Pass, fail(0)]);
    }
}

#[test]
fn case_3_of_the_rule_book() {
    assert_eq!(dg15("6F 00"), [Pass, Pass, Pass]);
    assert_eq!(dg15("6F 02 30 00"), [Pass, Pass, Pass]);
    assert_eq!(dg15("6F 02 30 01"), [Pass, Pass, fail(2)]);
    assert_eq!(dg15("6F 01 30"), [Pass, Pass, fail(2)]);
    assert_eq!(dg15("6F 04 30 02 04 00"), [Pass, Pass, Pass]);
    assert_eq!(dg15("6F 04 30 02 04 01"), [Pass, Pass, fail(4)]);
    assert_eq!(dg15("6F 05 30 01 04 04 00"), [Pass, Pass, fail(4)]);
    assert_eq!(dg15("6F 03 04 00 00"), [Pass, Pass, fail(4)]);
    assert_eq!(dg15("6F 04 04 81 01 00"), [Pass, Pass, fail(2)]);
    assert_eq!(dg15("6F 04 1F 80 00 00"), [Pass, Pass, fail(2)]);
}

/// A DG15 with so many `30` in each other, and in the innermost these bytes.
fn chain(count: usize, innermost: &[u8]) -> Vec<u8> {
    let mut file = innermost.to_vec();
    for _ in 0..count {
        file.splice(0..0, [0x30, file.len() as u8]);
    }
    file.splice(0..0, [0x6F, file.len() as u8]);
    file
}

#[test]
fn levels() {
    let fifteen = chain(15, &[]);
    assert_eq!(fifteen[..6], [0x6F, 0x1E, 0x30, 0x1C, 0x30, 0x1A]);
    let case_3 = |file| judge(3, 0x4003, 15, file, [3])[0];
    assert_eq!(case_3(fifteen), Pass);
    assert_eq!(case_3(chain(16, &[])), fail(32));
    // A plain object at level 16 may have a value; its parent is the fourteenth `30`.
    assert_eq!(case_3(chain(14, &[0x04, 0x01, 0xAA])), Pass);
    // At level 17 anything is broken, a plain object and leftover bytes too.
    assert_eq!(case_3(chain(15, &[0x04, 0x00])), fail(32));
    assert_eq!(case_3(chain(15, &[0x00])), fail(32));
    // Behind the deepest object the walk goes on where its parents end: the second child of the
    // fourteenth `30` stands at 2 + 14 × 2 + 2.
    assert_eq!(case_3(chain(14, &[0x30, 0x00, 0x04, 0x00])), Pass);
    assert_eq!(case_3(chain(14, &[0x30, 0x00, 0x04, 0x01])), fail(32));
    // The innermost of EF.SOD: the template, its `30`, and 14 more are 16 levels.
    let mut sod = chain(15, &[]);
    sod[0] = 0x77;
    assert_eq!(judge(3, 3, 17, sod, [3, 24]), [Pass, Pass]);
}

#[test]
fn edges_of_tiling() {
    // Tags: second bytes 00 and 7F, first byte 00, cut off behind the first byte.
    assert_eq!(dg15("6F 03 1F 00 00")[2], Pass);
    assert_eq!(dg15("6F 03 DF 7F 00")[2], Pass);
    assert_eq!(dg15("6F 03 FF 7F 00")[2], Pass);
    assert_eq!(dg15("6F 02 00 00")[2], fail(2));
    assert_eq!(dg15("6F 01 5F")[2], fail(2));
    assert_eq!(dg15("6F 02 5F 01")[2], fail(2));
    // Lengths.
    for bytes in ["6F 02 04 80", "6F 03 04 81 7F", "6F 04 04 82 00 FF", "6F 05 04 83 00 00 00"] {
        assert_eq!(dg15(bytes)[2], fail(2), "{bytes}");
    }
    // A header is complete only within its parent: the length of 04 stands behind the 30.
    assert_eq!(dg15("6F 05 30 01 04 00 00")[2], fail(4));
    assert_eq!(dg15("6F 06 30 02 04 82 01 00")[2], fail(4));
    // The value of a plain object may be any bytes, that of a nested one may not.
    assert_eq!(dg15("6F 04 04 02 00 FF")[2], Pass);
    assert_eq!(dg15("6F 04 30 02 00 FF")[2], fail(4));
    // Two-byte tags: 5F is plain, 7F is nested.
    assert_eq!(dg15("6F 04 5F 01 01 00")[2], Pass);
    assert_eq!(dg15("6F 04 7F 01 01 00")[2], fail(5));
    // An object past its parent's end is broken itself, whatever stands inside.
    assert_eq!(dg15("6F 04 30 03 00 00")[2], fail(2));
    // The first of several broken places, an object before those inside and these before the next.
    assert_eq!(dg15("6F 06 30 02 00 00 00 00")[2], fail(4));
    assert_eq!(dg15("6F 06 30 02 04 00 00 00")[2], fail(6));
    // A value of 128 bytes with a header of its own of three.
    let mut file = hex("6F 81 83 04 81 80");
    file.resize(6 + 128, 0);
    assert_eq!(judge(3, 0x4003, 15, file, [2, 3]), [Pass, Pass]);
}

// EF.COM.

/// Cases 4 to 8 for declared set 0003 (hex) or another.
fn common(declared: u16, bytes: &str) -> [Line; 5] {
    judge(3, declared, 0, hex(bytes), [4, 5, 6, 7, 8])
}

const TEXTS: &str = "5F 01 04 30 31 30 37 5F 36 06 30 34 30 30 30 30";

#[test]
fn common_of_the_rule_book() {
    assert_eq!(common(3, COMMON), [Pass; 5]);
    let list = |list: &str| common(3, &format!("60 14 {TEXTS} 5C 02 {list}"));
    assert_eq!(list("61 75"), [Pass; 5]);
    assert_eq!(list("75 61"), [Pass; 5]);
    assert_eq!(list("61 61"), [Pass, Pass, Pass, fail(21), Blocked]);
    assert_eq!(list("61 60"), [Pass, Pass, Pass, fail(21), Blocked]);
    assert_eq!(list("61 63"), [Pass, Pass, Pass, Pass, fail(20)]);
    let empty = format!("60 12 {TEXTS} 5C 00");
    assert_eq!(common(3, &empty), [Pass, Pass, Pass, Pass, fail(20)]);
    assert_eq!(hex(&empty).len(), 20);
}

#[test]
fn edges_of_the_tag_list() {
    let list = |declared: u16, list: &str| {
        let size = hex(list).len();
        let lines = common(declared, &format!("60 {:02X} {TEXTS} 5C {size:02X} {list}", 18 + size));
        [lines[3], lines[4]]
    };
    let all = "61 75 63 76 65 66 67 68 69 6A 6B 6C 6D 6E 6F 70";
    assert_eq!(list(0xFFFF, all), [Pass, Pass]);
    assert_eq!(list(0xFFFE | 1, "70 6F 6E 6D 6C 6B 6A 69 68 67 66 65 76 63 75 61"), [Pass, Pass]);
    assert_eq!(list(0x7FFF, all), [Pass, fail(20)]);
    // The seventeenth must be a repetition or no data group: place 20 + 16.
    assert_eq!(list(0xFFFF, &format!("{all} 61")), [fail(36), Blocked]);
    assert_eq!(list(3, "77 61"), [fail(20), Blocked]);
    assert_eq!(list(3, "62"), [fail(20), Blocked]);
    assert_eq!(list(3, "61 75 75 00"), [fail(22), Blocked]);
    assert_eq!(list(3, "61"), [Pass, fail(20)]);
    assert_eq!(list(7, "61 75 63"), [Pass, Pass]);
    assert_eq!(list(0x8003, "61 75 70"), [Pass, Pass]);
}

#[test]
fn texts_and_order_of_common() {
    // A wrong version, at 2 + 3, and a wrong Unicode version, at 9 + 3; nothing is blocked.
    let file = "60 14 5F 01 04 30 31 30 38 5F 36 06 30 34 30 30 30 31 5C 02 61 75";
    assert_eq!(common(3, file), [Pass, fail(5), fail(12), Pass, Pass]);
    // Empty texts: the place directly behind the header, 5 and 8; the list starts at 10.
    assert_eq!(
        common(3, "60 0A 5F 01 00 5F 36 00 5C 02 61 61"),
        [Pass, fail(5), fail(8), fail(11), Blocked]
    );
    // A text that is longer.
    let file = "60 15 5F 01 05 30 31 30 37 30 5F 36 06 30 34 30 30 30 30 5C 02 61 75";
    assert_eq!(common(3, file), [Pass, fail(5), Pass, Pass, Pass]);
    // Missing, extra, and in another order.
    let broken = [fail(2), Blocked, Blocked, Blocked, Blocked];
    assert_eq!(common(3, "60 00"), broken);
    assert_eq!(common(3, &format!("60 10 {TEXTS}")), broken);
    assert_eq!(common(3, &format!("60 16 {TEXTS} 5C 02 61 75 04 00")), broken);
    assert_eq!(common(3, &format!("60 14 5C 02 61 75 {TEXTS}")), broken);
    // With a template header of 3 bytes the place is 3, with one of 4 it is 4.
    for (header, filler) in [("60 81 83 04 81 80", 128), ("60 82 01 04 04 82 01 00", 256)] {
        let mut file = hex(header);
        let place = if filler == 128 { 3 } else { 4 };
        file.resize(file.len() + filler, 0);
        assert_eq!(judge(3, 3, 0, file, [3, 4, 5]), [Pass, fail(place), Blocked]);
    }
}

// DG1.

#[test]
fn zones_of_the_rule_book() {
    assert_eq!(zone_lines(3, TD3_ZONE), [Pass; 12]);
    for (kind, zone) in [(1, TD1_ZONE), (2, TD2_ZONE)] {
        let mut expected = [Pass; 12];
        expected[10] = NotApplicable;
        assert_eq!(zone_lines(kind, zone), expected);
    }
}

#[test]
fn an_outer_length_that_is_off_by_one() {
    for (length, place) in [(0x5C, 93), (0x5A, 92)] {
        let mut file = zone_file(TD3_ZONE);
        assert_eq!(file[..5], [0x61, 0x5B, 0x5F, 0x1F, 0x58]);
        file[1] = length;
        assert_eq!(judge(3, 3, 1, file.clone(), [1, 2, 3]), [Pass, fail(place), Blocked]);
        let rest = judge(3, 3, 1, file, [9, 10, 11, 12, 13, 14, 15, 16, 17, 18, 19, 20]);
        assert_eq!(rest, [Blocked; 12]);
    }
}

#[test]
fn case_9() {
    let mut blocked = [Blocked; 12];
    blocked[0] = fail(2);
    assert_eq!(zone_lines(3, TD1_ZONE), blocked);
    assert_eq!(zone_lines(3, &TD3_ZONE[1..]), blocked);
    assert_eq!(zone_lines(3, ""), blocked);
    blocked[10] = NotApplicable;
    assert_eq!(zone_lines(1, TD3_ZONE), blocked);
    assert_eq!(zone_lines(2, TD1_ZONE), blocked);
    assert_eq!(judge(3, 3, 1, hex("61 00"), [3, 9, 10]), [Pass, fail(2), Blocked]);
    // Another tag, and an object too many.
    let mut file = zone_file(TD3_ZONE);
    file[3] = 0x1E;
    assert_eq!(judge(3, 3, 1, file, [9]), [fail(2)]);
    let mut file = zone_file(TD3_ZONE);
    file.extend([0x04, 0x00]);
    file[1] += 2;
    assert_eq!(judge(3, 3, 1, file, [3, 9, 20]), [Pass, fail(2), Blocked]);
    // A zone of 128 characters in a template with a header of three bytes.
    let mut file = hex("61 81 84 5F 1F 81 80");
    file.resize(7 + 128, b'<');
    assert_eq!(judge(3, 3, 1, file, [3, 9, 10]), [Pass, fail(3), Blocked]);
}

#[test]
fn case_10() {
    let expected = |place| {
        let mut lines = [Blocked; 12];
        lines[0] = Pass;
        lines[1] = fail(place);
        lines
    };
    assert_eq!(zone_lines(3, &with(TD3_ZONE, 65, "*")), expected(69));
    assert_eq!(zone_lines(3, &with(TD3_ZONE, 1, "p")), expected(5));
    assert_eq!(zone_lines(3, &with(TD3_ZONE, 88, " ")), expected(92));
    assert_eq!(zone_lines(3, &with(&with(TD3_ZONE, 80, "="), 70, ";")), expected(74));
    // The neighbours of the ranges: 2F, 3A, 3B, 3D, 40, 5B.
    for other in ["/", ":", ";", "=", "@", "["] {
        assert_eq!(zone_lines(3, &with(TD3_ZONE, 10, other)), expected(14));
    }
    let mut lines = expected(5);
    lines[10] = NotApplicable;
    assert_eq!(zone_lines(1, &with(TD1_ZONE, 1, "i")), lines);
}

#[test]
fn changes_of_the_rule_book_in_the_td3_zone() {
    let mut expected = [Pass; 12];
    expected[5] = fail(49);
    expected[11] = fail(92);
    assert_eq!(zone_lines(3, &with(TD3_ZONE, 54, "7")), expected);
    let mut expected = [Pass; 12];
    expected[8] = fail(69);
    assert_eq!(zone_lines(3, &with(TD3_ZONE, 65, "X")), expected);
}

#[test]
fn check_digits_of_the_rule_book() {
    let digits = [
        ("L898902C3", b'6'),
        ("D23145890", b'7'),
        ("740812", b'2'),
        ("120415", b'9'),
        ("000229", b'9'),
        ("ZE184226B<<<<<", b'1'),
        ("L898902C3674081221204159ZE184226B<<<<<1", b'0'),
    ];
    for (characters, digit) in digits {
        assert_eq!(check_digit(characters.as_bytes()), digit, "{characters}");
    }
    assert_eq!(composite_digit(&TD3, TD3_ZONE.as_bytes()), b'0');
}

/// Each position belongs to exactly one field, check digit or composite.
#[test]
fn layouts_cover_their_zones() {
    // The optional fields of TD1 and TD2 have no place in a layout.
    let optional = [vec![Span(16, 30), Span(49, 59)], vec![Span(65, 71)], vec![]];
    for (layout, optional) in [&TD1, &TD2, &TD3].into_iter().zip(optional) {
        let mut spans = vec![
            CODE,
            ISSUER,
            layout.name,
            layout.number,
            layout.nationality,
            layout.birth,
            layout.expiry,
        ];
        spans.extend(optional);
        let mut single = vec![
            layout.number_digit,
            layout.birth_digit,
            layout.sex,
            layout.expiry_digit,
            layout.composite,
        ];
        if let Some((span, digit)) = layout.optional_digit {
            spans.push(span);
            single.push(digit);
        }
        spans.extend(single.into_iter().map(|position| Span(position, position)));
        let mut positions: Vec<usize> =
            spans.into_iter().flat_map(|span| span.0..=span.1).collect();
        positions.sort();
        assert_eq!(positions, (1..=layout.length).collect::<Vec<_>>());
    }
}

/// Where each field case of a kind fails, as places: 4 more than the first positions.
#[test]
fn places_of_the_fields() {
    // A digit stands in the code, the issuer, the name and the nationality; the number starts
    // with a filler; month 13; sex 1. Order: cases 11, 12, 13, 14, 15, 16, 17, 18.
    let positions = [
        [1, 3, 61, 6, 46, 31, 38, 39],
        [1, 3, 6, 37, 47, 50, 57, 58],
        [1, 3, 6, 45, 55, 58, 65, 66],
    ];
    for kind in 1..=3 {
        let p = positions[kind - 1];
        let mut zone = ZONES[kind - 1].to_string();
        for (position, characters) in
            p.into_iter().zip(["1", "1", "1", "<", "1", "741312", "1", "121315"])
        {
            zone = with(&zone, position, characters);
        }
        let lines = zone_lines(kind as u8, &zone);
        assert_eq!(lines[..2], [Pass, Pass]);
        for (index, position) in p.into_iter().enumerate() {
            assert_eq!(lines[2 + index], fail(position as u32 + 4), "kind {kind}");
        }
    }
    // The composite: 60, 72 and 88; a wrong digit there fails nothing else.
    for (kind, position) in [(1, 60), (2, 72), (3, 88)] {
        let zone = with(ZONES[kind - 1], position, "5");
        let lines = zone_lines(kind as u8, &zone);
        assert_eq!(lines[11], fail(position as u32 + 4));
        assert_eq!(lines.iter().filter(|line| matches!(line, Line::Fail { .. })).count(), 1);
    }
    // The optional field of TD3, when its digit is wrong: position 73.
    assert_eq!(zone_lines(3, &with(TD3_ZONE, 87, "2"))[10], fail(77));
}

#[test]
fn wrong_check_digits_are_reported_at_their_fields() {
    // The positions of the digits and of their fields, with the case's line.
    let digits = [
        [(15, 6, 5), (37, 31, 7), (45, 39, 9)],
        [(46, 37, 5), (56, 50, 7), (64, 58, 9)],
        [(54, 45, 5), (64, 58, 7), (72, 66, 9)],
    ];
    for kind in 1..=3 {
        for (digit, field, line) in digits[kind - 1] {
            for character in ["0", "<", "A"] {
                // No digit of these zones is 0.
                let lines = zone_lines(kind as u8, &with(ZONES[kind - 1], digit, character));
                assert_eq!(lines[line], fail(field + 4), "kind {kind}, {character} at {digit}");
            }
        }
    }
}

#[test]
fn codes() {
    let code = |kind: u8, code: &str| {
        zone_lines(kind, &with(ZONES[usize::from(kind) - 1], 1, code))[2] == Pass
    };
    for right in ["P<", "PA", "PV", "PZ"] {
        assert!(code(3, right), "{right}");
    }
    for wrong in ["P1", "I<", "V<", "<P", "A<", "1<"] {
        assert!(!code(3, wrong), "{wrong}");
    }
    for kind in [1, 2] {
        for right in ["A<", "C<", "I<", "AC", "IU", "IW", "CZ"] {
            assert!(code(kind, right), "{right}");
        }
        for wrong in ["AV", "CV", "IV", "P<", "V<", "I1", "<I", "B<"] {
            assert!(!code(kind, wrong), "{wrong}");
        }
    }
}

#[test]
fn states() {
    for right in ["UTO", "D<<", "UK<"] {
        assert!(is_state(right.as_bytes()), "{right}");
    }
    for wrong in ["<<<", "<UT", "U<O", "U1O", "UT1", "1UT", "D<1", "<<D"] {
        assert!(!is_state(wrong.as_bytes()), "{wrong}");
    }
}

#[test]
fn names() {
    let name = |text: &str| {
        let mut name = text.as_bytes().to_vec();
        name.resize(39, b'<');
        is_name(&name)
    };
    let letters = "A".repeat(39);
    let last = format!("{}<B", "A".repeat(37));
    let last_pair = format!("{}<<B", "A".repeat(36));
    let right = [
        "ERIKSSON<<ANNA<MARIA",
        "ERIKSSON",
        "VAN<DER<BERG<<ANNA",
        "A",
        "A<B<C<D",
        "A<B<<C<D",
        &letters,
        &last,
        &last_pair,
    ];
    for right in right {
        assert!(name(right), "{right}");
    }
    let wrong = [
        "ERIKSSON<<ANNA<<MARIA",
        "ERIKSSON<<<ANNA",
        "<ERIKSSON",
        "ERIKSSON<<ANN4",
        "",
        "1",
        "A<<<<B",
        "A<<B<C<<D",
        "A<<1",
        "<<A",
    ];
    for wrong in wrong {
        assert!(!name(wrong), "{wrong}");
    }
    // A digit at the very end, where fillers would stand.
    let digit = format!("A{}1", "<".repeat(37));
    assert!(!name(&digit));
}

#[test]
fn numbers() {
    // D23145890 passes with 7, and not with a filler, in every layout.
    assert_eq!(zone_lines(3, &with(TD3_ZONE, 45, "D231458907"))[5], Pass);
    assert_eq!(zone_lines(3, &with(TD3_ZONE, 45, "D23145890<"))[5], fail(49));
    assert_eq!(zone_lines(1, &with(TD1_ZONE, 15, "<"))[5], fail(10));
    assert_eq!(zone_lines(2, &with(TD2_ZONE, 46, "<"))[5], fail(41));
    // Fillers at the end and in between: 1 × 7 = 7; 1 × 7 + 2 × 1 = 9.
    assert_eq!(zone_lines(3, &with(TD3_ZONE, 45, "1<<<<<<<<7"))[5], Pass);
    assert_eq!(zone_lines(3, &with(TD3_ZONE, 45, "1<2<<<<<<9"))[5], Pass);
    // 0 alone has the digit 0, a filler first is wrong although its digit is right.
    assert_eq!(zone_lines(3, &with(TD3_ZONE, 45, "0<<<<<<<<0"))[5], Pass);
    assert_eq!(zone_lines(3, &with(TD3_ZONE, 45, "0<<<<<<<<<"))[5], fail(49));
    assert_eq!(zone_lines(3, &with(TD3_ZONE, 45, "<<<<<<<<<0"))[5], fail(49));
}

#[test]
fn dates() {
    for right in
        ["000229", "740812", "040229", "960229", "010131", "990430", "001231", "010228", "010101"]
    {
        assert!(is_date(right.as_bytes()), "{right}");
    }
    let wrong = [
        "010229", "000230", "990229", "020229", "990431", "990631", "990931", "991131", "010132",
        "010100", "010001", "011301", "019901", "01010A", "<10101", "0101<<",
    ];
    for wrong in wrong {
        assert!(!is_date(wrong.as_bytes()), "{wrong}");
    }
    assert_eq!(zone_lines(3, &with(TD3_ZONE, 58, "0002299"))[7], Pass);
    for digit in 0..10 {
        assert_eq!(zone_lines(3, &with(TD3_ZONE, 58, &format!("010229{digit}")))[7], fail(62));
    }
}

#[test]
fn sexes() {
    for sex in "ABCDEFGHIJKLMNOPQRSTUVWXYZ0123456789<".chars() {
        let expected = if "MF<".contains(sex) { Pass } else { fail(69) };
        assert_eq!(zone_lines(3, &with(TD3_ZONE, 65, &sex.to_string()))[8], expected);
    }
}

#[test]
fn optional_fields_of_td3() {
    let fillers = "<".repeat(14);
    let case_19 =
        |field: &str, digit: &str| zone_lines(3, &with(&with(TD3_ZONE, 73, field), 87, digit))[10];
    assert_eq!(case_19(&fillers, "0"), Pass);
    assert_eq!(case_19(&fillers, "<"), Pass);
    assert_eq!(case_19(&fillers, "1"), fail(77));
    // The field has digit 0 but is not all fillers: 0 at its end.
    assert_eq!(case_19("<<<<<<<<<<<<<0", "0"), Pass);
    assert_eq!(case_19("<<<<<<<<<<<<<0", "<"), fail(77));
    assert_eq!(case_19("ZE184226B<<<<<", "<"), fail(77));
}

#[test]
fn the_composite_is_judged_over_failed_fields() {
    // Letters in the date of birth of TD3. AAAAAA has digit 0, since 10 divides each product. In
    // the rule book's sum 880 the characters 7408122 stand with weights from 3 on and give
    // 7×3 + 4×1 + 0×7 + 8×3 + 1×1 + 2×7 + 2×3 = 70; AAAAAA0 gives 10 × (3+1+7+3+1+7) = 220 there.
    // So the sum is 880 - 70 + 220 = 1030 and the composite stays 0.
    let lines = zone_lines(3, &with(TD3_ZONE, 58, "AAAAAA0"));
    assert_eq!((lines[7], lines[11]), (fail(62), Pass));
    // A composite of filler is not right, even for 0.
    assert_eq!(zone_lines(3, &with(TD3_ZONE, 88, "<"))[11], fail(92));
}

#[test]
fn uncovered_positions_leave_the_composite() {
    // Code, issuer, name, nationality and sex are not covered.
    for (kind, positions) in
        [(1, [2, 3, 46, 38, 70]), (2, [2, 3, 47, 57, 30]), (3, [2, 3, 55, 65, 30])]
    {
        for position in positions {
            let zone = with(ZONES[kind - 1], position, "Q");
            assert_eq!(zone_lines(kind as u8, &zone)[11], Pass, "kind {kind}, {position}");
        }
    }
    // The optional fields are: 1 in place of a filler adds 7, 3 or 1.
    for (kind, positions) in [(1, [16, 30, 49, 59]), (2, [65, 66, 70, 71]), (3, [73, 74, 85, 86])] {
        for position in positions {
            let now = &ZONES[kind - 1][position - 1..position];
            let zone = with(ZONES[kind - 1], position, if now == "1" { "2" } else { "1" });
            assert!(zone_lines(kind as u8, &zone)[11] != Pass, "kind {kind}, {position}");
        }
    }
}

// DG2.

/// Cases 3 and 21 to 23.
fn faces(bytes: &str) -> [Line; 4] {
    judge(3, 3, 2, hex(bytes), [3, 21, 22, 23])
}

#[test]
fn faces_of_the_rule_book() {
    assert_eq!(faces(FACES), [Pass; 4]);
    let file = "75 17 7F 61 14 02 01 01 7F 60 0E A1 08 88 02 00 08 87 02 01 01 5F 2E 01 AA";
    assert_eq!(faces(file), [Pass, Pass, Pass, fail(11)]);
    let file = "75 18 7F 61 15 02 01 01 7F 60 0F A1 08 87 02 01 01 88 02 00 08 7F 2E 02 04 00";
    assert_eq!(faces(file), [Pass, Pass, fail(8), Blocked]);
}

/// The bytes of an object with a short length.
fn object(tag: &str, value: &str) -> String {
    format!("{tag} {:02X} {value}", hex(value).len())
}

const HEADER: &str = "87 02 01 01 88 02 00 08";

fn entry(header: &str) -> String {
    object("7F 60", &format!("{} 5F 2E 01 AA", object("A1", header)))
}

fn face_file(count: &str, entries: &str) -> String {
    object("75", &object("7F 61", &format!("{} {entries}", object("02", count))))
}

#[test]
fn case_21() {
    let broken = [Pass, fail(2), Blocked, Blocked];
    let one = entry(HEADER);
    let two = format!("{one} {one}");
    assert_eq!(faces(&face_file("01", &one)), [Pass; 4]);
    assert_eq!(faces(&face_file("02", &two)), [Pass; 4]);
    for (count, entries) in
        [("01", &two), ("02", &one), ("00", &String::new()), ("31", &one), ("00", &one)]
    {
        assert_eq!(faces(&face_file(count, entries)), broken, "{count}");
    }
    // The object 02: of another length, missing, twice, at the end.
    assert_eq!(faces(&face_file("00 01", &one)), broken);
    assert_eq!(faces(&face_file("", &one)), broken);
    assert_eq!(faces(&object("75", &object("7F 61", &one))), broken);
    assert_eq!(faces(&face_file("01", &format!("02 01 01 {one}"))), broken);
    assert_eq!(faces(&object("75", &object("7F 61", &format!("{one} 02 01 01")))), broken);
    // Something else behind the entries, another template, one too many, none.
    assert_eq!(faces(&face_file("01", &format!("{one} 04 00"))), broken);
    assert_eq!(faces(&object("75", &object("7F 60", &format!("02 01 01 {one}")))), broken);
    let group = object("7F 61", &format!("02 01 01 {one}"));
    assert_eq!(faces(&object("75", &format!("{group} 04 00"))), broken);
    assert_eq!(faces("75 00"), broken);
}

/// A DG2 with so many equal entries of 22 bytes: 7F60 13 { A1 08 .., 5F2E 06 .. }.
fn many_faces(count: u8) -> Vec<u8> {
    let entry = hex("7F 60 13 A1 08 87 02 01 01 88 02 00 08 5F 2E 06 01 02 03 04 05 06");
    assert_eq!(entry.len(), 22);
    let mut value = vec![0x02, 0x01, count];
    value.extend(entry.repeat(usize::from(count)));
    let size = value.len() as u8;
    // Nine entries are 3 + 198 = 201 bytes, ten are 223: both take a length of two bytes.
    let mut file = vec![0x75, 0x81, size + 4, 0x7F, 0x61, 0x81, size];
    file.extend(value);
    file
}

#[test]
fn nine_faces_and_ten() {
    assert_eq!(judge(3, 3, 2, many_faces(9), [2, 3, 21, 22, 23]), [Pass; 5]);
    assert_eq!(judge(3, 3, 2, many_faces(10), [2, 3, 21, 22]), [Pass, Pass, fail(3), Blocked]);
    // The third entry, at 3 + 4 + 3 + 2 × 22 = 54, loses its face tag; the A1 of the fifth, at
    // 10 + 4 × 22 + 3 = 101, has another value at its end.
    let mut file = many_faces(9);
    file[101 + 9] = 7;
    assert_eq!(judge(3, 3, 2, file.clone(), [21, 22, 23]), [Pass, Pass, fail(101)]);
    file[54 + 14] = 0x2D;
    assert_eq!(judge(3, 3, 2, file, [21, 22, 23]), [Pass, fail(54), Blocked]);
}

#[test]
fn case_22() {
    let a1 = object("A1", HEADER);
    let case_22 =
        |value: &str| faces(&face_file("01", &object("7F 60", value)))[2..] == [Pass, Pass];
    assert!(case_22(&format!("{a1} 5F 2E 01 00")));
    let wrong = [
        format!("{a1} 5F 2E 00"),
        a1.clone(),
        "5F 2E 01 AA".to_string(),
        format!("5F 2E 01 AA {a1}"),
        format!("{a1} 5F 2E 01 AA 04 00"),
        format!("{a1} {a1} 5F 2E 01 AA"),
        format!("A0 08 {HEADER} 5F 2E 01 AA"),
        String::new(),
    ];
    for wrong in wrong {
        let lines = faces(&face_file("01", &object("7F 60", &wrong)));
        // The entry stands behind 75 xx, 7F 61 xx and 02 01 01.
        assert_eq!(lines, [Pass, Pass, fail(8), Blocked], "{wrong}");
    }
}

#[test]
fn case_23() {
    let case_23 = |header: &str| faces(&face_file("01", &entry(header)))[3];
    let right = [
        HEADER.to_string(),
        format!("80 02 00 00 {HEADER}"),
        format!("81 01 00 {HEADER}"),
        format!("81 02 00 00 {HEADER}"),
        format!("81 03 00 00 00 {HEADER}"),
        format!("82 01 00 {HEADER}"),
        format!("83 07 00 00 00 00 00 00 00 {HEADER}"),
        format!("85 08 00 00 00 00 00 00 00 00 {HEADER}"),
        format!("86 02 00 00 {HEADER}"),
        format!("80 02 FF FF 81 01 02 82 01 00 86 02 01 01 {HEADER}"),
    ];
    for right in right {
        assert_eq!(case_23(&right), Pass, "{right}");
    }
    let wrong = [
        String::new(),
        "87 02 01 01".to_string(),
        "88 02 00 08".to_string(),
        "87 02 01 02 88 02 00 08".to_string(),
        "87 02 01 01 88 02 08 00".to_string(),
        "87 03 01 01 00 88 02 00 08".to_string(),
        "87 02 01 01 88 00".to_string(),
        "87 02 01 01 87 02 01 01 88 02 00 08".to_string(),
        format!("80 01 00 {HEADER}"),
        format!("80 03 00 00 00 {HEADER}"),
        format!("81 00 {HEADER}"),
        format!("81 04 00 00 00 00 {HEADER}"),
        format!("82 00 {HEADER}"),
        format!("82 02 00 00 {HEADER}"),
        format!("83 06 00 00 00 00 00 00 {HEADER}"),
        format!("84 02 00 00 {HEADER}"),
        format!("85 07 00 00 00 00 00 00 00 {HEADER}"),
        format!("86 01 00 {HEADER}"),
        format!("81 01 00 80 02 00 00 {HEADER}"),
        format!("80 02 00 00 80 02 00 00 {HEADER}"),
        format!("{HEADER} 80 02 00 00"),
        format!("{HEADER} 89 00"),
        format!("A0 00 {HEADER}"),
        format!("{HEADER} 9F 01 00"),
    ];
    for wrong in wrong {
        assert_eq!(case_23(&wrong), fail(11), "{wrong}");
    }
}

// EF.SOD.

#[test]
fn case_24() {
    let security = |bytes: &str| judge(3, 3, 17, hex(bytes), [2, 3, 24]);
    assert_eq!(security("77 02 30 00"), [Pass, Pass, Pass]);
    assert_eq!(security("77 04 30 02 05 00"), [Pass, Pass, Pass]);
    assert_eq!(security("77 00"), [Pass, Pass, fail(2)]);
    assert_eq!(security("77 04 30 00 30 00"), [Pass, Pass, fail(2)]);
    assert_eq!(security("77 02 31 00"), [Pass, Pass, fail(2)]);
    assert_eq!(security("77 02 04 00"), [Pass, Pass, fail(2)]);
    assert_eq!(security("77 04 30 02 30 01"), [Pass, fail(4), Blocked]);
    assert_eq!(security("77 02 30"), [fail(3), Blocked, Blocked]);
    let mut file = hex("77 82 01 04 04 82 01 00");
    file.resize(8 + 256, 0);
    assert_eq!(judge(3, 3, 17, file, [24]), [fail(4)]);
}

#[test]
fn lines_of_a_file_depend_on_no_other_file() {
    let alone = sheet(3, 0x4003, &image(&[(15, hex("6F 02 30 01"))])).unwrap();
    let together = sheet(
        3,
        0x4003,
        &image(&[(0, hex("60 00")), (1, vec![]), (15, hex("6F 02 30 01")), (17, vec![0xFF])]),
    )
    .unwrap();
    for case in 1..=3 {
        assert_eq!(line(&alone, 15, case), line(&together, 15, case));
    }
}
