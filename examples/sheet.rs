//! Judges the image in a file: sheet KIND SET IMAGE, as in `sheet 3 0003 card.image`; the set is hexadecimal.
//! Prints the lines that fail and the counts. Exits with 0 for a clean card, with 1 for one that is not clean or is
//! refused, and with 2 where it cannot ask.
use std::process::ExitCode;
use std::{env, fs};

// As in include/suhluva.h.
const LINES: usize = 75;
const LARGEST_IMAGE: usize = 589_860;
const FAIL: u8 = 2;
const DONE: u32 = 0;
const MALFORMED_IMAGE: u32 = 8;

#[repr(C)]
#[derive(Default)]
struct Counts {
    pass: u32,
    fail: u32,
    not_applicable: u32,
    blocked: u32,
}

// As in include/suhluva.h.
unsafe extern "C" {
    fn suhluva_check_image(image: *const u8, image_len: usize, position: *mut u64) -> u32;

    fn suhluva_line(index: u32, case_number: *mut u8, file: *mut u8) -> u32;

    fn suhluva_sheet(
        kind: u8,
        declared: u16,
        image: *const u8,
        image_len: usize,
        states: *mut [u8; LINES],
        places: *mut [u64; LINES],
        counts: *mut Counts,
        position: *mut u64,
    ) -> u32;
}

/// The state and the place of each line with the counts, or the refusal's number and position.
fn sheet(kind: u8, declared: u16, image: &[u8]) -> Result<([(u8, u64); LINES], Counts), (u32, u64)> {
    let (mut states, mut places) = ([0; LINES], [0; LINES]);
    let (mut counts, mut position) = (Counts::default(), 0);
    // SAFETY: the pointer and the length are those of a slice that lives through the call, and what is written are
    // different variables.
    let mut refusal = unsafe {
        suhluva_sheet(
            kind,
            declared,
            image.as_ptr(),
            image.len(),
            &mut states,
            &mut places,
            &mut counts,
            &mut position,
        )
    };
    if refusal == MALFORMED_IMAGE {
        // It wrote the position, too. This is the call for whoever only wants to know whether it is an image.
        // SAFETY: as above.
        refusal = unsafe { suhluva_check_image(image.as_ptr(), image.len(), &mut position) };
    }
    if refusal != DONE {
        return Err((refusal, position));
    }
    Ok((std::array::from_fn(|line| (states[line], places[line])), counts))
}

/// The case and the file of the line at an index, if there is one.
fn name_of(index: u32) -> Option<(u8, u8)> {
    let (mut case, mut file) = (0, 0);
    // SAFETY: two variables that live through the call.
    let refusal = unsafe { suhluva_line(index, &mut case, &mut file) };
    (refusal == DONE).then_some((case, file))
}

fn usage() -> ExitCode {
    eprintln!("usage: sheet KIND SET IMAGE");
    ExitCode::from(2)
}

fn main() -> ExitCode {
    let arguments: Vec<String> = env::args().collect();
    let [_, kind, set, path] = arguments.as_slice() else {
        return usage();
    };
    let (Ok(kind), Ok(declared)) = (kind.parse(), u16::from_str_radix(set, 16)) else {
        return usage();
    };
    let image = match fs::read(path) {
        Ok(image) => image,
        Err(error) => {
            eprintln!("{path}: {error}");
            return ExitCode::from(2);
        }
    };
    if image.len() > LARGEST_IMAGE {
        eprintln!("more bytes than an image has");
        return ExitCode::from(2);
    }
    match sheet(kind, declared, &image) {
        Err((MALFORMED_IMAGE, position)) => {
            println!("refusal {MALFORMED_IMAGE} at {position}");
            ExitCode::from(1)
        }
        Err((refusal, _)) => {
            println!("refusal {refusal}");
            ExitCode::from(1)
        }
        Ok((lines, counts)) => {
            for (index, (state, place)) in (0..).zip(lines) {
                if state == FAIL && let Some((case, file)) = name_of(index) {
                    println!("case {case} of file {file} fails at {place}");
                }
            }
            let word = if counts.fail == 0 { "clean" } else { "not clean" };
            let Counts { pass, fail, not_applicable, blocked } = counts;
            println!("{word}: {pass} pass, {fail} fail, {not_applicable} not applicable, {blocked} blocked");
            ExitCode::from(if fail == 0 { 0 } else { 1 })
        }
    }
}
