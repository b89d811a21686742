//! The C interface of the verified library: its foreign functions, and safe wrappers over them.
//!
//! This is the only module with unsafe code, and the only one that knows the signatures; they are those of
//! `include/suhluva.h`.

use crate::reference::{LINES, Line, Refusal, Sheet};

/// The lines of a sheet counted by their state.
#[repr(C)]
#[derive(Clone, Copy, Default)]
struct Counts {
    pass: u32,
    fail: u32,
    not_applicable: u32,
    blocked: u32,
}

// The image is handed over as a pointer and a length, the arrays as a pointer to `LINES` elements.
unsafe extern "C" {
    /// 0, or 8 with the position.
    fn suhluva_check_image(image_ptr: *const u8, image_len: usize, position: *mut u64) -> u32;

    /// 0 with the case and the file of a line; 2.
    fn suhluva_line(index: u32, case_number: *mut u8, file: *mut u8) -> u32;

    /// 0; 1; 8 with the position.
    fn suhluva_sheet(
        kind: u8,
        declared: u16,
        image_ptr: *const u8,
        image_len: usize,
        states: *mut u8,
        places: *mut u64,
        counts: *mut Counts,
        position: *mut u64,
    ) -> u32;
}

/// A number from the library that is outside its agreement.
#[derive(Clone, Copy, Debug, PartialEq, Eq)]
pub enum Stray {
    Answer(u32),
    State { line: usize, state: u8 },
    Place { line: usize, place: u64 },
    Position(u64),
    Touched,
}

/// The arrays that the library writes into, each with one element more than it may write. They are kept from card to card.
pub struct Door {
    states: [u8; LINES + 1],
    places: [u64; LINES + 1],
    counts: Counts,
    position: u64,
}

/// What stands in the arrays before a call whose answer is compared.
const STATE: u8 = 0xEE;
const PLACE: u64 = u64::MAX;

impl Default for Door {
    fn default() -> Door {
        Door {
            states: [STATE; LINES + 1],
            places: [PLACE; LINES + 1],
            counts: Counts::default(),
            position: PLACE,
        }
    }
}

impl Door {
    /// Checks an image, and gives the number that the library answers.
    pub fn call_check_image(&mut self, image: &[u8]) -> u32 {
        // SAFETY: the pointer and the length are those of a slice that lives through the call, and the position is
        // borrowed by nobody else.
        unsafe { suhluva_check_image(image.as_ptr(), image.len(), &mut self.position) }
    }

    /// Judges a card into the arrays, and gives the number that the library answers.
    pub fn call_sheet(&mut self, kind: u8, declared: u16, image: &[u8]) -> u32 {
        // SAFETY: as above; the arrays have more than `LINES` elements, and what is written are different fields.
        unsafe {
            suhluva_sheet(
                kind,
                declared,
                image.as_ptr(),
                image.len(),
                self.states.as_mut_ptr(),
                self.places.as_mut_ptr(),
                &mut self.counts,
                &mut self.position,
            )
        }
    }

    /// As `reference::check_image`.
    pub fn check_image(&mut self, image: &[u8]) -> Result<Result<(), u32>, Stray> {
        self.forget();
        match self.call_check_image(image) {
            0 if self.position == PLACE => Ok(Ok(())),
            8 => Ok(Err(self.position()?)),
            answer => Err(Stray::Answer(answer)),
        }
    }

    /// As `reference::sheet`.
    pub fn sheet(
        &mut self,
        kind: u8,
        declared: u16,
        image: &[u8],
    ) -> Result<Result<Sheet, Refusal>, Stray> {
        self.forget();
        let answer = self.call_sheet(kind, declared, image);
        self.answer(answer)
    }

    /// As `reference::file_and_case`, but `None` where there is no line.
    pub fn file_and_case(&self, index: u32) -> Result<Option<(u8, u8)>, Stray> {
        let (mut number, mut file) = (STATE, STATE);
        // SAFETY: two variables that live through the call.
        match unsafe { suhluva_line(index, &mut number, &mut file) } {
            0 => Ok(Some((file, number))),
            2 if (number, file) == (STATE, STATE) => Ok(None),
            2 => Err(Stray::Touched),
            answer => Err(Stray::Answer(answer)),
        }
    }

    fn answer(&self, answer: u32) -> Result<Result<Sheet, Refusal>, Stray> {
        if answer == 0 {
            return self.read_sheet().map(Ok);
        }
        // A refusal writes nothing but the position of 8.
        if self.states.iter().any(|state| *state != STATE) || self.places.iter().any(|place| *place != PLACE) {
            return Err(Stray::Touched);
        }
        match answer {
            1 => Ok(Err(Refusal::Profile)),
            8 => Ok(Err(Refusal::Image { position: self.position()? })),
            answer => Err(Stray::Answer(answer)),
        }
    }

    fn position(&self) -> Result<u32, Stray> {
        u32::try_from(self.position).map_err(|_| Stray::Position(self.position))
    }

    fn read_sheet(&self) -> Result<Sheet, Stray> {
        if self.states[LINES] != STATE || self.places[LINES] != PLACE || self.position != PLACE {
            return Err(Stray::Touched);
        }
        let mut lines = [Line::Blocked; LINES];
        for (line, slot) in lines.iter_mut().enumerate() {
            let place = self.places[line];
            *slot = match (self.states[line], u32::try_from(place)) {
                (1, Ok(0)) => Line::Pass,
                (2, Ok(place)) => Line::Fail { place },
                (3, Ok(0)) => Line::NotApplicable,
                (4, Ok(0)) => Line::Blocked,
                (1..=4, _) => return Err(Stray::Place { line, place }),
                (state, _) => return Err(Stray::State { line, state }),
            };
        }
        let Counts { pass, fail, not_applicable, blocked } = self.counts;
        Ok(Sheet { lines, counts: [pass, fail, not_applicable, blocked] })
    }

    /// Fills the arrays with values that no answer has, so that none of an earlier card is taken for one of this.
    fn forget(&mut self) {
        self.states.fill(STATE);
        self.places.fill(PLACE);
        self.counts = Counts { pass: u32::MAX, fail: u32::MAX, not_applicable: u32::MAX, blocked: u32::MAX };
        self.position = PLACE;
    }
}
