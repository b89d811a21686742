//! The rules of the sheet in plain Rust. Section numbers are those of docs/RULES.md.

#[cfg(test)]
mod tests;

/// Number of files of a card.
pub const FILES: usize = 18;
/// Number of lines of a sheet.
pub const LINES: usize = 75;
/// The largest size of a file.
pub const LARGEST: usize = 32_767;

/// The template tag of each file.
pub const TEMPLATE_TAGS: [u8; FILES] = [
    0x60, 0x61, 0x75, 0x63, 0x76, 0x65, 0x66, 0x67, 0x68, 0x69, 0x6A, 0x6B, 0x6C, 0x6D, 0x6E, 0x6F,
    0x70, 0x77,
];

const EF_COM: usize = 0;
const DG1: usize = 1;
const DG2: usize = 2;
const DG13: usize = 13;
const EF_SOD: usize = 17;

/// The state of a line after its file has been judged.
#[derive(Clone, Copy, Debug, PartialEq, Eq)]
pub enum Line {
    Pass,
    Fail { place: u32 },
    NotApplicable,
    Blocked,
}

/// Cases 1, 2, 3 of file 0, then of file 1, and so on to file 17; then cases 4 to 8 of file 0,
/// 9 to 20 of file 1, 21 to 23 of file 2 and 24 of file 17. The counts are those of the lines
/// that pass, that fail, that are not applicable and that are blocked.
#[derive(Clone, Copy, Debug, PartialEq, Eq)]
pub struct Sheet {
    pub lines: [Line; LINES],
    pub counts: [u32; 4],
}

/// Why there is no sheet.
#[derive(Clone, Copy, Debug, PartialEq, Eq)]
pub enum Refusal {
    /// The profile is not lawful.
    Profile,
    /// The image is not well-formed: its first broken field starts at the position.
    Image { position: u32 },
}

impl Refusal {
    /// The number of the refusal in the rule book.
    pub fn number(self) -> u32 {
        match self {
            Refusal::Profile => 1,
            Refusal::Image { .. } => 8,
        }
    }
}

impl Line {
    fn of(result: Result<(), usize>) -> Line {
        match result {
            Ok(()) => Line::Pass,
            Err(place) => Line::fail(place),
        }
    }

    fn pass_if(right: bool, place: usize) -> Line {
        if right { Line::Pass } else { Line::fail(place) }
    }

    fn fail(place: usize) -> Line {
        // A place is at most the size of a file.
        Line::Fail { place: place as u32 }
    }
}

/// The file and the case of a line by its number in the sheet.
pub fn file_and_case(line: usize) -> (usize, usize) {
    match line {
        0..54 => (line / 3, line % 3 + 1),
        54..59 => (EF_COM, line - 50),
        59..71 => (DG1, line - 50),
        71..74 => (DG2, line - 50),
        _ => (EF_SOD, line - 50),
    }
}

/// Checks that an image is well-formed; if not, the position at which its first broken field starts.
pub fn check_image(image: &[u8]) -> Result<(), u32> {
    files_of(image).map(|_| ())
}

/// The sheet of the card in an image, under a profile.
pub fn sheet(kind: u8, declared: u16, image: &[u8]) -> Result<Sheet, Refusal> {
    let layout = layout_of(kind, declared).ok_or(Refusal::Profile)?;
    let files = files_of(image).map_err(|position| Refusal::Image { position })?;

    let mut lines = [Line::Blocked; LINES];
    let (general, own) = lines.split_at_mut(3 * FILES);
    // Case 19 does not apply to layouts without that check digit, whatever else is wrong.
    if layout.optional_digit.is_none() {
        own[19 - 4] = Line::NotApplicable;
    }
    for (number, lines) in general.chunks_exact_mut(3).enumerate() {
        let required = is_required(number, declared);
        let Some(template) = judge_any(number, required, files[number], lines) else {
            continue;
        };
        match number {
            EF_COM => judge_common(declared, template, &mut own[..5]),
            DG1 => judge_zone_file(layout, template, &mut own[5..17]),
            DG2 => judge_faces(template, &mut own[17..20]),
            EF_SOD => own[20] = judge_security(template),
            _ => {}
        }
    }
    Ok(Sheet { lines, counts: counts_of(&lines) })
}

fn counts_of(lines: &[Line; LINES]) -> [u32; 4] {
    let pass = count(lines, |line| matches!(line, Line::Pass));
    let fail = count(lines, |line| matches!(line, Line::Fail { .. }));
    let not_applicable = count(lines, |line| matches!(line, Line::NotApplicable));
    let blocked = count(lines, |line| matches!(line, Line::Blocked));
    [pass, fail, not_applicable, blocked]
}

fn count(lines: &[Line; LINES], is: impl Fn(Line) -> bool) -> u32 {
    lines.iter().map(|&line| u32::from(is(line))).sum()
}

// Section 2: profiles.

fn layout_of(kind: u8, declared: u16) -> Option<&'static Layout> {
    if declared & 3 != 3 {
        return None;
    }
    match kind {
        1 => Some(&TD1),
        2 => Some(&TD2),
        3 => Some(&TD3),
        _ => None,
    }
}

fn is_required(number: usize, declared: u16) -> bool {
    number == EF_COM || number == EF_SOD || declared >> (number - 1) & 1 == 1
}

// Section 4: images.

fn files_of(image: &[u8]) -> Result<[Option<&[u8]>; FILES], u32> {
    let mut files = [None; FILES];
    let mut lowest = 0;
    let mut rest = image;
    while !rest.is_empty() {
        let position = (image.len() - rest.len()) as u32;
        let (number, file, behind) = first_field(rest).ok_or(position)?;
        if number < lowest {
            return Err(position);
        }
        files[number] = Some(file);
        lowest = number + 1;
        rest = behind;
    }
    Ok(files)
}

/// The file number and the file of the first field, and what stands behind the field.
fn first_field(bytes: &[u8]) -> Option<(usize, &[u8], &[u8])> {
    let (&[number, high, low], behind) = bytes.split_first_chunk()?;
    let size = usize::from(u16::from_be_bytes([high, low]));
    if usize::from(number) >= FILES || size > LARGEST {
        return None;
    }
    let (file, behind) = behind.split_at_checked(size)?;
    Some((usize::from(number), file, behind))
}

// Section 5: objects.

/// An object of a file: its tag, the places of its first byte and of its value's, and its end.
#[derive(Clone, Copy)]
struct Object<'a> {
    file: &'a [u8],
    tag: u16,
    start: usize,
    value: usize,
    end: usize,
}

impl<'a> Object<'a> {
    /// The object that starts at a place of the file and ends within its parent.
    #[inline]
    fn read(file: &'a [u8], start: usize, parent_end: usize) -> Option<Object<'a>> {
        let bytes = file.get(start..parent_end)?;
        let (tag, tag_size) = match *bytes {
            [0, ..] => return None,
            [first, second, ..] if has_second_byte(first) && second <= 0x7F => {
                (u16::from_be_bytes([first, second]), 2)
            }
            [first, ..] if !has_second_byte(first) => (u16::from(first), 1),
            _ => return None,
        };
        let (size, length_size) = read_length(&bytes[tag_size..])?;
        let value = start + tag_size + length_size;
        let end = value + size;
        (end <= parent_end).then_some(Object { file, tag, start, value, end })
    }

    fn is_nested(self) -> bool {
        let first = if self.tag > 0xFF { self.tag >> 8 } else { self.tag };
        first & 0x20 != 0
    }

    fn value(self) -> &'a [u8] {
        &self.file[self.value..self.end]
    }

    /// The objects directly inside. They are all there if the value has been found tiled.
    fn children(self) -> Objects<'a> {
        Objects { file: self.file, at: self.value, end: self.end }
    }

    /// The objects directly inside, if their tags are these, in this order.
    fn holds_exactly<const N: usize>(self, tags: [u16; N]) -> Option<[Object<'a>; N]> {
        let mut children = self.children();
        let mut found = [self; N];
        for (slot, tag) in found.iter_mut().zip(tags) {
            *slot = children.next().filter(|child| child.tag == tag)?;
        }
        children.next().is_none().then_some(found)
    }
}

fn has_second_byte(first: u8) -> bool {
    first & 0x1F == 0x1F
}

/// The length that the bytes start with, and how many bytes it takes.
#[inline]
fn read_length(bytes: &[u8]) -> Option<(usize, usize)> {
    match *bytes {
        [size @ ..=0x7F, ..] => Some((usize::from(size), 1)),
        [0x81, size @ 0x80..=0xFF, ..] => Some((usize::from(size), 2)),
        [0x82, high @ 1..=0xFF, low, ..] => Some((usize::from(u16::from_be_bytes([high, low])), 3)),
        _ => None,
    }
}

/// Goes through the objects that tile a range, and stops before the first that is broken.
#[derive(Clone)]
struct Objects<'a> {
    file: &'a [u8],
    at: usize,
    end: usize,
}

impl<'a> Iterator for Objects<'a> {
    type Item = Object<'a>;

    fn next(&mut self) -> Option<Object<'a>> {
        let object = Object::read(self.file, self.at, self.end)?;
        self.at = object.end;
        Some(object)
    }
}

/// The deepest level at which an object may stand.
const DEEPEST: usize = 16;

/// Whether objects tile the template's value at every level, or else the first broken place.
fn check_tiling(template: Object) -> Result<(), usize> {
    // The ends of the objects that the walk is in, by level; the template's level is 1.
    let mut ends = [0; DEEPEST + 1];
    let mut level = 1;
    ends[level] = template.end;
    let mut at = template.value;
    loop {
        while at == ends[level] {
            if level == 1 {
                return Ok(());
            }
            level -= 1;
        }
        if level == DEEPEST {
            return Err(at);
        }
        let object = Object::read(template.file, at, ends[level]).ok_or(at)?;
        if object.is_nested() {
            level += 1;
            ends[level] = object.end;
            at = object.value;
        } else {
            at = object.end;
        }
    }
}

// Section 7, every file: cases 1 to 3.

/// Sets cases 1 to 3 of a file, whose lines come as blocked. Gives the template if none failed
/// and the file is there.
fn judge_any<'a>(
    number: usize,
    required: bool,
    file: Option<&'a [u8]>,
    lines: &mut [Line],
) -> Option<Object<'a>> {
    if number == DG13 {
        lines[2] = Line::NotApplicable;
    }
    if required != file.is_some() {
        lines[0] = Line::fail(0);
        return None;
    }
    lines[0] = Line::Pass;
    let Some(file) = file else {
        lines[1] = Line::NotApplicable;
        lines[2] = Line::NotApplicable;
        return None;
    };
    let template = match read_template(TEMPLATE_TAGS[number], file) {
        Ok(template) => template,
        Err(place) => {
            lines[1] = Line::fail(place);
            return None;
        }
    };
    lines[1] = Line::Pass;
    if number != DG13 {
        lines[2] = Line::of(check_tiling(template));
    }
    (lines[2] == Line::Pass).then_some(template)
}

/// The one template that a file is, or the place at which case 2 fails.
fn read_template(tag: u8, file: &[u8]) -> Result<Object<'_>, usize> {
    let Some((_, behind_tag)) = file.split_first().filter(|(first, _)| **first == tag) else {
        return Err(0);
    };
    let (size, length_size) = read_length(behind_tag).ok_or(1usize)?;
    let value = 1 + length_size;
    let end = value + size;
    if end != file.len() {
        return Err(end.min(file.len()));
    }
    Ok(Object { file, tag: u16::from(tag), start: 0, value, end })
}

// Section 7, file 0: cases 4 to 8.

fn judge_common(declared: u16, template: Object, lines: &mut [Line]) {
    let Some([version, unicode, list]) = template.holds_exactly([0x5F01, 0x5F36, 0x5C]) else {
        lines[0] = Line::fail(template.value);
        return;
    };
    lines[0] = Line::Pass;
    lines[1] = Line::pass_if(version.value() == b"0107", version.value);
    lines[2] = Line::pass_if(unicode.value() == b"040000", unicode.value);
    match read_tag_list(list) {
        Ok(set) => {
            lines[3] = Line::Pass;
            lines[4] = Line::pass_if(set == declared, list.value);
        }
        Err(place) => lines[3] = Line::fail(place),
    }
}

/// The set of the data groups in a tag list, or the place of the first byte that breaks it.
fn read_tag_list(list: Object) -> Result<u16, usize> {
    let mut set = 0;
    for (index, &tag) in list.value().iter().enumerate() {
        let bit = DATA_GROUP_BITS[usize::from(tag)];
        if bit == 0 || set & bit != 0 {
            return Err(list.value + index);
        }
        set |= bit;
    }
    Ok(set)
}

/// By tag: the bit of the data group in a declared set, 0 for a byte that is no such tag.
static DATA_GROUP_BITS: [u16; 256] = data_group_bits();

const fn data_group_bits() -> [u16; 256] {
    let mut bits = [0; 256];
    let mut number = DG1;
    while number < EF_SOD {
        bits[TEMPLATE_TAGS[number] as usize] = 1 << (number - 1);
        number += 1;
    }
    bits
}

// Section 7, file 1: cases 9 to 20, with section 8, the machine readable zone.

/// A field of the zone by its first and last position, counted from 1.
#[derive(Clone, Copy)]
struct Span(usize, usize);

impl Span {
    fn of(self, zone: &[u8]) -> &[u8] {
        &zone[self.0 - 1..self.1]
    }
}

struct Layout {
    length: usize,
    /// The characters that the first one of the code may be.
    codes: &'static [u8],
    /// The letter that the second character of the code may not be.
    barred: Option<u8>,
    name: Span,
    number: Span,
    number_digit: usize,
    nationality: Span,
    birth: Span,
    birth_digit: usize,
    sex: usize,
    expiry: Span,
    expiry_digit: usize,
    /// The optional field and its check digit, where it has one.
    optional_digit: Option<(Span, usize)>,
    composite: usize,
    covered: [Span; 3],
}

const CODE: Span = Span(1, 2);
const ISSUER: Span = Span(3, 5);

static TD1: Layout = Layout {
    length: 90,
    codes: b"ACI",
    barred: Some(b'V'),
    name: Span(61, 90),
    number: Span(6, 14),
    number_digit: 15,
    nationality: Span(46, 48),
    birth: Span(31, 36),
    birth_digit: 37,
    sex: 38,
    expiry: Span(39, 44),
    expiry_digit: 45,
    optional_digit: None,
    composite: 60,
    covered: [Span(6, 37), Span(39, 45), Span(49, 59)],
};

static TD2: Layout = Layout {
    length: 72,
    codes: b"ACI",
    barred: Some(b'V'),
    name: Span(6, 36),
    number: Span(37, 45),
    number_digit: 46,
    nationality: Span(47, 49),
    birth: Span(50, 55),
    birth_digit: 56,
    sex: 57,
    expiry: Span(58, 63),
    expiry_digit: 64,
    optional_digit: None,
    composite: 72,
    covered: [Span(37, 46), Span(50, 56), Span(58, 71)],
};

static TD3: Layout = Layout {
    length: 88,
    codes: b"P",
    barred: None,
    name: Span(6, 44),
    number: Span(45, 53),
    number_digit: 54,
    nationality: Span(55, 57),
    birth: Span(58, 63),
    birth_digit: 64,
    sex: 65,
    expiry: Span(66, 71),
    expiry_digit: 72,
    optional_digit: Some((Span(73, 86), 87)),
    composite: 88,
    covered: [Span(45, 54), Span(58, 64), Span(66, 87)],
};

const FILLER: u8 = b'<';

/// The value of a character in the sums of check digits, or `NO_VALUE` outside the zone's set.
static VALUES: [u8; 256] = values();
const NO_VALUE: u8 = 0xFF;

const fn values() -> [u8; 256] {
    let mut values = [NO_VALUE; 256];
    let mut value = 0;
    while value < 36 {
        let character = if value < 10 { b'0' + value } else { b'A' + value - 10 };
        values[character as usize] = value;
        value += 1;
    }
    values[FILLER as usize] = 0;
    values
}

fn value_of(character: u8) -> u8 {
    VALUES[usize::from(character)]
}

/// Sets cases 9 to 20, whose lines come as blocked or, for case 19, as not applicable.
fn judge_zone_file(layout: &Layout, template: Object, lines: &mut [Line]) {
    let zone = template.holds_exactly([0x5F1F]);
    let Some([zone]) = zone.filter(|[zone]| zone.value().len() == layout.length) else {
        lines[0] = Line::fail(template.value);
        return;
    };
    lines[0] = Line::Pass;
    let place = zone.value;
    let zone = zone.value();
    if let Some(index) = zone.iter().position(|&character| value_of(character) == NO_VALUE) {
        lines[1] = Line::fail(place + index);
        return;
    }
    lines[1] = Line::Pass;
    judge_fields(layout, zone, place, &mut lines[2..]);
}

/// Sets cases 11 to 20 over the zone's characters, the first of which has the place given.
fn judge_fields(layout: &Layout, zone: &[u8], place: usize, lines: &mut [Line]) {
    let at = |position: usize| zone[position - 1];
    let line = |right: bool, position: usize| Line::pass_if(right, place + position - 1);
    let field = |rule: fn(&[u8]) -> bool, span: Span| line(rule(span.of(zone)), span.0);
    let checked = |rule: fn(&[u8]) -> bool, span: Span, digit: usize| {
        let characters = span.of(zone);
        line(rule(characters) && check_digit(characters) == at(digit), span.0)
    };

    lines[0] = line(is_code(layout, CODE.of(zone)), CODE.0);
    lines[1] = field(is_state, ISSUER);
    lines[2] = field(is_name, layout.name);
    lines[3] = checked(is_number, layout.number, layout.number_digit);
    lines[4] = field(is_state, layout.nationality);
    lines[5] = checked(is_date, layout.birth, layout.birth_digit);
    lines[6] = line(matches!(at(layout.sex), b'M' | b'F' | FILLER), layout.sex);
    lines[7] = checked(is_date, layout.expiry, layout.expiry_digit);
    if let Some((span, digit)) = layout.optional_digit {
        lines[8] = line(is_optional(span.of(zone), at(digit)), span.0);
    }
    let composite = composite_digit(layout, zone) == at(layout.composite);
    lines[9] = line(composite, layout.composite);
}

fn is_code(layout: &Layout, code: &[u8]) -> bool {
    let (first, second) = (code[0], code[1]);
    layout.codes.contains(&first)
        && (second == FILLER || second.is_ascii_uppercase() && Some(second) != layout.barred)
}

/// The rule of the issuer and of the nationality.
fn is_state(field: &[u8]) -> bool {
    let letters = field.iter().take_while(|character| character.is_ascii_uppercase()).count();
    letters >= 1 && is_filled(&field[letters..])
}

fn is_filled(characters: &[u8]) -> bool {
    characters.iter().all(|&character| character == FILLER)
}

fn is_name(name: &[u8]) -> bool {
    let Some(last) = name.iter().rposition(|&character| character != FILLER) else {
        return false;
    };
    let written = &name[..=last];
    // Three fillers together are two neighbouring pairs.
    let pairs = written.windows(2).filter(|two| is_filled(two)).count();
    written[0] != FILLER
        && written.iter().all(|&c| c == FILLER || c.is_ascii_uppercase())
        && pairs <= 1
}

fn is_number(number: &[u8]) -> bool {
    number[0] != FILLER
}

fn is_date(date: &[u8]) -> bool {
    if !date.iter().all(u8::is_ascii_digit) {
        return false;
    }
    let two = |index: usize| (date[index] - b'0') * 10 + date[index + 1] - b'0';
    let (year, month, day) = (two(0), two(2), two(4));
    let last = match month {
        2 if year % 4 == 0 => 29,
        2 => 28,
        4 | 6 | 9 | 11 => 30,
        1..=12 => 31,
        _ => return false,
    };
    (1..=last).contains(&day)
}

fn is_optional(field: &[u8], digit: u8) -> bool {
    check_digit(field) == digit || digit == FILLER && is_filled(field)
}

fn check_digit(characters: &[u8]) -> u8 {
    digit_of_sum(weighted_sum(characters, 0))
}

/// The digit over the covered places together: the weights run on from one part to the next.
fn composite_digit(layout: &Layout, zone: &[u8]) -> u8 {
    let mut sum = 0;
    let mut before = 0;
    for span in layout.covered {
        let characters = span.of(zone);
        sum += weighted_sum(characters, before);
        before += characters.len();
    }
    digit_of_sum(sum)
}

/// The sum over characters of the zone's set, of which so many stand before these.
fn weighted_sum(characters: &[u8], before: usize) -> u32 {
    const WEIGHTS: [[u32; 3]; 3] = [[7, 3, 1], [3, 1, 7], [1, 7, 3]];
    let [first, second, third] = WEIGHTS[before % 3];
    let value = |character: u8| u32::from(value_of(character));
    let mut sum = 0;
    let mut threes = characters.chunks_exact(3);
    for three in &mut threes {
        sum += first * value(three[0]) + second * value(three[1]) + third * value(three[2]);
    }
    for (&character, weight) in threes.remainder().iter().zip([first, second]) {
        sum += weight * value(character);
    }
    sum
}

fn digit_of_sum(sum: u32) -> u8 {
    b'0' + (sum % 10) as u8
}

// Section 7, file 2: cases 21 to 23.

fn judge_faces(template: Object, lines: &mut [Line]) {
    let Some(entries) = face_entries(template) else {
        lines[0] = Line::fail(template.value);
        return;
    };
    lines[0] = Line::Pass;
    if let Some(broken) = entries.clone().find(|&entry| face_header(entry).is_none()) {
        lines[1] = Line::fail(broken.start);
        return;
    }
    lines[1] = Line::Pass;
    let broken = entries.filter_map(face_header).find(|&header| !is_face_header(header));
    lines[2] = Line::of(broken.map_or(Ok(()), |header| Err(header.start)));
}

/// The face entries, if they are what case 21 asks.
fn face_entries(template: Object) -> Option<Objects> {
    let [group] = template.holds_exactly([0x7F61])?;
    let mut children = group.children();
    let count = children.next().filter(|child| child.tag == 0x02)?;
    let &[count @ 1..=9] = count.value() else {
        return None;
    };
    let entries = children.clone();
    let mut found = 0;
    for child in children {
        if child.tag != 0x7F60 {
            return None;
        }
        found += 1;
    }
    (found == usize::from(count)).then_some(entries)
}

/// The object A1 of a face entry, if the entry is what case 22 asks.
fn face_header(entry: Object) -> Option<Object> {
    let [header, block] = entry.holds_exactly([0xA1, 0x5F2E])?;
    (!block.value().is_empty()).then_some(header)
}

/// Whether an object A1 is what case 23 asks.
fn is_face_header(header: Object) -> bool {
    let mut last = 0;
    let mut needed = 0;
    for child in header.children() {
        if child.tag <= last || !is_feature(child) {
            return false;
        }
        last = child.tag;
        needed += usize::from(matches!(child.tag, 0x87 | 0x88));
    }
    needed == 2
}

fn is_feature(object: Object) -> bool {
    let value = object.value();
    match object.tag {
        0x80 | 0x86 => value.len() == 2,
        0x81 => (1..=3).contains(&value.len()),
        0x82 => value.len() == 1,
        0x83 => value.len() == 7,
        0x85 => value.len() == 8,
        0x87 => value == [0x01, 0x01],
        0x88 => value == [0x00, 0x08],
        _ => false,
    }
}

// Section 7, file 17: case 24.

fn judge_security(template: Object) -> Line {
    Line::pass_if(template.holds_exactly([0x30]).is_some(), template.value)
}
