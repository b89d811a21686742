//! Cards for trials: lawful ones, damaged ones, and the fixed ones of the benchmark.
//!
//! Everything here is built from the data, never judged: zones come from their fields with check
//! digits of their own, files from trees of objects. Damage is done at three stages: to the trees
//! (lengths around it follow), to the bytes of the files, and to the image.

use crate::reference::{FILES, LARGEST, TEMPLATE_TAGS};

// A small generator of random numbers (splitmix64).

pub struct Rng(u64);

impl Rng {
    pub fn new(seed: u64) -> Rng {
        Rng(seed)
    }

    pub fn word(&mut self) -> u64 {
        self.0 = self.0.wrapping_add(0x9E37_79B9_7F4A_7C15);
        let mut z = self.0;
        z = (z ^ (z >> 30)).wrapping_mul(0xBF58_476D_1CE4_E5B9);
        z = (z ^ (z >> 27)).wrapping_mul(0x94D0_49BB_1331_11EB);
        z ^ (z >> 31)
    }

    /// A number below the bound, which is at least 1.
    pub fn below(&mut self, bound: usize) -> usize {
        (self.word() % bound as u64) as usize
    }

    /// A number from the first to the last.
    pub fn within(&mut self, first: usize, last: usize) -> usize {
        first + self.below(last - first + 1)
    }

    pub fn byte(&mut self) -> u8 {
        self.word() as u8
    }

    /// True once in so many times.
    pub fn once_in(&mut self, times: usize) -> bool {
        self.below(times) == 0
    }

    pub fn pick<T: Copy>(&mut self, from: &[T]) -> T {
        from[self.below(from.len())]
    }

    pub fn bytes(&mut self, size: usize) -> Vec<u8> {
        (0..size).map(|_| self.byte()).collect()
    }

    fn shuffle<T>(&mut self, row: &mut [T]) {
        for index in (1..row.len()).rev() {
            row.swap(index, self.below(index + 1));
        }
    }
}

/// A card to be judged: the profile and the image.
#[derive(Clone, Debug)]
pub struct Card {
    pub kind: u8,
    pub declared: u16,
    pub image: Vec<u8>,
}

type Files = [Option<Vec<u8>>; FILES];

/// The image of a card's files.
pub fn image_of(files: &Files) -> Vec<u8> {
    let mut image = Vec::new();
    for (number, file) in files.iter().enumerate() {
        if let Some(file) = file {
            image.push(number as u8);
            image.extend((file.len() as u16).to_be_bytes());
            image.extend(file);
        }
    }
    image
}

// Objects.

/// How the length of an object is written.
#[derive(Clone, Copy, Debug)]
enum Form {
    Shortest,
    /// `81` and one byte, `82` and two, `83` and three, `84` and four, whatever the size.
    Bytes(u8),
    /// These bytes in place of the length.
    Raw([u8; 3], usize),
    /// The shortest form of another size.
    Off(i32),
}

#[derive(Clone, Debug)]
enum Body {
    Plain(Vec<u8>),
    Nested(Vec<Tree>),
}

/// An object before it becomes bytes. An empty tag without a length gives bare bytes.
#[derive(Clone, Debug)]
pub struct Tree {
    tag: u16,
    body: Body,
    form: Form,
    bare: bool,
}

fn plain(tag: u16, value: impl Into<Vec<u8>>) -> Tree {
    Tree { tag, body: Body::Plain(value.into()), form: Form::Shortest, bare: false }
}

fn nested(tag: u16, children: Vec<Tree>) -> Tree {
    Tree { tag, body: Body::Nested(children), form: Form::Shortest, bare: false }
}

fn bare(bytes: Vec<u8>) -> Tree {
    Tree { tag: 0, body: Body::Plain(bytes), form: Form::Shortest, bare: true }
}

impl Tree {
    fn write(&self, out: &mut Vec<u8>) {
        let inner;
        let value = match &self.body {
            Body::Plain(value) => value,
            Body::Nested(children) => {
                inner = write_all(children);
                &inner
            }
        };
        if !self.bare {
            write_tag(self.tag, out);
            write_length(value.len(), self.form, out);
        }
        out.extend(value);
    }

    fn to_bytes(&self) -> Vec<u8> {
        let mut out = Vec::new();
        self.write(&mut out);
        out
    }

    fn children(&mut self) -> &mut Vec<Tree> {
        match &mut self.body {
            Body::Nested(children) => children,
            Body::Plain(_) => panic!("a plain object has no children"),
        }
    }

    fn nodes(&self) -> usize {
        match &self.body {
            Body::Nested(children) => 1 + children.iter().map(Tree::nodes).sum::<usize>(),
            Body::Plain(_) => 1,
        }
    }

    fn row_of(&mut self) -> Option<&mut Vec<Tree>> {
        match &mut self.body {
            Body::Nested(children) => Some(children),
            Body::Plain(_) => None,
        }
    }

    /// The object with this number, in the order of the file; the template has number 0.
    fn node(&mut self, number: usize) -> &mut Tree {
        if number == 0 {
            return self;
        }
        let mut left = number - 1;
        for child in self.children() {
            let nodes = child.nodes();
            if left < nodes {
                return child.node(left);
            }
            left -= nodes;
        }
        panic!("there is no such object")
    }
}

fn write_all(trees: &[Tree]) -> Vec<u8> {
    let mut out = Vec::new();
    for tree in trees {
        tree.write(&mut out);
    }
    out
}

fn write_tag(tag: u16, out: &mut Vec<u8>) {
    if tag > 0xFF {
        out.push((tag >> 8) as u8);
    }
    out.push(tag as u8);
}

fn write_length(size: usize, form: Form, out: &mut Vec<u8>) {
    let bytes = (size as u32).to_be_bytes();
    match form {
        Form::Shortest if size < 128 => out.push(bytes[3]),
        Form::Shortest if size < 256 => out.extend([0x81, bytes[3]]),
        Form::Shortest => out.extend([0x82, bytes[2], bytes[3]]),
        Form::Bytes(count) => {
            out.push(0x80 + count);
            out.extend(&bytes[4 - usize::from(count)..]);
        }
        Form::Raw(raw, count) => out.extend(&raw[..count]),
        Form::Off(by) => {
            let other = (size as i32 + by).clamp(0, 65_535);
            write_length(other as usize, Form::Shortest, out);
        }
    }
}

fn is_nested_tag(tag: u16) -> bool {
    let first = if tag > 0xFF { tag >> 8 } else { tag };
    first & 0x20 != 0
}

/// Any lawful tag.
fn lawful_tag(rng: &mut Rng) -> u16 {
    loop {
        let first = rng.within(1, 255) as u16;
        if first & 0x1F != 0x1F {
            return first;
        }
        if rng.once_in(2) {
            return first << 8 | rng.below(128) as u16;
        }
    }
}

fn value_size(rng: &mut Rng) -> usize {
    match rng.below(24) {
        0 => rng.pick(&[126, 127, 128, 129, 254, 255, 256, 257]),
        1 => rng.below(600),
        2..7 => 0,
        _ => rng.below(20),
    }
}

/// A lawful tree at a level, of at most so many objects.
fn lawful_tree(rng: &mut Rng, level: usize, budget: &mut usize) -> Tree {
    *budget = budget.saturating_sub(1);
    let tag = lawful_tag(rng);
    if is_nested_tag(tag) {
        let children = if level < 16 { lawful_row(rng, level + 1, budget) } else { Vec::new() };
        nested(tag, children)
    } else {
        let size = value_size(rng);
        plain(tag, rng.bytes(size))
    }
}

fn lawful_row(rng: &mut Rng, level: usize, budget: &mut usize) -> Vec<Tree> {
    let mut row = Vec::new();
    while *budget > 0 && !rng.once_in(4) {
        row.push(lawful_tree(rng, level, budget));
    }
    row
}

// The machine readable zone.

/// The fields of a zone, without check digits.
#[derive(Clone, Debug)]
pub struct Fields {
    pub code: Vec<u8>,
    pub issuer: Vec<u8>,
    pub name: Vec<u8>,
    pub number: Vec<u8>,
    pub nationality: Vec<u8>,
    pub birth: Vec<u8>,
    pub sex: u8,
    pub expiry: Vec<u8>,
    pub optional: Vec<u8>,
    /// The second optional field of TD1, otherwise empty.
    pub more: Vec<u8>,
    /// Whether a filler stands for the digit of an optional field of fillers (TD3).
    pub filler_digit: bool,
}

/// The check digit of characters, 0 for those outside the zone's set.
pub fn digit(characters: &[u8]) -> u8 {
    let mut sum = 0;
    for (index, &character) in characters.iter().enumerate() {
        let value = match character {
            b'0'..=b'9' => character - b'0',
            b'A'..=b'Z' => character - b'A' + 10,
            _ => 0,
        };
        sum += [7, 3, 1][index % 3] * u32::from(value);
    }
    b"0123456789"[sum as usize % 10]
}

impl Fields {
    /// The zone, written line by line as it is printed.
    pub fn zone(&self, kind: u8) -> Vec<u8> {
        let with_digit = |field: &[u8]| [field, &[digit(field)]].concat();
        let number = with_digit(&self.number);
        let birth = with_digit(&self.birth);
        let expiry = with_digit(&self.expiry);
        let sex = [self.sex];
        if kind == 1 {
            let covered = [&number[..], &self.optional, &birth, &expiry, &self.more].concat();
            let composite = [digit(&covered)];
            return [
                &self.code[..],
                &self.issuer,
                &number,
                &self.optional,
                &birth,
                &sex,
                &expiry,
                &self.nationality,
                &self.more,
                &composite,
                &self.name,
            ]
            .concat();
        }
        // TD2 and TD3 differ only in the optional field's digit.
        let mut optional = self.optional.to_vec();
        if kind != 2 {
            optional = with_digit(&self.optional);
            if self.filler_digit && self.optional.iter().all(|&c| c == b'<') {
                optional[14] = b'<';
            }
        }
        let covered = [&number[..], &birth, &expiry, &optional].concat();
        let composite = [digit(&covered)];
        [
            &self.code[..],
            &self.issuer,
            &self.name,
            &number,
            &self.nationality,
            &birth,
            &sex,
            &expiry,
            &optional,
            &composite,
        ]
        .concat()
    }

    fn random(rng: &mut Rng, kind: u8) -> Fields {
        let (name, optional, more) = match kind {
            1 => (30, 15, 11),
            2 => (31, 7, 0),
            _ => (39, 14, 0),
        };
        Fields {
            code: random_code(rng, kind),
            issuer: random_state(rng),
            name: random_name(rng, name),
            number: random_number(rng),
            nationality: random_state(rng),
            birth: random_date(rng),
            sex: rng.pick(b"MF<"),
            expiry: random_date(rng),
            optional: random_optional(rng, optional),
            more: random_optional(rng, more),
            filler_digit: rng.once_in(2),
        }
    }

    /// Breaks one field, so that its check digit and the composite still fit.
    fn break_one(&mut self, rng: &mut Rng, kind: u8) {
        match rng.below(9) {
            0 => self.code = broken_code(rng, kind),
            1 => self.issuer = broken_state(rng),
            2 => break_name(rng, &mut self.name),
            3 => self.number[0] = b'<',
            4 => self.nationality = broken_state(rng),
            5 => self.birth = broken_date(rng),
            6 => self.sex = rng.pick(b"XAZ019HN"),
            7 => self.expiry = broken_date(rng),
            // Lawful, but at the edge: an optional field of fillers only.
            _ => self.optional.fill(b'<'),
        }
    }
}

fn letter(rng: &mut Rng) -> u8 {
    b'A' + rng.below(26) as u8
}

fn zone_character(rng: &mut Rng) -> u8 {
    rng.pick(b"0123456789ABCDEFGHIJKLMNOPQRSTUVWXYZ<<<<<<")
}

fn fill_up(mut text: Vec<u8>, size: usize) -> Vec<u8> {
    text.resize(size, b'<');
    text
}

fn random_code(rng: &mut Rng, kind: u8) -> Vec<u8> {
    let first = if kind == 3 { b'P' } else { rng.pick(b"ACI") };
    let second = match rng.below(4) {
        0 => b'<',
        1 if kind == 3 => b'V',
        _ => letter(rng),
    };
    let barred = kind != 3 && second == b'V';
    vec![first, if barred { b'W' } else { second }]
}

fn broken_code(rng: &mut Rng, kind: u8) -> Vec<u8> {
    match rng.below(4) {
        0 => vec![if kind == 3 { rng.pick(b"ACIV<1") } else { rng.pick(b"PVB<2") }, b'<'],
        1 if kind != 3 => vec![rng.pick(b"ACI"), b'V'],
        2 => vec![rng.pick(b"<0"), letter(rng)],
        _ => vec![random_code(rng, kind)[0], rng.pick(b"0123456789")],
    }
}

fn random_state(rng: &mut Rng) -> Vec<u8> {
    let letters = rng.pick(&[3, 3, 3, 1, 2]);
    fill_up((0..letters).map(|_| letter(rng)).collect(), 3)
}

fn broken_state(rng: &mut Rng) -> Vec<u8> {
    let (a, b) = (letter(rng), letter(rng));
    match rng.below(7) {
        0 => vec![b'<', a, b],
        1 => vec![a, b'<', b],
        2 => vec![a, b, b'7'],
        3 => vec![b'0', a, b],
        4 => vec![a, b'1', b'<'],
        5 => vec![b'<'; 3],
        _ => vec![b'<', b'<', a],
    }
}

fn random_name(rng: &mut Rng, size: usize) -> Vec<u8> {
    if rng.once_in(12) {
        return (0..size).map(|_| letter(rng)).collect();
    }
    let mut name = vec![letter(rng)];
    let mut pair = rng.below(4) > 0;
    let until = rng.within(1, size);
    while name.len() < until {
        let room = until - name.len();
        if room > 2 && pair && rng.once_in(6) {
            name.extend(b"<<");
            pair = false;
        } else if room > 1 && rng.once_in(7) {
            name.push(b'<');
        }
        name.push(letter(rng));
    }
    fill_up(name, size)
}

fn break_name(rng: &mut Rng, name: &mut [u8]) {
    let at = rng.within(1, name.len() - 4);
    match rng.below(6) {
        0 => name[0] = b'<',
        1 => name[at] = b'0' + rng.below(10) as u8,
        2 => {
            name[at..at + 3].fill(b'<');
            name[at + 3] = letter(rng);
        }
        3 => {
            let text = b"A<<B<<C";
            let at = rng.below(name.len() - text.len() + 1);
            name[..at].fill(b'A');
            name[at..at + text.len()].copy_from_slice(text);
        }
        4 => name.fill(b'<'),
        _ => *name.last_mut().unwrap() = rng.pick(b"AZ05"),
    }
}

fn random_number(rng: &mut Rng) -> Vec<u8> {
    let written = rng.pick(&[9, 9, 9, 8, 5, 1]);
    let mut number: Vec<u8> = (0..written).map(|_| zone_character(rng)).collect();
    while number[0] == b'<' {
        number[0] = zone_character(rng);
    }
    fill_up(number, 9)
}

fn days_of(year: usize, month: usize) -> usize {
    match month {
        2 => 28 + usize::from(year.is_multiple_of(4)),
        4 | 6 | 9 | 11 => 30,
        _ => 31,
    }
}

fn date(year: usize, month: usize, day: usize) -> Vec<u8> {
    format!("{year:02}{month:02}{day:02}").into_bytes()
}

fn random_date(rng: &mut Rng) -> Vec<u8> {
    let year = rng.below(100);
    let month = if rng.once_in(4) { 2 } else { rng.within(1, 12) };
    let last = days_of(year, month);
    let day = match rng.below(4) {
        0 => last,
        1 => 1,
        _ => rng.within(1, last),
    };
    date(year, month, day)
}

fn broken_date(rng: &mut Rng) -> Vec<u8> {
    let (year, month) = (rng.below(100), rng.within(1, 12));
    match rng.below(7) {
        0 => date(year, 0, rng.within(1, 28)),
        1 => date(year, rng.within(13, 99), rng.within(1, 28)),
        2 => date(year, month, 0),
        3 => date(year, month, days_of(year, month) + 1),
        4 => date(year / 4 * 4 + rng.within(1, 3), 2, 29),
        5 => date(year, month, rng.within(32, 99)),
        _ => {
            let mut broken = random_date(rng);
            broken[rng.below(6)] = rng.pick(b"<AZ");
            broken
        }
    }
}

fn random_optional(rng: &mut Rng, size: usize) -> Vec<u8> {
    match rng.below(3) {
        0 => vec![b'<'; size],
        1 => (0..size).map(|_| zone_character(rng)).collect(),
        _ => {
            let written = rng.below(size + 1);
            fill_up((0..written).map(|_| zone_character(rng)).collect(), size)
        }
    }
}

// Lawful cards.

/// A card before its files become bytes.
#[derive(Clone, Debug)]
struct Draft {
    kind: u8,
    declared: u16,
    fields: Fields,
    trees: [Option<Tree>; FILES],
}

fn template(number: usize, children: Vec<Tree>) -> Tree {
    nested(u16::from(TEMPLATE_TAGS[number]), children)
}

fn common_file(list: Vec<u8>) -> Tree {
    template(0, vec![plain(0x5F01, *b"0107"), plain(0x5F36, *b"040000"), plain(0x5C, list)])
}

fn declared_tags(declared: u16) -> Vec<u8> {
    (0..16).filter(|bit| declared >> bit & 1 == 1).map(|bit| TEMPLATE_TAGS[bit + 1]).collect()
}

fn zone_file(zone: Vec<u8>) -> Tree {
    template(1, vec![plain(0x5F1F, zone)])
}

fn face_file(entries: Vec<Tree>) -> Tree {
    let mut children = vec![plain(0x02, [entries.len() as u8])];
    children.extend(entries);
    template(2, vec![nested(0x7F61, children)])
}

/// A face entry with those features of `80` to `86` that the bits of the set name.
fn face_entry(rng: &mut Rng, features: usize, block: Vec<u8>) -> Tree {
    let longest = rng.within(1, 3);
    let sizes = [(0x80, 2), (0x81, longest), (0x82, 1), (0x83, 7), (0x85, 8), (0x86, 2)];
    let mut header = Vec::new();
    for (index, (tag, size)) in sizes.into_iter().enumerate() {
        if features >> index & 1 == 1 {
            header.push(plain(tag, rng.bytes(size)));
        }
    }
    header.push(plain(0x87, [1, 1]));
    header.push(plain(0x88, [0, 8]));
    nested(0x7F60, vec![nested(0xA1, header), plain(0x5F2E, block)])
}

fn random_faces(rng: &mut Rng) -> Vec<Tree> {
    let entries = if rng.once_in(3) { rng.within(1, 9) } else { rng.within(1, 2) };
    (0..entries)
        .map(|_| {
            let features = rng.below(64);
            let size = match rng.below(12) {
                0 => rng.within(1, 2_000),
                1 => rng.pick(&[127, 128, 255, 256]),
                _ => rng.within(1, 40),
            };
            let block = rng.bytes(size);
            face_entry(rng, features, block)
        })
        .collect()
}

fn security_file(children: Vec<Tree>) -> Tree {
    template(17, vec![nested(0x30, children)])
}

fn random_declared(rng: &mut Rng) -> u16 {
    let bits = rng.word();
    let set = match rng.below(6) {
        0 => 0,
        1 => bits as u16,
        2 => 0xFFFF,
        _ => (bits & bits >> 16 & bits >> 32) as u16,
    };
    set | 3
}

fn random_group(rng: &mut Rng, number: usize) -> Tree {
    let mut budget = rng.pick(&[0, 1, 2, 3, 5, 8, 12, 20]);
    let row = lawful_row(rng, 2, &mut budget);
    if number != 13 || rng.once_in(4) {
        return template(number, row);
    }
    // Free bytes: DG13 is not asked to be objects.
    let size = value_size(rng);
    template(number, vec![bare(rng.bytes(size))])
}

/// A draft that a record writes.
fn lawful(rng: &mut Rng) -> Draft {
    let kind = rng.within(1, 3) as u8;
    let declared = random_declared(rng);
    let fields = Fields::random(rng, kind);
    let mut trees = [const { None }; FILES];
    let mut list = declared_tags(declared);
    if rng.once_in(2) {
        rng.shuffle(&mut list);
    }
    trees[0] = Some(common_file(list));
    trees[1] = Some(zone_file(fields.zone(kind)));
    trees[2] = Some(face_file(random_faces(rng)));
    for (number, tree) in trees.iter_mut().enumerate().take(17).skip(3) {
        if declared >> (number - 1) & 1 == 1 {
            *tree = Some(random_group(rng, number));
        }
    }
    let mut budget = rng.below(12);
    trees[17] = Some(security_file(lawful_row(rng, 3, &mut budget)));
    Draft { kind, declared, fields, trees }
}

fn files_of(draft: &Draft) -> Files {
    draft.trees.each_ref().map(|tree| {
        // Trees that grew too large for a file give an empty one; this is rare.
        tree.as_ref().map(Tree::to_bytes).map(|b| if b.len() > LARGEST { Vec::new() } else { b })
    })
}

// Damage.

macro_rules! sorts {
    ($($sort:ident),* $(,)?) => {
        /// What is done to a lawful card.
        #[derive(Clone, Copy, Debug, PartialEq, Eq, PartialOrd, Ord)]
        pub enum Sort { $($sort),* }

        impl Sort {
            /// All sorts; those before `ByteFlipped` are done to the trees, those before
            /// `ImageCut` to the bytes of the files, the others to the image or the profile.
            pub const ALL: &'static [Sort] = &[$(Sort::$sort),*];
        }
    };
}

sorts! {
    Lawful,
    FieldBroken, ZoneDigit, ZoneCharacter, ZoneOther, ZoneRandom, CheckDigit, ZoneLength,
    TagList, VersionText,
    FaceCount, FaceEntry, FaceFeature,
    SecurityObject,
    ChildDropped, ChildDoubled, ChildrenSwapped, ChildAdded,
    TagChanged, ValueChanged, LengthForm, LengthWrong, Leftover,
    DeepNesting,
    // Done to the bytes.
    ByteFlipped, ByteChanged, ByteInserted, ByteDeleted,
    FilesSwapped, FileDropped, FileAdded, FileEmptied, FileCut, FileLonger,
    TemplateLength, TemplateTag, RandomValue, RandomFile,
    // Done to the image or the profile.
    ImageCut, ImageField, ImageByte, ImageLonger, ImageNoise,
    ProfileOther, ProfileAny,
    // Several of the above, and files of about the largest size.
    Several, Large,
}

/// The sort of the card with this number in a trial.
pub fn sort_of(number: u64) -> Sort {
    let usual = Sort::ALL.len() as u64 - 1;
    if number % 1_000 == 999 { Sort::Large } else { Sort::ALL[(number % usual) as usize] }
}

/// The card with this number in a trial with this seed.
pub fn random_card(seed: u64, number: u64) -> (Sort, Card) {
    let sort = sort_of(number);
    let mut rng = Rng::new(seed.wrapping_mul(0xD6E8_FEB8_6659_FD93) ^ number.rotate_left(32));
    (sort, make(&mut rng, sort))
}

fn make(rng: &mut Rng, sort: Sort) -> Card {
    let mut damages = Vec::new();
    match sort {
        Sort::Several => {
            let usual = Sort::ALL.len() - 2;
            damages.extend((0..rng.within(2, 4)).map(|_| Sort::ALL[rng.below(usual)]));
            damages.sort();
        }
        Sort::Large => return large(rng),
        _ => damages.push(sort),
    }
    let mut draft = lawful(rng);
    for &damage in damages.iter().filter(|&&damage| damage < Sort::ByteFlipped) {
        damage_draft(rng, damage, &mut draft);
    }
    let mut files = files_of(&draft);
    for &damage in damages.iter().filter(|d| (Sort::ByteFlipped..Sort::ImageCut).contains(d)) {
        damage_files(rng, damage, &mut files);
    }
    for file in files.iter_mut().flatten() {
        file.truncate(LARGEST);
    }
    let image = image_of(&files);
    let mut card = Card { kind: draft.kind, declared: draft.declared, image };
    for &damage in damages.iter().filter(|&&damage| damage >= Sort::ImageCut) {
        damage_card(rng, damage, &mut card);
    }
    card
}

/// A file that stands on the draft, more often one with cases of its own.
fn any_tree<'a>(rng: &mut Rng, draft: &'a mut Draft) -> &'a mut Tree {
    let mut numbers = vec![0, 0, 0, 1, 1, 2, 2, 2, 2, 17, 17];
    numbers.extend((3..17).filter(|&number| draft.trees[number].is_some()));
    numbers.retain(|&number| draft.trees[number].is_some());
    draft.trees[rng.pick(&numbers)].as_mut().expect("the number was kept")
}

fn any_node<'a>(rng: &mut Rng, tree: &'a mut Tree) -> &'a mut Tree {
    let number = rng.below(tree.nodes());
    tree.node(number)
}

/// A row of objects in some file, that of a nested object.
fn any_row<'a>(rng: &mut Rng, draft: &'a mut Draft) -> &'a mut Vec<Tree> {
    let tree = any_tree(rng, draft);
    let mut number = rng.below(tree.nodes());
    while tree.node(number).row_of().is_none() {
        number -= 1;
    }
    tree.node(number).children()
}

fn damage_draft(rng: &mut Rng, damage: Sort, draft: &mut Draft) {
    match damage {
        Sort::FieldBroken => {
            for _ in 0..rng.pick(&[1, 1, 1, 2, 4]) {
                draft.fields.break_one(rng, draft.kind);
            }
            draft.trees[1] = Some(zone_file(draft.fields.zone(draft.kind)));
        }
        Sort::ZoneDigit
        | Sort::ZoneCharacter
        | Sort::ZoneOther
        | Sort::ZoneRandom
        | Sort::CheckDigit => {
            let kind = draft.kind;
            let tree = draft.trees[1].as_mut().expect("a draft has DG1");
            if let Some(Body::Plain(zone)) = tree.children().first_mut().map(|zone| &mut zone.body)
            {
                damage_zone(rng, damage, kind, zone);
            }
        }
        Sort::ZoneLength => damage_zone_length(rng, draft),
        Sort::TagList => {
            let mut list = declared_tags(draft.declared);
            damage_list(rng, &mut list);
            draft.trees[0] = Some(common_file(list));
        }
        Sort::VersionText => damage_versions(rng, draft),
        Sort::FaceCount | Sort::FaceEntry | Sort::FaceFeature => {
            let mut entries = random_faces(rng);
            let any = rng.below(entries.len());
            match damage {
                Sort::FaceEntry => damage_entry(rng, &mut entries[any]),
                Sort::FaceFeature => {
                    damage_features(rng, entries[any].children()[0].children());
                }
                _ => {}
            }
            let mut file = face_file(entries);
            if damage == Sort::FaceCount {
                damage_count(rng, file.children()[0].children());
            }
            draft.trees[2] = Some(file);
        }
        Sort::SecurityObject => {
            let mut budget = 5;
            let extra = lawful_tree(rng, 2, &mut budget);
            let row = draft.trees[17].as_mut().expect("a draft has EF.SOD").children();
            match rng.below(5) {
                0 => row.clear(),
                1 => row.push(extra),
                2 => row.insert(0, extra),
                3 => row.push(nested(0x30, Vec::new())),
                _ => *row = vec![extra],
            }
        }
        Sort::ChildDropped | Sort::ChildDoubled | Sort::ChildrenSwapped => {
            let row = any_row(rng, draft);
            if row.is_empty() {
                return;
            }
            let (one, other) = (rng.below(row.len()), rng.below(row.len()));
            match damage {
                Sort::ChildDropped => drop(row.remove(one)),
                Sort::ChildDoubled => row.insert(other, row[one].clone()),
                _ => row.swap(one, other),
            }
        }
        Sort::ChildAdded => {
            let mut budget = 4;
            let added = if rng.once_in(3) {
                // Long enough that the headers around it grow.
                let size = rng.within(100, 400);
                plain(0x04, rng.bytes(size))
            } else {
                lawful_tree(rng, 12, &mut budget)
            };
            let row = any_row(rng, draft);
            row.insert(rng.below(row.len() + 1), added);
        }
        Sort::TagChanged => {
            let known = [
                0x5F01, 0x5F36, 0x5C, 0x5F1F, 0x7F61, 0x02, 0x7F60, 0xA1, 0x5F2E, 0x7F2E, 0x30,
                0x80, 0x84, 0x87, 0x88, 0x89, 0x60, 0x61, 0x77, 0x1F00, 0x1F7F, 0x1F80, 0xFFFF,
                0x00, 0xBF20,
            ];
            let tag = if rng.once_in(3) { lawful_tag(rng) } else { rng.pick(&known) };
            let tree = any_tree(rng, draft);
            any_node(rng, tree).tag = tag;
        }
        Sort::ValueChanged => {
            let tree = any_tree(rng, draft);
            let node = any_node(rng, tree);
            if let Body::Plain(value) = &mut node.body {
                damage_value(rng, value);
            }
        }
        Sort::LengthForm => {
            let form = match rng.below(8) {
                0..3 => Form::Bytes(1),
                3..6 => Form::Bytes(2),
                6 => Form::Bytes(rng.within(3, 4) as u8),
                _ => {
                    let first = if rng.once_in(2) { 0x80 } else { rng.within(0x83, 0xFF) as u8 };
                    Form::Raw([first, rng.byte(), rng.byte()], rng.within(1, 3))
                }
            };
            let tree = any_tree(rng, draft);
            any_node(rng, tree).form = form;
        }
        Sort::LengthWrong => {
            let by = rng.pick(&[-200, -20, -5, -3, -2, -1, -1, 1, 1, 2, 3, 5, 20, 200, 40_000]);
            let tree = any_tree(rng, draft);
            any_node(rng, tree).form = Form::Off(by);
        }
        Sort::Leftover => {
            let size = rng.within(1, 4);
            let bytes = if rng.once_in(3) { vec![0; size] } else { rng.bytes(size) };
            let row = any_row(rng, draft);
            let at = if rng.once_in(3) { rng.below(row.len() + 1) } else { row.len() };
            row.insert(at, bare(bytes));
        }
        Sort::DeepNesting => nest_deeply(rng, draft),
        _ => {}
    }
}

/// The positions, from 0, of the check digits and the composite of a zone.
fn digit_places(kind: u8) -> &'static [usize] {
    match kind {
        1 => &[14, 36, 44, 59],
        2 => &[45, 55, 63, 71],
        _ => &[53, 63, 71, 86, 87],
    }
}

fn other_digit(rng: &mut Rng, digit: u8) -> u8 {
    b'0' + (digit.wrapping_sub(b'0') % 10 + rng.within(1, 9) as u8) % 10
}

fn damage_zone(rng: &mut Rng, damage: Sort, kind: u8, zone: &mut [u8]) {
    if zone.is_empty() {
        return;
    }
    let any = rng.below(zone.len());
    match damage {
        Sort::ZoneDigit => {
            // The next digit from a place at will, going round at the end.
            let next = (any..zone.len()).chain(0..any).find(|&at| zone[at].is_ascii_digit());
            if let Some(at) = next {
                zone[at] = other_digit(rng, zone[at]);
            }
        }
        Sort::ZoneCharacter => zone[any] = zone_character(rng),
        Sort::ZoneRandom => {
            let end = rng.within(any + 1, zone.len());
            zone[any..end].fill_with(|| zone_character(rng));
        }
        Sort::CheckDigit => {
            let at = rng.pick(digit_places(kind)).min(zone.len() - 1);
            zone[at] = if rng.once_in(3) { rng.pick(b"<<<AZ") } else { other_digit(rng, zone[at]) };
        }
        _ => {
            // One or two characters from outside the zone's set.
            for _ in 0..rng.within(1, 2) {
                let at = rng.below(zone.len());
                zone[at] = if rng.once_in(2) {
                    rng.pick(b"/:;=@[`az *\x00\x7F\xFF\xBC")
                } else {
                    rng.byte()
                };
            }
        }
    }
}

/// A zone that is too long, too short, of another kind, or not alone in its file.
fn damage_zone_length(rng: &mut Rng, draft: &mut Draft) {
    let mut zone = draft.fields.zone(draft.kind);
    let mut others = Vec::new();
    match rng.below(6) {
        0 => zone.push(b'<'),
        1 => drop(zone.pop()),
        2 => zone.clear(),
        3 => {
            let other = draft.kind % 3 + 1;
            zone = Fields::random(rng, other).zone(other);
        }
        4 => zone.resize(rng.pick(&[72, 88, 90, 130, 300]), b'<'),
        _ => {
            let mut budget = 3;
            others.push(lawful_tree(rng, 2, &mut budget));
        }
    }
    let mut row = vec![plain(0x5F1F, zone)];
    row.extend(others);
    if rng.once_in(12) {
        row.clear();
    }
    draft.trees[1] = Some(template(1, row));
}

fn damage_list(rng: &mut Rng, list: &mut Vec<u8>) {
    rng.shuffle(list);
    let at = rng.below(list.len() + 1);
    match rng.below(8) {
        0 => list.insert(at, rng.pick(&[0x60, 0x77])),
        1 => list.insert(at, rng.byte()),
        2 => list.insert(at, rng.pick(list)),
        3 => drop(list.pop()),
        4 => list.insert(at, rng.pick(&TEMPLATE_TAGS)),
        5 => list.clear(),
        6 => *list = declared_tags(random_declared(rng)),
        _ => {
            let at = rng.below(list.len());
            list[at] = rng.pick(&[0x5F, 0x62, 0x64, 0x71, 0x72, 0x73, 0x74, 0x78, 0x00, 0xFF]);
        }
    }
}

fn damage_versions(rng: &mut Rng, draft: &mut Draft) {
    let mut version = b"0107".to_vec();
    let mut unicode = b"040000".to_vec();
    for text in [&mut version, &mut unicode] {
        match rng.below(6) {
            0 => text.clear(),
            1 => text.push(b'0'),
            2 => drop(text.pop()),
            3 => {
                let at = rng.below(text.len());
                text[at] ^= 1 << rng.below(8);
            }
            _ => {}
        }
    }
    let list = declared_tags(draft.declared);
    draft.trees[0] =
        Some(template(0, vec![plain(0x5F01, version), plain(0x5F36, unicode), plain(0x5C, list)]));
}

/// Changes the count or the entries in the row of `7F61`.
fn damage_count(rng: &mut Rng, row: &mut Vec<Tree>) {
    let entries = (row.len() - 1) as u8;
    match rng.below(8) {
        0 => row[0] = plain(0x02, [entries + 1]),
        1 => row[0] = plain(0x02, [entries - 1]),
        2 => row[0] = plain(0x02, [b'0' + entries]),
        3 => row[0] = plain(0x02, rng.pick(&[&[][..], &[0, 1], &[1, 1], &[1, 0]])),
        4 => row[0] = plain(0x02, [rng.byte()]),
        5 => {
            // Ten entries or more, counted right.
            let entry = row[1].clone();
            row.resize(1 + rng.within(10, 12), entry);
            row[0] = plain(0x02, [(row.len() - 1) as u8]);
        }
        6 => *row = vec![plain(0x02, [0])],
        _ => row.swap(0, 1),
    }
}

fn damage_entry(rng: &mut Rng, entry: &mut Tree) {
    let row = entry.children();
    match rng.below(7) {
        0 => row[1] = plain(0x5F2E, []),
        1 => row[1] = nested(0x7F2E, vec![plain(0x04, [])]),
        2 => row.swap(0, 1),
        3 => drop(row.remove(rng.below(2))),
        4 => row.push(plain(0x5F2E, [0xAA])),
        5 => row.insert(0, nested(0xA1, Vec::new())),
        _ => row[0].tag = rng.pick(&[0xA0, 0xA2, 0x30, 0xBF21]),
    }
}

fn damage_features(rng: &mut Rng, row: &mut Vec<Tree>) {
    let at = rng.below(row.len());
    match rng.below(9) {
        0 => row[at].body = Body::Plain(rng.bytes(at % 10)),
        1 => {
            if let Body::Plain(value) = &mut row[at].body {
                value.push(0);
            }
        }
        2 => row.swap(at, (at + 1) % 2),
        3 => row.insert(at, row[at].clone()),
        4 => drop(row.pop()),
        5 => drop(row.remove(row.len() - 2)),
        6 => {
            let tag = rng.pick(&[0x84, 0x89, 0x8A, 0x7E, 0x9F01, 0x01]);
            row.push(plain(tag, [1, 2]));
            row.sort_by_key(|child| child.tag);
        }
        7 => row.insert(at, nested(0xA0, Vec::new())),
        _ => {
            let last = row.len() - rng.within(1, 2);
            row[last].body = Body::Plain(vec![rng.below(2) as u8, rng.pick(&[0, 1, 2, 8, 9])]);
        }
    }
}

fn damage_value(rng: &mut Rng, value: &mut Vec<u8>) {
    match rng.below(4) {
        0 => value.clear(),
        1 => value.push(rng.byte()),
        2 => drop(value.pop()),
        _ if value.is_empty() => {}
        _ => {
            let at = rng.below(value.len());
            value[at] = rng.byte();
        }
    }
}

/// Puts a chain of nested objects into a file, whose innermost stands around level 16.
fn nest_deeply(rng: &mut Rng, draft: &mut Draft) {
    let deepest = rng.pick(&[14, 15, 15, 16, 16, 16, 17, 17, 18, 20]);
    let mut chain = if rng.once_in(2) {
        nested(0x30, Vec::new())
    } else {
        let size = rng.below(4);
        plain(0x04, rng.bytes(size))
    };
    let mut numbers: Vec<usize> =
        (3..17).filter(|&n| n != 13 && draft.trees[n].is_some()).collect();
    numbers.extend([17, 17, rng.below(3)]);
    let number = rng.pick(&numbers);
    let first = if number == 17 { 3 } else { 2 };
    for _ in first..deepest {
        let mut row = vec![chain];
        if rng.once_in(6) {
            row.insert(rng.below(2), plain(0x02, [1]));
        }
        chain = nested(rng.pick(&[0x30, 0x31, 0xA0, 0x7F60, 0xBF00]), row);
    }
    let Some(tree) = &mut draft.trees[number] else { return };
    let row = match number {
        17 => tree.children().first_mut().and_then(Tree::row_of),
        _ => tree.row_of(),
    };
    if let Some(row) = row {
        row.insert(rng.below(row.len() + 1), chain);
    }
}

fn any_file(rng: &mut Rng, files: &Files) -> usize {
    let mut numbers: Vec<usize> = vec![0, 1, 2, 17];
    numbers.extend(3..17);
    numbers.retain(|&number| files[number].is_some());
    if numbers.is_empty() { 0 } else { rng.pick(&numbers) }
}

fn damage_files(rng: &mut Rng, damage: Sort, files: &mut Files) {
    let number = any_file(rng, files);
    let other = rng.below(FILES);
    match damage {
        Sort::FilesSwapped => return files.swap(number, other),
        Sort::FileDropped => return files[number] = None,
        Sort::FileAdded => {
            let mut budget = 4;
            let added = if rng.once_in(4) {
                Vec::new()
            } else {
                template(other, lawful_row(rng, 2, &mut budget)).to_bytes()
            };
            if files[other].is_none() {
                files[other] = Some(added);
            }
            return;
        }
        _ => {}
    }
    let Some(file) = &mut files[number] else { return };
    let at = rng.below(file.len().max(1));
    match damage {
        Sort::FileEmptied => file.clear(),
        Sort::FileCut => file.truncate(at),
        Sort::FileLonger => {
            let size = rng.within(1, 5);
            file.extend(rng.bytes(size));
        }
        Sort::RandomFile => {
            let size = value_size(rng);
            *file = rng.bytes(size);
        }
        Sort::RandomValue => {
            let size = value_size(rng);
            let value = rng.bytes(size);
            *file = template(number, vec![bare(value)]).to_bytes();
        }
        Sort::ByteInserted => file.insert(at, rng.byte()),
        _ if file.is_empty() => {}
        Sort::ByteFlipped => file[at] ^= 1 << rng.below(8),
        Sort::ByteChanged => file[at] = rng.byte(),
        Sort::ByteDeleted => drop(file.remove(at)),
        Sort::TemplateTag => {
            file[0] = if rng.once_in(2) { rng.pick(&TEMPLATE_TAGS) } else { rng.byte() };
        }
        Sort::TemplateLength => match rng.below(6) {
            0 if file.len() > 1 => file[1] = rng.byte(),
            1 if file.len() > 1 => file[1] = file[1].wrapping_add(rng.pick(&[1, 255])),
            2 => file.truncate(rng.within(1, 3)),
            3 => *file = vec![file[0], 0x82, rng.byte(), rng.byte(), 0x30, 0x00],
            4 => *file = vec![file[0], rng.pick(&[0x81, 0x82]), rng.byte()],
            _ if file.len() > 2 => file[2] = rng.byte(),
            _ => {}
        },
        _ => {}
    }
}

fn damage_card(rng: &mut Rng, damage: Sort, card: &mut Card) {
    let image = &mut card.image;
    let at = rng.below(image.len().max(1));
    match damage {
        Sort::ImageCut => image.truncate(at),
        Sort::ImageField => {
            let starts = field_starts(image);
            if starts.is_empty() {
                return;
            }
            let start = rng.pick(&starts);
            match rng.below(6) {
                0 => image[start] = rng.byte(),
                1 => image[start] = rng.below(20) as u8,
                2 => image[start + 1] |= 0x80,
                3 => image[start + 1] = rng.byte(),
                4 => image[start + 2] = rng.byte(),
                _ => drop(image.drain(start..(start + rng.within(1, 5)).min(image.len()))),
            }
        }
        Sort::ImageByte if !image.is_empty() => image[at] = rng.byte(),
        Sort::ImageLonger => {
            let size = rng.within(1, 6);
            let more = if rng.once_in(3) { vec![0x11, 0, 0] } else { rng.bytes(size) };
            image.extend(more);
        }
        Sort::ImageNoise => {
            let size = rng.below(40);
            *image = rng.bytes(size);
            // A start that looks like a field, now and then.
            for (index, byte) in image.iter_mut().enumerate().take(6) {
                if index % 3 < 2 && !rng.once_in(3) {
                    *byte = rng.below(2) as u8 * (index / 3 + 1) as u8;
                }
            }
            if rng.once_in(8) {
                image.clear();
            }
        }
        Sort::ProfileOther => {
            if rng.once_in(2) {
                card.kind = card.kind % 3 + 1;
            } else {
                card.declared ^= 4 << rng.below(14);
            }
        }
        Sort::ProfileAny => match rng.below(4) {
            0 => card.kind = rng.pick(&[0, 4, 5, 255, 131]),
            1 => card.declared &= !rng.pick(&[1, 2, 3]),
            2 => card.declared = rng.word() as u16,
            _ => {
                card.kind = rng.byte() % 5;
                card.declared = rng.word() as u16 | rng.pick(&[3, 3, 1, 0]);
            }
        },
        _ => {}
    }
}

/// Where the fields of an image that is mostly well-formed start.
fn field_starts(image: &[u8]) -> Vec<usize> {
    let mut starts = Vec::new();
    let mut at = 0;
    while at + 3 <= image.len() {
        starts.push(at);
        at += 3 + usize::from(u16::from_be_bytes([image[at + 1], image[at + 2]]));
    }
    starts
}

/// A card with some files of about the largest size, and an image that may be just too large.
fn large(rng: &mut Rng) -> Card {
    let mut draft = lawful(rng);
    for number in [2, 17, 3, 13, 16] {
        let size = LARGEST - rng.pick(&[0, 0, 1, 2, 300]);
        let shape = rng.pick(&[Shape::Plain, Shape::Tiny, Shape::Deep]);
        if draft.trees[number].is_some() && rng.once_in(2) {
            draft.trees[number] = Some(sized_file(number, size, shape));
        }
    }
    let mut files = files_of(&draft);
    let number = any_file(rng, &files);
    if let Some(file) = &mut files[number] {
        match rng.below(4) {
            0 => file.resize(LARGEST, rng.byte()),
            1 => {
                // One byte more than a file may have; the image's field then breaks.
                file.resize(LARGEST + 1, rng.byte());
            }
            2 if !file.is_empty() => {
                let at = rng.below(file.len());
                file[at] ^= 1 << rng.below(8);
            }
            _ => {}
        }
    }
    Card { kind: draft.kind, declared: draft.declared, image: image_of(&files) }
}

// The fixed cards of the benchmark, all of them clean but the last.

/// What a large file is filled with.
#[derive(Clone, Copy, Debug, PartialEq, Eq)]
pub enum Shape {
    /// One plain object.
    Plain,
    /// Objects without a value, as many as there is room for.
    Tiny,
    /// Chains of nested objects down to level 16, as many as there is room for.
    Deep,
}

/// Objects that fill a range exactly, the first of which stands at the level given.
fn filling(size: usize, level: usize, shape: Shape) -> Vec<Tree> {
    let mut row = Vec::new();
    let mut left = size;
    let chain_size = 2 * (17 - level);
    match shape {
        Shape::Plain => {}
        Shape::Tiny => {
            while left >= 2 + 2 {
                row.push(plain(0x04, []));
                left -= 2;
            }
        }
        Shape::Deep => {
            while left >= chain_size + 2 {
                let mut chain = nested(0x30, Vec::new());
                for _ in level..16 {
                    chain = nested(0x30, vec![chain]);
                }
                row.push(chain);
                left -= chain_size;
            }
        }
    }
    // One plain object for the rest; two where the rest falls between two sizes of header.
    let header = |value: usize| 2 + usize::from(value > 127) + usize::from(value > 255);
    if left >= 2 {
        match (0..left).rev().find(|&value| header(value) + value == left) {
            Some(value) => row.push(plain(0x04, vec![0xC5; value])),
            None => {
                row.push(plain(0x04, []));
                row.extend(filling(left - 2, level, Shape::Plain));
            }
        }
    }
    row
}

/// The size of the value of an object that takes so many bytes with a tag of one or two.
fn room(size: usize, tag_size: usize) -> usize {
    let header = |value: usize| tag_size + 1 + usize::from(value > 127) + usize::from(value > 255);
    (0..size).rev().find(|&value| header(value) + value <= size).unwrap_or(0)
}

/// A file of this size: a lawful DG2, EF.SOD or another group. It may be a byte or two smaller
/// where a length would have to be written in one byte more.
fn sized_file(number: usize, size: usize, shape: Shape) -> Tree {
    let value = room(size, 1);
    match number {
        2 => {
            // 7F61 { 02 01 01, 7F60 { A1 { 87 .., 88 .. }, 5F2E } }
            let block = room(room(room(value, 2) - 3, 2) - 10, 2);
            face_file(vec![face_entry(&mut Rng::new(1), 0, vec![0xD8; block.max(1)])])
        }
        17 => security_file(filling(room(value, 1), 3, shape)),
        _ => template(number, filling(value, 2, shape)),
    }
}

fn fixed_fields() -> Fields {
    Fields {
        code: b"P<".to_vec(),
        issuer: b"UTO".to_vec(),
        name: fill_up(b"ERIKSSON<<ANNA<MARIA".to_vec(), 39),
        number: b"L898902C3".to_vec(),
        nationality: b"UTO".to_vec(),
        birth: b"740812".to_vec(),
        sex: b'F',
        expiry: b"120415".to_vec(),
        optional: fill_up(b"ZE184226B".to_vec(), 14),
        more: Vec::new(),
        filler_digit: false,
    }
}

/// A clean TD3 card whose files beyond EF.COM and DG1 have about these sizes; 0 leaves one out.
fn fixed_card(sizes: [usize; FILES], shape: Shape) -> Card {
    let mut trees = [const { None }; FILES];
    let mut declared = 3;
    for number in 2..FILES {
        if sizes[number] > 0 {
            trees[number] = Some(sized_file(number, sizes[number], shape));
            declared |= if number < 17 { 1 << (number - 1) } else { 0 };
        }
    }
    trees[0] = Some(common_file(declared_tags(declared)));
    trees[1] = Some(zone_file(fixed_fields().zone(3)));
    let files = trees.map(|tree| tree.map(|tree| tree.to_bytes()));
    Card { kind: 3, declared, image: image_of(&files) }
}

/// The smallest useful card: EF.COM, DG1, DG2 with one small face, EF.SOD.
pub fn small_card() -> Card {
    let mut sizes = [0; FILES];
    sizes[2] = 25;
    sizes[17] = 4;
    fixed_card(sizes, Shape::Plain)
}

/// A card as it is handed out: a face of 18,000 bytes, a fingerprint, details, keys, and an
/// EF.SOD of objects of the usual sizes. Between 20 and 40 KB.
pub fn typical_card() -> Card {
    let mut rng = Rng::new(7);
    let declared: u16 = 0b0110_1100_0000_0111;
    let mut trees = [const { None }; FILES];
    trees[0] = Some(common_file(declared_tags(declared)));
    trees[1] = Some(zone_file(fixed_fields().zone(3)));
    let face = rng.bytes(18_000);
    trees[2] = Some(face_file(vec![face_entry(&mut rng, 0b111111, face)]));
    let finger = rng.bytes(9_000);
    let header =
        vec![plain(0x80, [1, 1]), plain(0x81, [8]), plain(0x87, [1, 1]), plain(0x88, [0, 7])];
    let finger = nested(0x7F60, vec![nested(0xA1, header), plain(0x5F2E, finger)]);
    trees[3] = Some(template(3, vec![nested(0x7F61, vec![plain(0x02, [1]), finger])]));
    let details = [0x5F0E, 0x5F10, 0x5F2B, 0x5F11, 0x5F42, 0x5F12, 0x5F13];
    let row = details.map(|tag| plain(tag, rng.bytes(18)));
    trees[11] = Some(template(11, row.to_vec()));
    let row = [0x5F19, 0x5F26, 0x5F1B, 0x5F1C].map(|tag| plain(tag, rng.bytes(12)));
    trees[12] = Some(template(12, row.to_vec()));
    let parameters = |rng: &mut Rng| {
        nested(0x30, vec![plain(0x06, rng.bytes(10)), plain(0x02, [1]), plain(0x02, [13])])
    };
    let infos = (0..5).map(|_| parameters(&mut rng)).collect();
    trees[14] = Some(template(14, vec![nested(0x31, infos)]));
    let algorithm = nested(0x30, vec![plain(0x06, rng.bytes(9)), plain(0x05, [])]);
    let key = nested(0x30, vec![algorithm, plain(0x03, rng.bytes(270))]);
    trees[15] = Some(template(15, vec![key]));
    trees[17] = Some(security_file(typical_security(&mut rng)));
    let files = trees.map(|tree| tree.map(|tree| tree.to_bytes()));
    Card { kind: 3, declared, image: image_of(&files) }
}

fn typical_security(rng: &mut Rng) -> Vec<Tree> {
    let algorithm = |rng: &mut Rng| nested(0x30, vec![plain(0x06, rng.bytes(9)), plain(0x05, [])]);
    let name = |rng: &mut Rng| {
        let parts = (0..4).map(|_| {
            let part = nested(0x30, vec![plain(0x06, rng.bytes(3)), plain(0x0C, rng.bytes(12))]);
            nested(0x31, vec![part])
        });
        nested(0x30, parts.collect())
    };
    let hashes =
        (1..=8).map(|group| nested(0x30, vec![plain(0x02, [group]), plain(0x04, rng.bytes(32))]));
    let hashes = hashes.collect();
    let hashed = nested(0x30, vec![plain(0x02, [0]), algorithm(rng), nested(0x30, hashes)]);
    let content = nested(
        0x30,
        vec![plain(0x06, rng.bytes(6)), nested(0xA0, vec![plain(0x04, hashed.to_bytes())])],
    );
    let extensions =
        (0..6).map(|_| nested(0x30, vec![plain(0x06, rng.bytes(3)), plain(0x04, rng.bytes(24))]));
    let extensions = extensions.collect();
    let body = nested(
        0x30,
        vec![
            nested(0xA0, vec![plain(0x02, [2])]),
            plain(0x02, rng.bytes(8)),
            algorithm(rng),
            name(rng),
            nested(0x30, vec![plain(0x17, rng.bytes(13)), plain(0x17, rng.bytes(13))]),
            name(rng),
            nested(0x30, vec![algorithm(rng), plain(0x03, rng.bytes(526))]),
            nested(0xA3, vec![nested(0x30, extensions)]),
        ],
    );
    let certificate = nested(0x30, vec![body, algorithm(rng), plain(0x03, rng.bytes(513))]);
    let signer = nested(
        0x30,
        vec![
            plain(0x02, [1]),
            nested(0x30, vec![name(rng), plain(0x02, rng.bytes(8))]),
            algorithm(rng),
            nested(
                0xA0,
                vec![nested(
                    0x30,
                    vec![plain(0x06, rng.bytes(9)), nested(0x31, vec![plain(0x04, rng.bytes(32))])],
                )],
            ),
            algorithm(rng),
            plain(0x04, rng.bytes(512)),
        ],
    );
    let signed = nested(
        0x30,
        vec![
            plain(0x02, [3]),
            nested(0x31, vec![algorithm(rng)]),
            content,
            nested(0xA0, vec![certificate]),
            nested(0x31, vec![signer]),
        ],
    );
    vec![plain(0x06, rng.bytes(9)), nested(0xA0, vec![signed])]
}

/// All groups declared; DG2 to DG16 and EF.SOD have 32,767 bytes each. EF.COM and DG1 have the
/// only size that they can have on a clean card.
pub fn largest_card(shape: Shape) -> Card {
    let mut sizes = [LARGEST; FILES];
    sizes[0] = 0;
    sizes[1] = 0;
    fixed_card(sizes, shape)
}

/// All eighteen files with 32,767 bytes, all templates, tiled; EF.COM and DG1 fail their cases.
pub fn eighteen_largest() -> Card {
    let files = std::array::from_fn(|number| {
        let plain_file = template(number, filling(LARGEST - 4, 2, Shape::Plain));
        Some(
            if number == 2 || number == 17 {
                sized_file(number, LARGEST, Shape::Plain)
            } else {
                plain_file
            }
            .to_bytes(),
        )
    });
    Card { kind: 3, declared: 0xFFFF, image: image_of(&files) }
}

/// A clean card of about so many bytes: EF.SOD takes what fits, then DG2 if it is filled with
/// plain values, then further groups.
pub fn card_of_size(size: usize, shape: Shape) -> Card {
    let mut sizes = [0; FILES];
    sizes[2] = 25;
    sizes[17] = 4;
    // 3 bytes of field for each file, and the files that are there anyhow.
    let mut left = size.saturating_sub(4 * 3 + 22 + 93 + 25 + 4);
    let numbers: &[usize] = if shape == Shape::Plain { &[2, 17] } else { &[17] };
    for &number in numbers {
        let more = left.min(LARGEST - sizes[number]);
        sizes[number] += more;
        left -= more;
    }
    for size in &mut sizes[3..17] {
        if left > 8 {
            *size = (left - 4).min(LARGEST);
            left -= *size + 4;
        }
    }
    fixed_card(sizes, shape)
}

/// The cards of the benchmark with their names.
pub fn benchmark_cards() -> Vec<(&'static str, Card)> {
    vec![
        ("small card", small_card()),
        ("typical card", typical_card()),
        ("largest files", largest_card(Shape::Plain)),
        ("deepest nesting", largest_card(Shape::Deep)),
        ("tiny objects", largest_card(Shape::Tiny)),
        ("18 largest, unclean", eighteen_largest()),
    ]
}

#[cfg(test)]
mod tests {
    use super::*;
    use crate::reference::{Line, sheet};

    #[test]
    fn lawful_cards_are_clean() {
        for number in 0..3_000 {
            let card = make(&mut Rng::new(number), Sort::Lawful);
            let sheet = sheet(card.kind, card.declared, &card.image).expect("a lawful card");
            assert_eq!(sheet.counts[1], 0, "card {number}");
            assert_eq!(sheet.counts[3], 0, "card {number}");
        }
    }

    #[test]
    fn benchmark_cards_are_what_they_are_called() {
        for (name, card) in benchmark_cards() {
            let sheet = sheet(card.kind, card.declared, &card.image).expect(name);
            let fails = sheet.lines.iter().filter(|line| matches!(line, Line::Fail { .. })).count();
            assert_eq!(fails, if name.ends_with("unclean") { 2 } else { 0 }, "{name}");
        }
        assert_eq!(small_card().image.len(), 4 * 3 + 22 + 93 + 25 + 4);
        assert!((20_000..40_000).contains(&typical_card().image.len()));
        for shape in [Shape::Plain, Shape::Tiny, Shape::Deep] {
            let size = largest_card(shape).image.len();
            assert_eq!(size, 18 * 3 + 36 + 93 + 16 * LARGEST, "{shape:?}");
        }
        assert_eq!(eighteen_largest().image.len(), 18 * (3 + LARGEST));
    }

    #[test]
    fn cards_of_a_size_have_about_that_size_and_are_clean() {
        for size in [200, 1_000, 4_000, 30_000, 70_000, 300_000, 480_000] {
            for shape in [Shape::Plain, Shape::Tiny, Shape::Deep] {
                let card = card_of_size(size, shape);
                assert!(card.image.len().abs_diff(size) < 40, "{size} {}", card.image.len());
                let sheet = sheet(card.kind, card.declared, &card.image).expect("a lawful card");
                assert_eq!(sheet.counts[1], 0);
            }
        }
    }

    #[test]
    fn the_zone_of_the_rule_book_is_written() {
        let zone = b"P<UTOERIKSSON<<ANNA<MARIA<<<<<<<<<<<<<<<<<<<L898902C36UTO7408122F1204159ZE184226B<<<<<10";
        assert_eq!(fixed_fields().zone(3), zone);
    }
}
