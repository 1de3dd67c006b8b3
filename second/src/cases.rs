//! Random display files, each with its line and the pixels that it stores, so that another
//! account of the same processor can be held against this one.
//!
//! A reader of the line alone sees the picture only as a count of stores. So most programs
//! draw across the edges of the field, where a pixel that is put wrongly is counted wrongly.

use std::fmt;
use std::iter;
use std::mem;

use crate::plot::{plot, stored, Line};

const SEGMENTS: u16 = 8;
const SEGMENT_WORDS: u16 = 4_096;
const SEGMENT_BYTES: u16 = 2 * SEGMENT_WORDS;

/// A reader may be slow: no case stores more, and none but a loop takes more steps.
const MOST_STORES: u64 = 600;
const MOST_STEPS: u64 = 200;

/// No code of a mode.
const NO_MODE: u16 = 255;
pub(crate) const CHARACTERS: u16 = 0;
pub(crate) const SHORT_VECTOR: u16 = 1;
pub(crate) const LONG_VECTOR: u16 = 2;
pub(crate) const ABSOLUTE_POINT: u16 = 3;
const GRAPH_X: u16 = 4;
const GRAPH_Y: u16 = 5;
const RELATIVE_POINT: u16 = 6;

pub(crate) const JUMP: u16 = 12;
const NO_OP: u16 = 13;
const STATUS_A: u16 = 14;
const STATUS_C_OR_INCREMENT: u16 = 15;
const NOT_BUILT: [u16; 5] = [7, 8, 9, 10, 11];

/// All bits but 15.
pub(crate) const DATA: u16 = 0x7FFF;
const LIT: u16 = 1 << 14;
const MINUS: u16 = 1 << 13;
const LONGEST_MOVE: i32 = 1_023;
const LOWEST: i32 = -4_096;
const HIGHEST: i32 = 4_095;

/// How far a word of two characters takes X, and the units that a cell is wide and high.
const CHARACTERS_ADVANCE: i32 = 32;
const CELL_UNITS: i32 = 16;
const FIELD_UNITS: i32 = 1_024;
/// Codes just beyond those that have a cell, and the one that a file padded with zeros has.
const NO_CELL: [u16; 3] = [0, 31, 127];

/// The bytes of a file, and the line of `plot` for them.
#[derive(Clone, Debug, PartialEq, Eq)]
pub struct Case {
    pub bytes: Vec<u8>,
    pub line: Line,
}

/// The cases of a seed, without end.
pub fn cases(seed: u64) -> impl Iterator<Item = Case> {
    let mut random = Random(seed);
    iter::repeat_with(move || case(&mut random))
}

/// The bytes in hex, the seven numbers of the line, and each store as `x,y`, in their order.
impl fmt::Display for Case {
    fn fmt(&self, f: &mut fmt::Formatter) -> fmt::Result {
        if self.bytes.is_empty() {
            write!(f, "-")?;
        }
        for byte in &self.bytes {
            write!(f, "{:02x}", byte)?;
        }
        write!(f, " {}", self.line)?;
        for place in stored(&self.bytes) {
            write!(f, " {},{}", place.x.0, place.y.0)?;
        }
        Ok(())
    }
}

pub(crate) fn case(random: &mut Random) -> Case {
    loop {
        let mut most_steps = MOST_STEPS;
        let bytes = match random.below(100) {
            0..=70 => bytes_of(&program(random)),
            71..=76 => bytes_of(&noise(random)),
            77..=79 => {
                // A loop that came about by chance may draw at length in each round; these do not.
                most_steps = u64::MAX;
                bytes_of(&repeated(random))
            }
            80..=81 => bytes_of(&wide(random)),
            _ => damaged(random),
        };
        let line = plot(&bytes);
        if line.stores <= MOST_STORES && line.steps <= most_steps {
            return Case { bytes, line };
        }
    }
}

pub(crate) fn bytes_of(words: &[u16]) -> Vec<u8> {
    words.iter().flat_map(|word| word.to_le_bytes()).collect()
}

/// A program of up to four pieces in as many segments, with other segments laid over them.
pub(crate) fn program(random: &mut Random) -> Vec<u16> {
    let pieces = 1 + random.below(4) * random.below(2);
    let spare = random.below(SEGMENTS - pieces + 1) * random.below(2);
    let count = pieces + spare;
    let mut numbers: Vec<u16> = (1..count).collect();
    random.shuffle(&mut numbers);
    // The first piece stands where a fresh machine starts.
    numbers.insert(0, 0);

    let modes: &[u16] = if random.chance(8) {
        &[]
    } else {
        &[
            CHARACTERS,
            SHORT_VECTOR,
            LONG_VECTOR,
            ABSOLUTE_POINT,
            GRAPH_X,
            GRAPH_Y,
            RELATIVE_POINT,
        ]
    };
    let mut writer = Writer::new(random, modes, 70);
    let mut segments = Vec::new();
    for piece in 0..pieces {
        let number = numbers[usize::from(piece)];
        writer.address = number * SEGMENT_BYTES;
        for _ in 0..1 + writer.random.below(1 + 6 / pieces) {
            writer.passage();
        }
        if piece + 1 < pieces {
            let next = numbers[usize::from(piece) + 1];
            writer.jump(next * SEGMENT_BYTES);
        } else {
            writer.ending(count);
        }
        segments.push((number, mem::take(&mut writer.words)));
    }
    random.shuffle(&mut segments);
    laid_out(random, count, segments)
}

/// The pieces in the given order, and a header. Numbers without a piece of their own get
/// any part of the file.
pub(crate) fn laid_out(random: &mut Random, count: u16, pieces: Vec<(u16, Vec<u16>)>) -> Vec<u16> {
    let header = 2 + 2 * count;
    let mut body = Vec::new();
    let mut places = vec![None; usize::from(count)];
    for (number, words) in pieces {
        if random.chance(20) {
            // Words between two pieces, in no segment or in one of those that overlap.
            body.extend((0..1 + random.below(3)).map(|_| random.word()));
        }
        places[usize::from(number)] = Some((header + body.len() as u16, words.len() as u16));
        body.extend(words);
    }
    let end = header + body.len() as u16;
    let mut file = vec![1, count];
    for place in places {
        let (offset, length) = place.unwrap_or_else(|| {
            let offset = random.between(header, end);
            let length = random.between(0, end - offset);
            (offset, if random.chance(25) { 0 } else { length })
        });
        file.extend([offset, length]);
    }
    file.extend(body);
    file
}

/// A loop that the budget or the range ends. Nothing in it draws more than a point.
fn repeated(random: &mut Random) -> Vec<u16> {
    let (modes, lit): (&[u16], u16) = if random.chance(40) {
        (&[SHORT_VECTOR, LONG_VECTOR], 0)
    } else {
        (&[ABSOLUTE_POINT, GRAPH_X, GRAPH_Y, RELATIVE_POINT], 50)
    };
    let mut writer = Writer::new(random, modes, lit);
    for _ in 0..writer.random.below(3) {
        writer.plain_passage();
    }
    let start = writer.here();
    for _ in 0..writer.random.below(4) {
        writer.plain_passage();
    }
    writer.jump(start);
    let words = writer.words;
    laid_out(random, 1, vec![(0, words)])
}

/// Words that nobody meant as a program, behind a mode so that some of them are obeyed.
pub(crate) fn noise(random: &mut Random) -> Vec<u16> {
    let mut words = vec![control(random.between(0, 6))];
    for _ in 0..random.below(40) {
        let word = random.word();
        words.push(if random.chance(70) { word & DATA } else { word });
    }
    let count = random.between(1, SEGMENTS);
    laid_out(random, count, vec![(0, words)])
}

/// A segment as long as one may be, so that a run goes over its end: into the next segment,
/// into none, or from the last address to the first.
fn wide(random: &mut Random) -> Vec<u16> {
    let count = random.between(1, SEGMENTS);
    let header = 2 + 2 * count;
    let full = if random.chance(40) {
        count - 1
    } else {
        random.below(count)
    };
    let mut writer = Writer::new(random, &[SHORT_VECTOR, LONG_VECTOR, GRAPH_Y], 20);

    // A way back to address 0 is a loop; the long move ends it soon.
    writer.set_mode(LONG_VECTOR);
    let far = writer.random.between(500, 1_023);
    writer.words.extend([far, 0]);
    let left = 2 * writer.random.between(1, 5);
    writer.jump(full * SEGMENT_BYTES + (SEGMENT_BYTES - left));
    let entry = writer.words.len() as u16;
    writer.passage();
    writer.ending(count);
    let exit = writer.words.len() as u16 - entry;
    writer
        .words
        .resize(usize::from(SEGMENT_WORDS - left / 2), control(NO_OP));
    while writer.words.len() < usize::from(SEGMENT_WORDS) {
        if writer.random.chance(30) {
            writer.order();
        } else {
            writer.item();
        }
    }
    writer.words.truncate(usize::from(SEGMENT_WORDS));
    let words = writer.words;

    // The file has room for one word more, so that nothing but its length can speak against it.
    let length = SEGMENT_WORDS + u16::from(random.chance(20));
    let mut file = vec![1, count];
    for number in 0..count {
        if number == full || number == 0 {
            file.extend([header, length]);
        } else {
            file.extend([header + entry, exit]);
        }
    }
    file.extend(words);
    file.push(control(NO_OP));
    file
}

/// A file with something wrong in it, most often in the header.
fn damaged(random: &mut Random) -> Vec<u8> {
    let mut words = program(random);
    for _ in 0..1 + random.below(5) / 4 {
        damage_words(random, &mut words);
    }
    let mut bytes = bytes_of(&words);
    match random.below(10) {
        0 => bytes.push(random.word() as u8),
        1 => bytes.truncate(usize::from(random.between(0, bytes.len() as u16))),
        2 => bytes.truncate(usize::from(random.below(8))),
        3 => {
            let at = random.index(bytes.len());
            if let Some(byte) = bytes.get_mut(at) {
                *byte ^= 1 << random.below(8);
            }
        }
        _ => {}
    }
    bytes
}

fn damage_words(random: &mut Random, words: &mut Vec<u16>) {
    if words.len() < 4 {
        return;
    }
    let end = words.len() as u16;
    let header = 2 + 2 * words[1].clamp(1, SEGMENTS);
    let pair = 2 + 2 * random.index(usize::from(header / 2 - 1));
    if pair + 1 >= words.len() {
        return;
    }
    let any = random.word();
    match random.below(9) {
        0 | 1 => words[0] = random.pick(&[0, 2, 256, 257, 0x8001, any]),
        2 | 3 => words[1] = random.pick(&[0, 9, 10, 256, 257, 0x8001, any]),
        4 => words.truncate(usize::from(random.below(header))),
        5 => words[pair] = random.pick(&[0, 1, header - 1, any % header]),
        6 => words[pair + 1] = (end + 1 + random.below(3)).saturating_sub(words[pair]),
        7 => words[pair + 1] = random.pick(&[SEGMENT_WORDS, SEGMENT_WORDS + 1, u16::MAX, any]),
        _ => {
            // With this one the sum is 0 once it is cut to 16 bits.
            let round = words[pair + 1].wrapping_neg();
            words[pair] = random.pick(&[round, u16::MAX, end, end + 1]);
        }
    }
}

/// Writes the words of one segment after the other.
struct Writer<'a> {
    random: &'a mut Random,
    /// The modes that it may set.
    modes: &'static [u16],
    /// How many items of a hundred are lit.
    lit: u16,
    mode: u16,
    /// Where the words begin.
    address: u16,
    words: Vec<u16>,
}

impl<'a> Writer<'a> {
    fn new(random: &'a mut Random, modes: &'static [u16], lit: u16) -> Writer<'a> {
        Writer {
            random,
            modes,
            lit,
            mode: NO_MODE,
            address: 0,
            words: Vec::new(),
        }
    }

    /// The address of the next word.
    fn here(&self) -> u16 {
        self.address + 2 * self.words.len() as u16
    }

    fn passage(&mut self) {
        match self.random.below(100) {
            0..=5 => self.jump_ahead(),
            _ if self.modes.is_empty() => self.order(),
            6..=20 => self.graph_over_the_edge(),
            21..=37 => self.vectors_along_the_edge(),
            38..=41 => self.brink(),
            42..=56 => self.characters_over_the_edge(),
            57..=59 => self.characters_at_the_brink(),
            _ => self.plain_passage(),
        }
    }

    fn plain_passage(&mut self) {
        if self.random.chance(30) {
            return self.order();
        }
        if self.mode == NO_MODE || self.random.chance(70) {
            let mode = self.random.pick(self.modes);
            self.set_mode(mode);
        }
        // A character word stores more than most items.
        let most = if self.mode == CHARACTERS { 2 } else { 5 };
        for _ in 0..1 + self.random.below(most) {
            self.item();
        }
    }

    /// A word with bit 15 set that neither sets a mode nor ends the run.
    fn order(&mut self) {
        match self.random.below(10) {
            0..=2 => self.increment(),
            3..=4 => self.status_c(),
            5..=7 => {
                let latch = self.random.below(4) << 8;
                let unread = self.random.unread(0x00FF);
                self.words.push(control(STATUS_A) | latch | unread);
            }
            _ => {
                let unread = self.random.unread(0x07FF);
                self.words.push(control(NO_OP) | unread);
            }
        }
    }

    fn set_mode(&mut self, mode: u16) {
        let value = self.random.below(8) << 8;
        let unread = self.random.unread(0x00FF);
        self.words.push(control(mode) | value | unread);
        self.mode = mode;
    }

    fn increment(&mut self) {
        let sets = u16::from(self.random.chance(85)) << 6;
        let size = self.random.small(9, 64);
        let unread = self.random.unread(0x0380);
        self.words
            .push(control(STATUS_C_OR_INCREMENT) | sets | size | unread);
    }

    fn status_c(&mut self) {
        let memory = if self.random.chance(70) {
            0
        } else {
            self.random.below(4)
        } << 8;
        let write = u16::from(self.random.chance(70)) << 4;
        let unread = self.random.unread(0x00EF);
        self.words
            .push(control(STATUS_C_OR_INCREMENT) | 1 << 10 | memory | write | unread);
    }

    fn jump(&mut self, target: u16) {
        let unread = self.random.unread(0x07FF);
        self.words.extend([control(JUMP) | unread, target]);
    }

    fn jump_ahead(&mut self) {
        let skipped = self.random.below(5);
        let target = self.here() + 4 + 2 * skipped;
        self.jump(target);
        for _ in 0..skipped {
            let word = self.random.word();
            self.words.push(word);
        }
    }

    /// One or two words for the mode that was set last.
    fn item(&mut self) {
        let lit = if self.random.chance(self.lit) { LIT } else { 0 };
        match self.mode {
            CHARACTERS => {
                let word = self.random.characters();
                self.words.push(word);
            }
            SHORT_VECTOR | RELATIVE_POINT => {
                let word = self.random.short_moves();
                self.words.push(lit | word);
            }
            LONG_VECTOR => {
                let first = self.random.long_move();
                let second = self.random.long_move();
                self.pair(lit | first, second, 0x1C00);
            }
            ABSOLUTE_POINT => {
                let first = self.random.coordinate();
                let second = self.random.coordinate();
                self.pair(lit | first, second, 0x3C00);
            }
            _ => {
                let word = self.random.coordinate();
                let unread = self.random.unread(0x3C00);
                self.words.push(lit | word | unread);
            }
        }
    }

    /// Two data words with chance in the bits that neither of them is asked for.
    fn pair(&mut self, first: u16, second: u16, mask: u16) {
        let unread = self.random.unread(mask);
        self.words.push(first | unread);
        let unread = self.random.unread(mask | LIT);
        self.words.push(second | unread);
    }

    fn point(&mut self, x: u16, y: u16) {
        self.set_mode(ABSOLUTE_POINT);
        let lit = self.random.below(2) * LIT;
        self.pair(lit | x, y, 0x3C00);
    }

    /// Points that come to the edge of the field by the increment.
    fn graph_over_the_edge(&mut self) {
        let near = self.random.between(1_010, 1_023);
        let other = self.random.coordinate();
        let mode = self.random.pick(&[GRAPH_X, GRAPH_Y]);
        if mode == GRAPH_X {
            self.point(other, near);
        } else {
            self.point(near, other);
        }
        self.increment();
        self.set_mode(mode);
        for _ in 0..2 + self.random.below(5) {
            self.item();
        }
    }

    /// Flat or steep vectors over the edge of the field: the place of each pixel tells.
    fn vectors_along_the_edge(&mut self) {
        let edge = self.random.pick(&[0, 1, 1_022, 1_023]);
        let other = self.random.between(60, 960);
        let flat = self.random.chance(50);
        if flat {
            self.point(other, edge);
        } else {
            self.point(edge, other);
        }
        self.set_mode(LONG_VECTOR);
        for _ in 0..1 + self.random.below(4) {
            let along = self.random.small(30, 60) | self.random.sign();
            let across = self.random.small(4, 12) | self.random.sign();
            let (x, y) = if flat {
                (along, across)
            } else {
                (across, along)
            };
            self.pair(LIT | x, y, 0x1C00);
        }
    }

    /// To the end of the range, where small moves stay in it or leave it.
    fn brink(&mut self) {
        let upward = self.random.chance(50);
        let along_x = self.random.chance(50);
        let left = self.random.below(5);
        self.reach_the_brink(upward, along_x, left.into());
        let graph = if along_x { GRAPH_Y } else { GRAPH_X };
        let mode = self.random.pick(&[SHORT_VECTOR, RELATIVE_POINT, graph]);
        self.increment();
        self.set_mode(mode);
        for _ in 0..1 + self.random.below(3) {
            if mode == graph {
                self.item();
            } else {
                let size = self.random.below(4);
                self.words.push(short_move(upward, along_x, size));
            }
        }
    }

    /// To so many units from the end of the range.
    fn reach_the_brink(&mut self, upward: bool, along_x: bool, left: i32) {
        let (x, y) = (self.random.coordinate(), self.random.coordinate());
        self.point(x, y);
        self.set_mode(LONG_VECTOR);
        let from = i32::from(if along_x { x } else { y });
        let distance = if upward {
            HIGHEST - from
        } else {
            from - LOWEST
        };
        let rest = distance - left;
        self.shift(if upward { rest } else { -rest }, along_x);
    }

    /// Unlit long vectors along one axis.
    fn shift(&mut self, by: i32, along_x: bool) {
        let mut rest = by.abs();
        while rest > 0 {
            let size = rest.min(LONGEST_MOVE);
            rest -= size;
            let far = size as u16 | if by < 0 { MINUS } else { 0 };
            // Minus zero, half the time.
            let stay = self.random.sign();
            let (x, y) = if along_x { (far, stay) } else { (stay, far) };
            self.pair(x, y, 0x1C00);
        }
    }

    /// Characters that an edge of the field cuts, or that stand wholly beyond one.
    fn characters_over_the_edge(&mut self) {
        let (x, y) = (self.random.about_a_cell(), self.random.about_a_cell());
        let hidden = self.random.chance(12);
        if hidden {
            self.write(false);
        }
        let in_field = |unit: i32| unit.clamp(0, FIELD_UNITS - 1);
        self.point(in_field(x) as u16, in_field(y) as u16);
        if (x, y) != (in_field(x), in_field(y)) {
            self.set_mode(LONG_VECTOR);
            self.shift(x - in_field(x), true);
            self.shift(y - in_field(y), false);
        }
        self.set_mode(CHARACTERS);
        for _ in 0..1 + self.random.below(8) / 6 {
            self.item();
        }
        if hidden && self.random.chance(80) {
            self.write(true);
        }
    }

    /// Characters at the right end of the range, where the last of them stay in it or leave it.
    fn characters_at_the_brink(&mut self) {
        let count = self.random.between(1, 2);
        let past = i32::from(self.random.below(3)) - i32::from(self.random.below(2));
        let left = CHARACTERS_ADVANCE * i32::from(count) - past;
        self.reach_the_brink(true, true, left);
        self.set_mode(CHARACTERS);
        for _ in 0..count {
            self.item();
        }
    }

    fn write(&mut self, on: bool) {
        let write = u16::from(on) << 4;
        let unread = self.random.unread(0x00EF);
        self.words
            .push(control(STATUS_C_OR_INCREMENT) | 1 << 10 | write | unread);
    }

    /// What ends the run, in a file of so many segments.
    fn ending(&mut self, count: u16) {
        if self.mode == NO_MODE && self.random.chance(70) {
            let data = self.random.word() & DATA;
            return self.words.push(data);
        }
        match self.random.below(100) {
            0..=16 => self.stop(),
            17..=31 => {
                // The latch from an earlier word, not from the stop itself.
                let load = 0x0200 | self.random.below(2) << 8;
                let unread = self.random.unread(0x00FF);
                self.words.push(control(STATUS_A) | load | unread);
                self.stop();
            }
            32..=39 => {
                let target = self.random.word() | 1;
                self.jump(target);
            }
            40..=49 if count < SEGMENTS => {
                let number = self.random.between(count, SEGMENTS - 1);
                let place = self.random.small(10, SEGMENT_WORDS);
                self.jump(number * SEGMENT_BYTES + 2 * place);
            }
            40..=54 => {
                let target = self.here() + 4 + 2 * self.random.small(2, 100);
                self.jump(target);
            }
            55..=62 => self.half_a_pair(),
            63..=70 => {
                let code = self.random.pick(&NOT_BUILT);
                let unread = self.random.unread(0x07FF);
                self.words.push(control(code) | unread);
            }
            71..=78 => {
                self.half_a_pair();
                let second = self.random.word() | 1 << 15;
                self.words.push(second);
            }
            79..=86 => {
                let upward = self.random.chance(50);
                let along_x = self.random.chance(50);
                let left = self.random.below(5);
                self.reach_the_brink(upward, along_x, left.into());
                self.set_mode(SHORT_VECTOR);
                let size = self.random.between(5, 63);
                self.words.push(LIT | short_move(upward, along_x, size));
            }
            87..=94 => {
                if self.random.chance(20) {
                    // So far out that the position would leave the range besides.
                    let left = self.random.below(32);
                    self.reach_the_brink(true, true, left.into());
                }
                self.set_mode(CHARACTERS);
                let word = self.random.no_characters();
                self.words.push(word);
            }
            _ => {
                // Anywhere: perhaps into a second word, an empty segment, or none.
                let number = self.random.below(SEGMENTS);
                let place = self.random.below(40);
                self.jump(number * SEGMENT_BYTES + 2 * place);
            }
        }
    }

    fn stop(&mut self) {
        let latch = self.random.below(4) << 8;
        let unread = self.random.unread(0x00FF);
        self.words
            .push(control(STATUS_A) | 1 << 10 | latch | unread);
    }

    /// The first word of an item of two words.
    fn half_a_pair(&mut self) {
        let mode = self.random.pick(&[LONG_VECTOR, ABSOLUTE_POINT]);
        self.set_mode(mode);
        let first = self.random.word() & DATA;
        self.words.push(first);
    }
}

pub(crate) fn control(code: u16) -> u16 {
    1 << 15 | code << 11
}

/// An unlit move of modes 1 and 6 along one axis.
fn short_move(upward: bool, along_x: bool, size: u16) -> u16 {
    let minus = u16::from(!upward);
    if along_x {
        minus << 13 | size << 7
    } else {
        minus << 6 | size
    }
}

/// The generator of chance (splitmix64); every seed is a good one.
pub(crate) struct Random(pub(crate) u64);

impl Random {
    pub(crate) fn next(&mut self) -> u64 {
        self.0 = self.0.wrapping_add(0x9E37_79B9_7F4A_7C15);
        let mut mixed = self.0;
        mixed = (mixed ^ mixed >> 30).wrapping_mul(0xBF58_476D_1CE4_E5B9);
        mixed = (mixed ^ mixed >> 27).wrapping_mul(0x94D0_49BB_1331_11EB);
        mixed ^ mixed >> 31
    }

    pub(crate) fn word(&mut self) -> u16 {
        self.next() as u16
    }

    /// A number below a limit.
    pub(crate) fn below(&mut self, limit: u16) -> u16 {
        (self.next() % u64::from(limit)) as u16
    }

    /// A number from `low` to `high`, both included.
    pub(crate) fn between(&mut self, low: u16, high: u16) -> u16 {
        low + self.below(high - low + 1)
    }

    /// Below `usual` most of the time, else below `limit`.
    fn small(&mut self, usual: u16, limit: u16) -> u16 {
        let limit = if self.chance(85) { usual } else { limit };
        self.below(limit)
    }

    pub(crate) fn chance(&mut self, percent: u16) -> bool {
        self.below(100) < percent
    }

    pub(crate) fn pick(&mut self, choices: &[u16]) -> u16 {
        choices[self.index(choices.len())]
    }

    pub(crate) fn index(&mut self, length: usize) -> usize {
        (self.next() % length.max(1) as u64) as usize
    }

    fn shuffle<T>(&mut self, items: &mut [T]) {
        for last in (1..items.len()).rev() {
            items.swap(last, self.index(last + 1));
        }
    }

    /// Anything or nothing in bits that are not read.
    fn unread(&mut self, mask: u16) -> u16 {
        if self.chance(50) {
            0
        } else {
            self.word() & mask
        }
    }

    /// The sign of a long move.
    fn sign(&mut self) -> u16 {
        self.below(2) * MINUS
    }

    fn short_moves(&mut self) -> u16 {
        let x = self.sign() | self.small(10, 64) << 7;
        let y = self.sign() >> 7 | self.small(10, 64);
        x | y
    }

    fn long_move(&mut self) -> u16 {
        let limit = if self.chance(10) { 1_024 } else { 80 };
        self.sign() | self.small(16, limit)
    }

    /// A word of two characters, seldom one of codes that have no cell.
    fn characters(&mut self) -> u16 {
        if self.chance(4) {
            return self.no_characters();
        }
        self.good_characters()
    }

    pub(crate) fn good_characters(&mut self) -> u16 {
        let (first, second) = (self.character(), self.character());
        self.halves(first, second)
    }

    /// A word whose first half, second half or both have no cell.
    pub(crate) fn no_characters(&mut self) -> u16 {
        let (good, other) = (self.character(), self.character());
        let any = self.below(32);
        let bad = if self.chance(80) {
            self.pick(&NO_CELL)
        } else {
            any
        };
        match self.below(5) {
            0 | 1 => self.halves(bad, good),
            2 | 3 => self.halves(good, bad),
            _ => self.halves(bad, if other % 2 == 0 { 127 } else { any }),
        }
    }

    fn halves(&mut self, first: u16, second: u16) -> u16 {
        second << 8 | self.below(2) << 7 | first
    }

    /// A digit, the first or the last code that has a cell, or any other.
    fn character(&mut self) -> u16 {
        match self.below(8) {
            0..=2 => self.between(48, 57),
            3 => 32,
            4 => 126,
            _ => self.between(33, 125),
        }
    }

    /// Where a cell is cut by an edge of the field, or about that.
    fn about_a_cell(&mut self) -> i32 {
        match self.below(8) {
            0 | 1 => i32::from(self.below(18)) - CELL_UNITS - 1,
            2 | 3 => FIELD_UNITS - CELL_UNITS - 1 + i32::from(self.below(18)),
            4 => -CELL_UNITS - i32::from(self.below(40)),
            5 => FIELD_UNITS + i32::from(self.below(40)),
            _ => i32::from(self.below(1_024)),
        }
    }

    /// A coordinate, most often near an end of the field.
    fn coordinate(&mut self) -> u16 {
        match self.below(3) {
            0 => self.below(4),
            1 => self.between(1_018, 1_023),
            _ => self.below(1_024),
        }
    }
}

#[cfg(test)]
mod tests {
    use super::*;
    use crate::file::File;
    use crate::image::IMAGE_BYTES;
    use crate::machine::{fresh, Machine};
    use crate::run::{step, Outcome};
    use std::collections::BTreeMap;

    fn first(seed: u64, count: usize) -> Vec<Case> {
        cases(seed).take(count).collect()
    }

    #[test]
    fn a_seed_decides_the_cases() {
        assert_eq!(first(7, 100), first(7, 100));
        assert_ne!(first(7, 100), first(8, 100));
    }

    #[test]
    fn every_answer_of_plot_occurs() {
        let cases = first(1, 2_000);
        for answer in [0, 1, 2, 12, 13, 14, 15, 19]
            .into_iter()
            .chain(21..=27)
            .chain([32])
        {
            let times = cases
                .iter()
                .filter(|case| case.line.answer == answer)
                .count();
            assert!(times >= 10, "answer {} occurs {} times", answer, times);
        }
    }

    /// What a character word is, and the order that sets its mode, by names.
    fn kinds(bytes: &[u8]) -> Vec<&'static str> {
        let mut kinds = Vec::new();
        let words: Vec<u16> = bytes
            .chunks_exact(2)
            .map(|pair| u16::from_le_bytes([pair[0], pair[1]]))
            .collect();
        let file = match File::open(&words) {
            Ok(file) if bytes.len() % 2 == 0 => file,
            _ => return kinds,
        };
        let mut image = vec![0; IMAGE_BYTES];
        let (mut machine, mut lettered) = (fresh(), false);
        for _ in 0..MOST_STEPS {
            let outcome = step(&words, machine, &mut image, &[]);
            match file.fetch(machine.counter) {
                Ok(word) if word & !DATA == 0 && machine.mode == 0 => {
                    lettered = true;
                    halves(&mut kinds, word);
                    ends(&mut kinds, machine, &outcome);
                }
                Ok(word) if word >> 11 == control(0) >> 11 => {
                    let valued = word >> 10 & 1 == 1;
                    kinds.push(if valued {
                        "mode, bit 10 set"
                    } else {
                        "mode, bit 10 clear"
                    });
                }
                Ok(word) if word & !DATA == 0 && lettered && outcome.stores > 0 => {
                    kinds.push("other modes after characters");
                }
                _ => {}
            }
            machine = outcome.machine;
            if machine.status != 0 {
                break;
            }
        }
        kinds
    }

    fn halves(kinds: &mut Vec<&'static str>, word: u16) {
        let good = |code: u16| (32..=126).contains(&code);
        let (first, second) = (word & 127, word >> 8);
        kinds.push(match (good(first), good(second)) {
            (true, true) => "both halves good",
            (false, true) => "first half bad",
            (true, false) => "second half bad",
            (false, false) => "both halves bad",
        });
        for (code, names) in [
            (0, ["first 0", "second 0"]),
            (31, ["first 31", "second 31"]),
            (32, ["first 32", "second 32"]),
            (126, ["first 126", "second 126"]),
            (127, ["first 127", "second 127"]),
        ] {
            if first == code {
                kinds.push(names[0]);
            }
            if second == code {
                kinds.push(names[1]);
            }
        }
        let bit_7 = word >> 7 & 1 == 1;
        kinds.push(if bit_7 { "bit 7 set" } else { "bit 7 clear" });
    }

    /// Where the characters are, and where they lead.
    fn ends(kinds: &mut Vec<&'static str>, before: Machine, outcome: &Outcome) {
        let (x, y) = (before.x.0, before.y.0);
        match (outcome.answer.number(), x + 32) {
            (0, 4_095) => kinds.push("to X 4,095"),
            (27, 4_096) => kinds.push("to X 4,096, refused"),
            (32, 4_096..=i64::MAX) => kinds.push("32 before 27"),
            _ => {}
        }
        if outcome.steps == 0 {
            return;
        }
        if before.write == 0 {
            kinds.push("write off");
        }
        let (across, up) = ((0..1_024).contains(&x), (0..1_009).contains(&y));
        for (holds, name) in [
            (up && (-15..0).contains(&x), "cut left"),
            (up && (1_010..1_024).contains(&x), "cut right"),
            (across && (1_010..1_024).contains(&y), "cut top"),
            (across && (-15..0).contains(&y), "cut bottom"),
            (up && x < -32, "beyond, left"),
            (up && x >= 1_024, "beyond, right"),
            (across && y >= 1_024, "beyond, above"),
            (across && y < -16, "beyond, below"),
        ] {
            if holds {
                kinds.push(name);
            }
        }
    }

    #[test]
    fn character_words_occur_in_all_their_kinds() {
        let mut counts = BTreeMap::new();
        let mut files = 0;
        for case in first(5, 2_000) {
            let kinds = kinds(&case.bytes);
            files += usize::from(kinds.contains(&"both halves good"));
            for kind in kinds {
                *counts.entry(kind).or_insert(0) += 1;
            }
        }
        assert!(files > 500, "{} files have characters", files);
        for kind in [
            "mode, bit 10 set",
            "mode, bit 10 clear",
            "both halves good",
            "first half bad",
            "second half bad",
            "both halves bad",
            "first 0",
            "second 0",
            "first 31",
            "second 31",
            "first 32",
            "second 32",
            "first 126",
            "second 126",
            "first 127",
            "second 127",
            "bit 7 set",
            "bit 7 clear",
            "to X 4,095",
            "to X 4,096, refused",
            "32 before 27",
            "write off",
            "cut left",
            "cut right",
            "cut top",
            "cut bottom",
            "beyond, left",
            "beyond, right",
            "beyond, above",
            "beyond, below",
            "other modes after characters",
        ] {
            let times = counts.remove(kind).unwrap_or(0);
            assert!(times >= 8, "{} occurs {} times", kind, times);
        }
        assert!(counts.is_empty(), "{:?}", counts);
    }

    #[test]
    fn runs_are_neither_trivial_nor_costly() {
        let lines: Vec<Line> = cases(2).take(2_000).map(|case| case.line).collect();
        let count = |holds: fn(&Line) -> bool| lines.iter().filter(|&line| holds(line)).count();
        assert_eq!(count(|line| line.stores > MOST_STORES), 0);
        assert!(count(|line| line.steps > MOST_STEPS) < 100);
        assert!(count(|line| line.steps >= 8) > 1_000);
        assert!(count(|line| line.stores > 10) > 500);
        assert!(count(|line| line.x < 0 || line.y < 0) > 100);
    }

    #[test]
    fn a_case_is_printed_as_hex_its_line_and_its_stores() {
        let case = |bytes: &[u8]| Case {
            bytes: bytes.to_vec(),
            line: plot(bytes),
        };
        assert_eq!(case(&[]).to_string(), "- 12 0 0 0 0 0 0");
        assert_eq!(case(&[2, 0, 171, 9]).to_string(), "0200ab09 13 0 0 0 0 0 0");
        let words = [1, 1, 4, 4, 0o113400, 0o040006, 4, 0o172000];
        assert_eq!(
            case(&bytes_of(&words)).to_string(),
            "010001000400040000970640040000f4 1 3 4 4 8 6 4 0,0 1,1 2,1 3,2"
        );
    }
}
