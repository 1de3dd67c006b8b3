//! Cases for the program `replay` of another implementation: any call on any machine, file and
//! image, with the line that this one expects of each, and a table of what occurs.
//!
//! A case is a head of 64 bytes, which the words of a file follow, two bytes each. Numbers stand
//! low byte first. A number marked `i` is signed, in 32 bits, with 2^31 added.
//!
//! 0 kind: 1 check, 2 fresh, 3 start, 4 step, 5 run, 6 clear, 7 read_pixel; 1 mode; 2 value;
//! 3 write; 4 latch; 5 increment; 6 status; 7 is 0; 8 counter, 16 bits; 10 address to start at,
//! 16 bits; 12 X i; 16 Y i; 20 budget, 32 bits; 24 and 28 X and Y of the pixel to read i;
//! 32 length of the image, 32 bits; 36 its seed, 32 bits; 40 number of words, 16 bits;
//! 48 length of the lent character set, 16 bits, at most 1,024; 52 its seed, 32 bits.
//!
//! The rest is 0, with a place for what is not built: 42 ones only; 43 shape; 44 saved counter,
//! 32 bits; 50 pressed; 56 and 60 X and Y of a crosshair i.
//!
//! For each byte of the image a number, 0 at first, becomes 69,069 times itself and the seed, in
//! 32 bits; the byte is its highest eight bits. The bytes of the set come from its seed likewise.
//!
//! A line: answer, steps, words, stores, counter, X, Y, mode, value, write, latch, increment,
//! status, the digit that was read, and the digest of the image after the call. A call that gives
//! no answer, no count or no digit has 0 there, one that gives no machine has that of the case.

use std::fmt;

use crate::cases::{case, control, noise, program, Random, DATA};
use crate::{
    check, clear, fresh, read_pixel, run, start, step, Machine, Outcome, Pixel, Unit, IMAGE_BYTES,
    NO_MODE, SET_BYTES,
};

mod listed;
mod table;

use table::Table;

/// How many cases there are, where nothing else is asked for.
pub const USUAL_COUNT: usize = 3_000;

/// A reader of the cases may be slow: none that came by chance stores more.
const MOST_STORES: u64 = 20_000;

/// The bytes of a case before its words, and where the lent set stands in them.
const HEAD: usize = 64;
const SET_LENGTH_AT: usize = 48;
const SET_SEED_AT: usize = 52;

/// The most bytes of a lent set that a reader of the cases has room for.
const MOST_SET_BYTES: usize = 1_024;

/// The most words of a segment.
const SEGMENT: usize = 4_096;

/// The bit that lights an item.
const LIT: u16 = 1 << 14;

/// Cases as bytes, a line for each, and how often each thing occurs.
#[derive(Debug, PartialEq, Eq)]
pub struct Replay {
    pub cases: Vec<u8>,
    pub expected: String,
    pub table: String,
}

/// The cases of a seed: first those that are listed, which differ only in what must not matter,
/// then random ones. It says what is wrong where something does not occur that should.
pub fn replay(seed: u64, count: usize) -> Result<Replay, String> {
    let mut random = Random(seed);
    let mut cases = listed::listed(&mut random);
    if count < cases.len() {
        return Err(format!("there are {} cases at least", cases.len()));
    }
    while cases.len() < count {
        cases.push(any(&mut random));
    }
    let mut table = Table::default();
    let mut replay = Replay {
        cases: Vec::new(),
        expected: String::new(),
        table: String::new(),
    };
    for case in &cases {
        let told = case.told();
        replay.cases.extend(case.bytes());
        replay.expected += &format!("{}\n", told);
        table.add(case, &told);
    }
    replay.table = table.text()?;
    Ok(replay)
}

#[derive(Clone, Copy, Debug, PartialEq, Eq)]
enum Call {
    Check = 1,
    Fresh = 2,
    Start = 3,
    Step = 4,
    Run = 5,
    Clear = 6,
    ReadPixel = 7,
}

/// A call with all that it may be given; what it does not take stands there all the same.
#[derive(Clone, Debug, PartialEq, Eq)]
struct Case {
    call: Call,
    machine: Machine,
    address: u16,
    budget: u32,
    pixel: (i32, i32),
    image_length: usize,
    image_seed: u32,
    set_length: usize,
    set_seed: u32,
    file: Vec<u16>,
}

/// The numbers of a line.
#[derive(Clone, Copy, Debug, PartialEq, Eq)]
struct Told {
    answer: u8,
    steps: u64,
    words: u64,
    stores: u64,
    machine: Machine,
    digit: u8,
    digest: u32,
}

impl Case {
    fn bytes(&self) -> Vec<u8> {
        let machine = &self.machine;
        let mut bytes = vec![
            self.call as u8,
            machine.mode,
            machine.value,
            machine.write,
            machine.latch,
            machine.increment,
            machine.status,
            0,
        ];
        bytes.extend(machine.counter.to_le_bytes());
        bytes.extend(self.address.to_le_bytes());
        bytes.extend(signed(machine.x.0));
        bytes.extend(signed(machine.y.0));
        bytes.extend(self.budget.to_le_bytes());
        bytes.extend(signed(self.pixel.0.into()));
        bytes.extend(signed(self.pixel.1.into()));
        bytes.extend((self.image_length as u32).to_le_bytes());
        bytes.extend(self.image_seed.to_le_bytes());
        bytes.extend((self.file.len() as u16).to_le_bytes());
        bytes.resize(SET_LENGTH_AT, 0);
        bytes.extend((self.set_length as u16).to_le_bytes());
        bytes.resize(SET_SEED_AT, 0);
        bytes.extend(self.set_seed.to_le_bytes());
        bytes.resize(HEAD, 0);
        bytes.extend(self.file.iter().flat_map(|word| word.to_le_bytes()));
        bytes
    }

    fn image(&self) -> Vec<u8> {
        grown(self.image_length, self.image_seed)
    }

    fn set(&self) -> Vec<u8> {
        assert!(self.set_length <= MOST_SET_BYTES);
        grown(self.set_length, self.set_seed)
    }

    fn told(&self) -> Told {
        let mut image = self.image();
        let mut told = Told {
            answer: 0,
            steps: 0,
            words: 0,
            stores: 0,
            machine: self.machine,
            digit: 0,
            digest: 0,
        };
        match self.call {
            Call::Check => told.answer = check(&self.file).number(),
            Call::Fresh => told.machine = fresh(),
            Call::Start => {
                let (answer, machine) = start(self.machine, self.address);
                told.answer = answer.number();
                told.machine = machine;
            }
            Call::Step => told.ran(step(&self.file, self.machine, &mut image, &self.set())),
            Call::Run => {
                let budget = u64::from(self.budget);
                told.ran(run(
                    &self.file,
                    self.machine,
                    &mut image,
                    budget,
                    &self.set(),
                ));
            }
            Call::Clear => told.answer = clear(&mut image).number(),
            Call::ReadPixel => {
                let (x, y) = self.pixel;
                let (answer, digit) = read_pixel(&image, Pixel(x.into()), Pixel(y.into()));
                told.answer = answer.number();
                told.digit = digit;
            }
        }
        told.digest = digest(&image);
        told
    }
}

impl Told {
    fn ran(&mut self, outcome: Outcome) {
        self.answer = outcome.answer.number();
        self.steps = outcome.steps;
        self.words = outcome.words;
        self.stores = outcome.stores;
        self.machine = outcome.machine;
    }
}

impl fmt::Display for Told {
    fn fmt(&self, f: &mut fmt::Formatter) -> fmt::Result {
        let machine = &self.machine;
        write!(
            f,
            "{} {} {} {} ",
            self.answer, self.steps, self.words, self.stores
        )?;
        write!(
            f,
            "{} {} {} {} {} {} {} {} {} ",
            machine.counter,
            machine.x.0,
            machine.y.0,
            machine.mode,
            machine.value,
            machine.write,
            machine.latch,
            machine.increment,
            machine.status
        )?;
        write!(f, "{} {}", self.digit, self.digest)
    }
}

/// So many bytes from a seed.
fn grown(length: usize, seed: u32) -> Vec<u8> {
    let mut mixed: u32 = 0;
    let next = || {
        mixed = mixed.wrapping_mul(69_069).wrapping_add(seed);
        (mixed >> 24) as u8
    };
    std::iter::repeat_with(next).take(length).collect()
}

fn signed(number: i64) -> [u8; 4] {
    let moved = u32::try_from(number + (1 << 31)).expect("the number has 32 bits");
    moved.to_le_bytes()
}

fn digest(bytes: &[u8]) -> u32 {
    let next = |sum: u64, &byte: &u8| (sum * 2_654_435_761 + u64::from(byte) + 1) % 4_294_967_291;
    bytes.iter().fold(1, next) as u32
}

/// A call on a fresh machine, an image of chance, a set that is lent or not, and a file that stops
/// at once.
fn usual(random: &mut Random, call: Call) -> Case {
    Case {
        call,
        machine: fresh(),
        address: 0,
        budget: 1_000,
        pixel: (0, 0),
        image_length: IMAGE_BYTES,
        image_seed: seed(random),
        set_length: if random.chance(50) { 0 } else { SET_BYTES },
        set_seed: seed(random),
        file: one_segment(vec![control(14) | 1 << 10]),
    }
}

/// Zeros at times, else an odd number, which gives all bytes.
fn seed(random: &mut Random) -> u32 {
    if random.chance(20) {
        0
    } else {
        random.next() as u32 | 1
    }
}

fn one_segment(words: Vec<u16>) -> Vec<u16> {
    let mut file = vec![1, 1, 4, words.len() as u16];
    file.extend(words);
    file
}

// ---- what comes by chance

fn any(random: &mut Random) -> Case {
    let mut case = any_call(random);
    if !matches!(case.call, Call::Step | Call::Run) && random.chance(50) {
        // These calls take no set, so that it cannot be wrong.
        case.set_length = wrong_length(random);
    }
    case
}

fn any_call(random: &mut Random) -> Case {
    match random.below(100) {
        0..=4 => {
            let mut case = usual(random, Call::Check);
            case.file = any_file(random);
            case.image_length = 0;
            case
        }
        5..=9 => {
            let mut case = usual(random, Call::Start);
            case.machine = spoilt(random);
            case.address = random.word();
            case.image_length = 0;
            case
        }
        10..=11 => {
            let mut case = usual(random, Call::Clear);
            case.image_length -= usize::from(random.below(3) / 2);
            case
        }
        12..=19 => {
            let mut case = usual(random, Call::ReadPixel);
            case.pixel = (any_column(random), any_column(random));
            case
        }
        20..=54 => any_step(random),
        _ => any_run(random),
    }
}

/// One instruction of any bits, in any mode.
fn any_step(random: &mut Random) -> Case {
    let mut case = usual(random, Call::Step);
    case.machine = if random.chance(5) {
        spoilt(random)
    } else {
        ranged(random)
    };
    let first = random.word();
    let first = if random.chance(60) {
        first & DATA
    } else {
        first
    };
    if random.chance(2) {
        case.set_length = wrong_length(random);
    }
    let second = random.word();
    let second = if random.chance(80) {
        second & DATA
    } else {
        second
    };
    let mut words = vec![first, second];
    words.truncate(2 - usize::from(random.below(15) / 14));
    let count = random.between(1, 8);
    // At times in no segment.
    let most = if random.chance(10) { 8 } else { count };
    case.machine.counter = 8_192 * random.below(most) + random.below(30) / 29;
    case.file = everywhere(count, words);
    case
}

/// A file whose segments are all the same.
fn everywhere(count: u16, words: Vec<u16>) -> Vec<u16> {
    let header = 2 + 2 * count;
    let mut file = vec![1, count];
    for _ in 0..count {
        file.extend([header, words.len() as u16]);
    }
    file.extend(words);
    file
}

/// Eight segments: one is full and ends in `last`, the one after it has the words of `next`, the
/// others are empty.
fn bordered(segment: u16, last: u16, next: &[u16]) -> Vec<u16> {
    let mut file = vec![1, 8];
    for number in 0..8 {
        file.extend(if number == segment {
            [18, SEGMENT as u16]
        } else if number == (segment + 1) % 8 {
            [18 + SEGMENT as u16, next.len() as u16]
        } else {
            [18, 0]
        });
    }
    file.extend([control(13); SEGMENT - 1]);
    file.push(last);
    file.extend(next);
    file
}

fn any_run(random: &mut Random) -> Case {
    loop {
        let mut case = usual(random, Call::Run);
        case.file = any_file(random);
        if !random.chance(20) {
            case.machine = ranged(random);
        }
        match random.below(50) {
            0..=1 => case.machine = spoilt(random),
            2 => case.machine.status = random.pick(&[1, 2, 21, 22, 23, 24, 25, 26, 27, 32]) as u8,
            3 => case.image_length = usize::from(random.below(65_535)),
            4 => case.budget = 1_000_001,
            5 => case.set_length = wrong_length(random),
            6..=25 => {
                case.budget = u32::from(random.pick(&[0, 1, 2, 3, 5, 10, 100]));
            }
            _ => {}
        }
        match random.below(60) {
            0..=2 => case.machine.counter = random.word(),
            3..=5 => case.machine.counter = 8_192 * random.below(8),
            6..=11 => case.machine.counter = 2 * random.below(20),
            12 => over_a_border(random, &mut case),
            _ => {}
        }
        if case.told().stores <= MOST_STORES {
            return case;
        }
    }
}

/// From the last place of a segment on to the next segment.
fn over_a_border(random: &mut Random, case: &mut Case) {
    let segment = random.below(8);
    let last = random.word();
    let mask = random.pick(&[DATA, u16::MAX]);
    let next: Vec<u16> = (0..random.below(9)).map(|_| random.word() & mask).collect();
    case.file = bordered(segment, last & random.pick(&[DATA, u16::MAX]), &next);
    case.machine.counter = 8_192 * segment + 8_190;
}

/// Sound, spoilt, cut, looping, or with a segment of full size.
fn any_file(random: &mut Random) -> Vec<u16> {
    match random.below(100) {
        0..=39 => program(random),
        40..=54 => noise(random),
        _ => case(random)
            .bytes
            .chunks_exact(2)
            .map(|pair| u16::from_le_bytes([pair[0], pair[1]]))
            .collect(),
    }
}

/// The length of a set that a run does not take, often near the one that it takes.
fn wrong_length(random: &mut Random) -> usize {
    let any = random.between(1, MOST_SET_BYTES as u16);
    match random.pick(&[1, 8, 759, 761, 1_024, any]) {
        760 => 752,
        length => length.into(),
    }
}

/// A running machine at address 0, every field in its range.
fn ranged(random: &mut Random) -> Machine {
    Machine {
        counter: 0,
        x: any_unit(random),
        y: any_unit(random),
        mode: random.pick(&[0, 1, 2, 3, 4, 5, 6, NO_MODE.into()]) as u8,
        value: random.below(4) as u8,
        write: u8::from(random.chance(80)),
        latch: random.below(2) as u8,
        increment: random.below(64) as u8,
        status: 0,
    }
}

/// A machine of which any field may be out of its range.
fn spoilt(random: &mut Random) -> Machine {
    let mut machine = ranged(random);
    let number = random.word() as u8;
    let far = random.next() as i32;
    match random.below(9) {
        0 => machine.x = Unit(far.into()),
        1 => machine.y = Unit(far.into()),
        2 => machine.mode = number,
        3 => machine.value = number % 8,
        4 => machine.write = number % 4,
        5 => machine.latch = number % 4,
        6 => machine.increment = number,
        7 => machine.status = number % 40,
        _ => machine.counter = random.word(),
    }
    machine
}

/// A unit of the range, most often in the field or about it.
fn any_unit(random: &mut Random) -> Unit {
    Unit(match random.below(4) {
        0 => i64::from(random.below(8_192)) - 4_096,
        1 => i64::from(random.below(1_100)) - 38,
        _ => i64::from(random.below(1_024)),
    })
}

/// A column or a row, at times beyond the field.
fn any_column(random: &mut Random) -> i32 {
    match random.below(20) {
        0 => random.next() as i32,
        1 => i32::from(random.below(20)) - 10,
        2 => i32::from(random.below(20)) + 502,
        _ => i32::from(random.below(512)),
    }
}

#[cfg(test)]
mod tests {
    use super::*;

    #[test]
    fn a_seed_decides_the_cases() {
        assert!(replay(7, 2_000) == replay(7, 2_000));
        assert!(replay(7, 2_000) != replay(8, 2_000));
    }

    #[test]
    fn the_listed_cases_alone_fill_the_table() {
        for seed in 0..3 {
            let count = listed::listed(&mut Random(seed)).len();
            assert_eq!(replay(seed, count).map(|_| ()), Ok(()));
        }
    }

    #[test]
    fn every_case_has_its_bytes_and_its_line() {
        let replay = replay(3, USUAL_COUNT).expect("the table is full");
        let (mut at, mut cases) = (0, 0);
        while at < replay.cases.len() {
            let words = u16::from_le_bytes([replay.cases[at + 40], replay.cases[at + 41]]);
            at += HEAD + 2 * usize::from(words);
            cases += 1;
        }
        assert_eq!(at, replay.cases.len());
        assert_eq!(cases, USUAL_COUNT);
        assert_eq!(replay.expected.lines().count(), USUAL_COUNT);
    }

    #[test]
    fn the_line_of_the_listed_file_begins_as_plot_prints_it() {
        let mut case = usual(&mut Random(1), Call::Run);
        case.file = vec![1, 1, 4, 4, 0x9700, 0x4006, 0x0004, 0xF400];
        let line = case.told().to_string();
        assert_eq!(
            line.find("1 3 4 4 8 6 4 2 3 1 0 0 1 0 "),
            Some(0),
            "{}",
            line
        );
    }

    #[test]
    fn the_bytes_of_a_case_stand_where_the_layout_has_them() {
        let mut case = usual(&mut Random(1), Call::ReadPixel);
        case.machine.counter = 0x0201;
        case.machine.x = Unit(-1);
        case.machine.y = Unit(i32::MAX.into());
        case.pixel = (i32::MIN, 5);
        case.image_seed = 0x0A0B_0C0D;
        case.set_length = 0x0102;
        case.set_seed = 0x0304_0506;
        case.file = vec![0x1234];
        let bytes = [
            7, 255, 3, 1, 0, 0, 0, 0, 1, 2, 0, 0, 255, 255, 255, 127, 255, 255, 255, 255, 232, 3,
            0, 0, 0, 0, 0, 0, 5, 0, 0, 128, 0, 0, 1, 0, 13, 12, 11, 10, 1, 0, 0, 0, 0, 0, 0, 0, 2,
            1, 0, 0, 6, 5, 4, 3, 0, 0, 0, 0, 0, 0, 0, 0, 0x34, 0x12,
        ];
        assert_eq!(case.bytes(), bytes);
    }

    #[test]
    fn a_set_comes_from_its_seed_as_the_image_from_its_own() {
        let mut case = usual(&mut Random(1), Call::Step);
        case.image_seed = 0x8765_4321;
        case.set_seed = 0x8765_4321;
        for length in [0, 1, 759, 760, 761, 1_024] {
            case.set_length = length;
            assert_eq!(case.set(), case.image()[..length]);
        }
        // The seed itself, then 69,070 times the seed in 32 bits: 0x5B05_B18E.
        assert_eq!(case.set()[..2], [0x87, 0x5B]);
    }

    /// With the built-in set and with a lent one, each code in either half.
    #[test]
    fn the_listed_cases_draw_every_character() {
        let mut drawn = vec![[[false; 2]; 128]; 2];
        for case in listed::listed(&mut Random(1)) {
            let lent = usize::from(case.set_length > 0);
            if case.call != Call::Run || !matches!(case.told().answer, 1 | 2) || case.set_seed == 0
            {
                continue;
            }
            let mut machine = case.machine;
            let (mut image, set) = (case.image(), case.set());
            while machine.status == 0 {
                let outcome = step(&case.file, machine, &mut image, &set);
                let at = 4 + usize::from(machine.counter / 2);
                if machine.mode == 0 && case.file[1] == 1 && case.file[at] <= DATA {
                    let word = usize::from(case.file[at]);
                    drawn[lent][word & 127][0] = true;
                    drawn[lent][word >> 8 & 127][1] = true;
                }
                machine = outcome.machine;
            }
        }
        for (lent, codes) in drawn.iter().enumerate() {
            let missing = (32..=126).find(|&code| codes[code] != [true; 2]);
            assert_eq!(missing, None, "set {}", lent);
        }
    }

    #[test]
    fn a_digest_tells_two_images_apart_and_seed_0_is_blank() {
        let mut case = usual(&mut Random(1), Call::Clear);
        case.image_seed = 0;
        assert!(case.image().iter().all(|&byte| byte == 0));
        case.image_seed = 1;
        let image = case.image();
        assert!((0..=255).all(|byte| image.contains(&byte)));
        let mut other = image.clone();
        other[40_000] ^= 1;
        assert_ne!(digest(&image), digest(&other));
    }
}
