//! Cases for the parts of another implementation, with the records that this one expects.
//!
//! A case is a head of 16 bytes, which a file's words follow. Byte 0 of the head is the kind.
//! Numbers stand low byte first. A number marked `i` is signed, in 32 bits, with 2^31 added.
//! Bytes without a name are 0. Each case has one record:
//!
//! 1 units: 1 minus; 2 size, 16 bits; 4 X i; 8 Y i; 12 move i.
//!   Record of 24: 0 pixels of X i; 4 and 8 pixel of (X, Y) i; 12 size with its sign i;
//!   16 X after the move i, 20 is 1, or both 0 where it is out of range;
//!   21 is 1 where the pixel of Y is an index below 512, and then 22 the index, 16 bits.
//! 2 image: 1 what to do: 0 read, 1 store, 2 plot, 3 clear; 2 value;
//!   4 column, 6 row, 16 bits each, to read and store; 8 X i, 12 Y i, to plot.
//!   Record of 4: the digit that was read, or the number of stores that a plot counts.
//! 3 file: 2 number of words, 16 bits; 4 six addresses, 16 bits each; the words after the head.
//!   Record of 19: 0 answer of the check; where that is 0, from 1 on for each address
//!   the number of its refusal and its word, 16 bits.
//! 4 word: 2 the word. Record of 113: an account of 13 in each of the modes 1 to 6 and none;
//!   91 move of a long vector i; 95 coordinate i; 99 refusal as a second word;
//!   100 an account of 13 in mode 0.
//!   Account: 0 refusal, and where it is not 0 nothing else; 1 kind, from 1 on: set mode, jump,
//!   no-op, status A, increment, status C, then the items of the modes 1 to 6 and of mode 0;
//!   5 X i, 9 Y i, where there is none the number 0. Of an item: 2 lit. Of characters, which are
//!   always lit, X is the first code and Y the second.
//!   Of an order: 2 whether it sets something (status C: in channel 0), 3 to what, if so;
//!   4 the mode, or whether it stops.
//! 5 vector: 2 value; 4, 6 X and Y of the first pixel, 8, 10 of the last, with 2,048 added.
//!   Record of 4: the number of stores.
//! 6 look: 1 whether to fill; 2 with which byte. Record of 4: the digest of the image before.

use std::collections::BTreeMap;
use std::fmt;

use crate::answer::Fault;
use crate::cases::Random;
use crate::file::{check, File};
use crate::image::{clear, locate, read_pixel, Image, IMAGE_BYTES};
use crate::machine::NO_MODE;
use crate::unit::{Pixel, Place, Position, Unit};
use crate::vector;
use crate::word::{self, First, Half, Instruction, Mode};

/// How many cases a part has, where nothing else is asked for.
pub const USUAL_COUNT: usize = 100_000;

const WORDS: usize = 65_536;
const MODES: [u8; 7] = [1, 2, 3, 4, 5, 6, NO_MODE];
const CHARACTERS: u8 = 0;
const SIDE: i32 = 512;
const ADDRESSES: usize = 6;
const SEGMENT_WORDS: usize = 4_096;

/// The most words that a reader of the cases has room for.
const MOST_WORDS: usize = 32_768;

/// The parts, in the order of their cases.
#[derive(Clone, Copy, Debug, PartialEq, Eq, PartialOrd, Ord)]
enum Part {
    Units,
    Image,
    File,
    Words,
    Vector,
}

/// Cases and records as bytes, where each of them stands, and how often each outcome occurs.
#[derive(Debug, Default, PartialEq, Eq)]
pub struct Parts {
    pub cases: Vec<u8>,
    pub expected: Vec<u8>,
    /// A line for each case: part, number, where the case begins, its length, where the record
    /// begins, its length.
    pub index: String,
    counts: BTreeMap<Part, usize>,
    outcomes: BTreeMap<(Part, String), usize>,
}

/// The cases of a seed. Below 65,536, only so many words are tried.
pub fn parts(seed: u64, count: usize) -> Parts {
    let mut random = Random(seed);
    let mut parts = Parts::default();
    units(&mut parts, &mut random, count);
    image(&mut parts, &mut random, count);
    files(&mut parts, &mut random, count);
    words(&mut parts, &mut random, count);
    vectors(&mut parts, &mut random, count);
    parts
}

impl Parts {
    fn case(&mut self, part: Part, case: &[u8], record: &[u8]) {
        let number = self.counts.entry(part).or_default();
        *number += 1;
        self.index.push_str(&format!(
            "{} {} {} {} {} {}\n",
            part,
            number,
            self.cases.len(),
            case.len(),
            self.expected.len(),
            record.len()
        ));
        self.cases.extend(case);
        self.expected.extend(record);
    }

    fn saw(&mut self, part: Part, outcome: impl fmt::Display) {
        *self
            .outcomes
            .entry((part, outcome.to_string()))
            .or_default() += 1;
    }

    fn saw_if(&mut self, part: Part, holds: bool, outcome: &str) {
        if holds {
            self.saw(part, outcome);
        }
    }
}

impl fmt::Display for Part {
    fn fmt(&self, f: &mut fmt::Formatter) -> fmt::Result {
        f.pad(match self {
            Part::Units => "units",
            Part::Image => "image",
            Part::File => "file",
            Part::Words => "words",
            Part::Vector => "vector",
        })
    }
}

/// The table of outcomes.
impl fmt::Display for Parts {
    fn fmt(&self, f: &mut fmt::Formatter) -> fmt::Result {
        for (part, count) in &self.counts {
            writeln!(f, "{:<7} {:<30} {:>8}", part, "cases", count)?;
            for ((_, outcome), times) in self.outcomes.iter().filter(|((of, _), _)| of == part) {
                writeln!(f, "{:<7} {:<30} {:>8}", part, outcome, times)?;
            }
        }
        Ok(())
    }
}

/// A head or a record, written byte by byte from the front.
#[derive(Default)]
struct Bytes(Vec<u8>);

impl Bytes {
    fn byte(mut self, number: u8) -> Bytes {
        self.0.push(number);
        self
    }

    fn word(mut self, number: u16) -> Bytes {
        self.0.extend(number.to_le_bytes());
        self
    }

    fn signed(mut self, number: i64) -> Bytes {
        let moved = u32::try_from(number + (1 << 31)).expect("the number has 32 bits");
        self.0.extend(moved.to_le_bytes());
        self
    }

    /// Zeros up to a length.
    fn padded(mut self, length: usize) -> Vec<u8> {
        assert!(self.0.len() <= length);
        self.0.resize(length, 0);
        self.0
    }
}

fn head(kind: u8) -> Bytes {
    Bytes::default().byte(kind)
}

const HEAD: usize = 16;

/// A number from `low` to `high`, both included.
fn between(random: &mut Random, low: i32, high: i32) -> i32 {
    let span = i64::from(high) - i64::from(low) + 1;
    (i64::from(low) + (random.next() % span as u64) as i64) as i32
}

// ---- units

const LOWEST: i32 = -4_096;
const HIGHEST: i32 = 4_095;

fn units(parts: &mut Parts, random: &mut Random, count: usize) {
    for number in 0..count {
        let (mut x, y) = (coordinate(random), coordinate(random));
        if number < 8_192 {
            x = LOWEST + number as i32;
        }
        let by = distance(random, x);
        let size = match random.below(3) {
            0 => random.below(4),
            1 => random.below(1_024),
            _ => random.word(),
        };
        units_case(parts, x, y, by, random.chance(50), size);
    }
}

/// Anything, most often where something changes.
fn coordinate(random: &mut Random) -> i32 {
    match random.below(12) {
        0..=2 => between(random, LOWEST, HIGHEST),
        3 => between(random, -6, 6),
        4 => between(random, LOWEST - 6, LOWEST + 6),
        5 => between(random, HIGHEST - 6, HIGHEST + 6),
        6 => between(random, SIDE - 6, SIDE + 6),
        7 => between(random, 2 * SIDE - 6, 2 * SIDE + 6),
        8 => between(random, 0, SIDE - 1),
        9 => between(random, i32::MIN, i32::MIN + 3),
        10 => between(random, i32::MAX - 3, i32::MAX),
        _ => between(random, i32::MIN, i32::MAX),
    }
}

/// A move from a coordinate, often to about an end of the range.
fn distance(random: &mut Random, from: i32) -> i32 {
    let end = match random.below(6) {
        0 | 1 => between(random, LOWEST - 3, LOWEST + 3),
        2 | 3 => between(random, HIGHEST - 3, HIGHEST + 3),
        4 => return between(random, -1_023, 1_023),
        _ => return coordinate(random),
    };
    (i64::from(end) - i64::from(from)).clamp(i64::from(i32::MIN), i64::from(i32::MAX)) as i32
}

fn units_case(parts: &mut Parts, x: i32, y: i32, by: i32, minus: bool, size: u16) {
    let case = head(1)
        .byte(u8::from(minus))
        .word(size)
        .signed(x.into())
        .signed(y.into())
        .signed(by.into())
        .padded(HEAD);

    let at = Position {
        x: Unit(x.into()),
        y: Unit(y.into()),
    };
    let row = Position { y: Unit(0), ..at };
    let moved = row.moved(Unit(by.into()), Unit(0));
    let index = locate(Place {
        x: at.place().y,
        y: Pixel(0),
    });
    let mut record = Bytes::default()
        .signed(at.x.pixel().0)
        .signed(at.place().x.0)
        .signed(at.place().y.0)
        .signed(word::signed(minus, size).0);
    record = match moved {
        Ok(end) => record.signed(end.x.0).byte(1),
        Err(_) => record.word(0).word(0).byte(0),
    };
    record = match index {
        // In row 0 the digits count the columns.
        Some((byte, shift)) => record.byte(1).word((4 * byte) as u16 + shift as u16 / 2),
        None => record,
    };
    parts.case(Part::Units, &case, &record.padded(24));

    let part = Part::Units;
    parts.saw_if(part, x < 0 && x % 2 != 0, "X odd below 0");
    parts.saw_if(
        part,
        x == i32::MIN || y == i32::MIN,
        "lowest number of 32 bits",
    );
    parts.saw_if(
        part,
        x == i32::MAX || y == i32::MAX,
        "highest number of 32 bits",
    );
    parts.saw(part, if minus { "size minus" } else { "size plus" });
    parts.saw_if(part, minus && size == 0, "size minus 0");
    parts.saw(
        part,
        if index.is_some() {
            "index"
        } else {
            "index none"
        },
    );
    let sum = i64::from(x) + i64::from(by);
    parts.saw_if(part, sum == LOWEST.into(), "move to the lowest");
    parts.saw_if(part, sum == HIGHEST.into(), "move to the highest");
    parts.saw(
        part,
        match moved {
            Ok(_) => "move",
            Err(_) if sum < 0 => "move out below",
            Err(_) => "move out above",
        },
    );
}

// ---- image

/// What the image part does with its image.
enum Touch {
    Read { x: u16, y: u16 },
    Store { x: u16, y: u16, value: u8 },
    Plot { x: i32, y: i32, value: u8 },
    Clear,
}

fn image(parts: &mut Parts, random: &mut Random, count: usize) {
    let part = Part::Image;
    let mut bytes = vec![0; IMAGE_BYTES];
    let mut last = (0, 0);
    for number in 0..count {
        touch(parts, &mut bytes, touched(random, &mut last));
        if number % 400 == 399 {
            let fill = if random.chance(50) {
                Some(random.word() as u8)
            } else {
                None
            };
            look(parts, part, &mut bytes, fill);
        }
    }
    // The vectors begin on an image of zeros.
    look(parts, part, &mut bytes, Some(0));
}

/// What comes next; it is read soon where the last store was, and beside it.
fn touched(random: &mut Random, last: &mut (u16, u16)) -> Touch {
    let value = random.below(4) as u8;
    let (x, y) = (column(random), column(random));
    match random.below(1_000) {
        0..=299 => {
            *last = (x, y);
            Touch::Store { x, y, value }
        }
        300..=449 => {
            *last = (x, y);
            let (x, y) = (i32::from(x), i32::from(y));
            Touch::Plot { x, y, value }
        }
        450..=599 => {
            let (x, y) = (coordinate(random), coordinate(random));
            match random.below(4) {
                0 => Touch::Plot { x, y, value },
                1 => Touch::Plot {
                    x,
                    y: i32::from(column(random)),
                    value,
                },
                2 => Touch::Plot {
                    x: i32::from(column(random)),
                    y,
                    value,
                },
                _ => Touch::Plot {
                    x: random_edge(random),
                    y: random_edge(random),
                    value,
                },
            }
        }
        600..=997 => match random.below(4) {
            0 => Touch::Read { x, y },
            1 => Touch::Read {
                x: (last.0 + 1) % SIDE as u16,
                y: last.1,
            },
            _ => Touch::Read {
                x: last.0,
                y: last.1,
            },
        },
        _ => Touch::Clear,
    }
}

/// A coordinate of the field, often near an end.
fn column(random: &mut Random) -> u16 {
    match random.below(4) {
        0 => random.below(5),
        1 => random.between(507, 511),
        _ => random.below(512),
    }
}

fn random_edge(random: &mut Random) -> i32 {
    let edge = if random.chance(50) { 0 } else { SIDE };
    between(random, edge - 1, edge)
}

fn touch(parts: &mut Parts, bytes: &mut [u8], touch: Touch) {
    let part = Part::Image;
    let at = |x: i64, y: i64| Place {
        x: Pixel(x),
        y: Pixel(y),
    };
    let mut lent = Image::lend(bytes).expect("the image has its size");
    let (case, answer) = match touch {
        Touch::Read { x, y } => {
            let (_, digit) = read_pixel(bytes, Pixel(x.into()), Pixel(y.into()));
            parts.saw(part, format!("read {}", digit));
            (head(2).byte(0).word(0).word(x).word(y), digit)
        }
        Touch::Store { x, y, value } => {
            lent.store(at(x.into(), y.into()), value);
            parts.saw(part, "store");
            (head(2).byte(1).byte(value).byte(0).word(x).word(y), 0)
        }
        Touch::Plot { x, y, value } => {
            let stored = lent.store(at(x.into(), y.into()), value);
            parts.saw(part, if stored { "plot in" } else { "plot out" });
            let head = head(2).byte(2).byte(value).byte(0).word(0).word(0);
            (head.signed(x.into()).signed(y.into()), u8::from(stored))
        }
        Touch::Clear => {
            clear(bytes);
            parts.saw(part, "clear");
            (head(2).byte(3), 0)
        }
    };
    let record = Bytes::default().byte(answer).padded(4);
    parts.case(part, &case.padded(HEAD), &record);
}

/// Has the whole image compared, and then perhaps filled.
fn look(parts: &mut Parts, part: Part, bytes: &mut [u8], fill: Option<u8>) {
    let case = head(6)
        .byte(u8::from(fill.is_some()))
        .byte(fill.unwrap_or(0))
        .padded(HEAD);
    parts.case(part, &case, &digest(bytes).to_le_bytes());
    parts.saw(part, "look");
    if let Some(byte) = fill {
        bytes.fill(byte);
    }
}

fn digest(bytes: &[u8]) -> u32 {
    let next = |sum: u64, &byte: &u8| (sum * 2_654_435_761 + u64::from(byte) + 1) % 4_294_967_291;
    bytes.iter().fold(1, next) as u32
}

// ---- file

fn files(parts: &mut Parts, random: &mut Random, count: usize) {
    for number in 0..count {
        let words = match number % 5_000 {
            4_999 => full(random),
            n if n % 200 == 199 => wide(random),
            _ => short(random),
        };
        let mut addresses = [0; ADDRESSES];
        for address in &mut addresses {
            *address = near(random, &words);
        }
        file_case(parts, &words, addresses);
    }
}

/// A sound file of few words, or one with a rule broken.
fn short(random: &mut Random) -> Vec<u16> {
    let segments = usize::from(random.between(1, 8));
    let body = usize::from(random.below(24));
    let mut words = laid_out(random, segments, body);
    if random.chance(50) {
        spoil(random, &mut words);
    }
    words
}

/// A sound file: segments that begin and end anywhere in the body.
fn laid_out(random: &mut Random, segments: usize, body: usize) -> Vec<u16> {
    let header = 2 + 2 * segments;
    let mut words = vec![1, segments as u16];
    for _ in 0..segments {
        let from = match random.below(4) {
            0 => 0,
            1 => body,
            _ => random.index(body + 1),
        };
        let rest = (body - from).min(SEGMENT_WORDS);
        let length = match random.below(3) {
            0 => rest,
            _ => random.index(rest + 1),
        };
        words.extend([(header + from) as u16, length as u16]);
    }
    words.extend((0..body).map(|_| random.word()));
    words
}

/// Breaks a rule, as a rule by no more than one.
fn spoil(random: &mut Random, words: &mut Vec<u16>) {
    let header = 2 + 2 * words[1];
    let end = words.len() as u16;
    let pair = 2 + 2 * random.index(usize::from(words[1]));
    let any = random.word();
    match random.below(12) {
        0 => words[0] = random.pick(&[0, 2, 0x0101, 0x8001, any]),
        1 => words[1] = random.pick(&[0, 9, 0x0101, 0x8001, any]),
        2 => words[1] = words[1] % 8 + 1,
        3 => words.truncate(random.index(3)),
        4 => words.truncate(usize::from(header) - 1),
        5 => words.truncate(random.index(words.len())),
        // Of a length for which there is room.
        6 => words[pair] = header - 1,
        7 => words[pair] = random.pick(&[0, 1, header - 2, end, end + 1, any]),
        8 => words[pair + 1] = end - words[pair] + 1,
        9 => words[pair + 1] = random.pick(&[4_096, 4_097, 0x8000, u16::MAX, any]),
        // The sum is 0, or small, once it is cut to 16 bits.
        10 => words[pair] = 0_u16.wrapping_sub(words[pair + 1]),
        _ => words.truncate(words.len() - 1),
    }
    if words.len() > pair + 1 && random.chance(30) {
        // An empty segment too must lie in the file.
        words[pair + 1] = 0;
    }
}

/// A file with segments as long as one may be, or longer by a word, or cut by one.
fn wide(random: &mut Random) -> Vec<u16> {
    let segments = usize::from(random.between(1, 8));
    let body = SEGMENT_WORDS + usize::from(random.below(4));
    let mut words = laid_out(random, segments, body);
    let header = 2 + 2 * segments as u16;
    for pair in words[2..usize::from(header)].chunks_exact_mut(2) {
        let length = if random.chance(15) { 4_097 } else { 4_096 };
        if random.chance(60) {
            pair[0] = header + random.below(2);
            pair[1] = length;
        }
    }
    words
}

/// Seven full segments with no word in common.
fn full(random: &mut Random) -> Vec<u16> {
    let mut words = vec![1, 7];
    for segment in 0..7 {
        words.extend([16 + segment * 4_096, 4_096]);
    }
    words.extend((0..7 * SEGMENT_WORDS).map(|_| random.word()));
    words
}

/// An address, most often near an edge of a segment that the header names.
fn near(random: &mut Random, words: &[u16]) -> u16 {
    let number = |i: usize| words.get(i).copied().unwrap_or(0);
    let segments = number(1).clamp(1, 8);
    let segment = random.below(segments);
    let length = number(3 + 2 * usize::from(segment)).min(4_096);
    let place = match random.below(10) {
        0 => 0,
        1 | 2 => length.saturating_sub(1),
        3 | 4 => length,
        5 => 4_095,
        _ => random.below(length.max(1)),
    };
    let address = (segment * 8_192).wrapping_add(2 * place);
    match random.below(20) {
        0 | 1 => address | 1,
        2 => random.word(),
        3 => random.pick(&[0, 1, 2, 8_190, 8_191, 8_192, 65_534, 65_535]),
        // The first word after the last segment, and the one before it.
        4 | 5 => segments.wrapping_mul(8_192),
        6 => segments.wrapping_mul(8_192).wrapping_sub(2),
        7 => random.word() & !1,
        _ => address,
    }
}

fn file_case(parts: &mut Parts, words: &[u16], addresses: [u16; ADDRESSES]) {
    let part = Part::File;
    assert!(words.len() <= MOST_WORDS);
    let mut case = head(3).byte(0).word(words.len() as u16);
    for address in addresses {
        case = case.word(address);
    }
    for &word in words {
        case = case.word(word);
    }
    let answer = check(words).number();
    parts.saw(part, format!("check {}", answer));
    broken(parts, words, answer);
    let mut record = Bytes::default().byte(answer);
    if let Ok(file) = File::open(words) {
        parts.saw_if(part, words.len() > SEGMENT_WORDS, "check 0 of a wide file");
        for address in addresses {
            record = match file.fetch(address) {
                Ok(word) => {
                    parts.saw(part, "fetch 0");
                    record.byte(0).word(word)
                }
                Err(fault) => {
                    parts.saw(part, format!("fetch {}", fault as u8));
                    record.byte(fault as u8).word(0)
                }
            };
        }
    }
    let length = HEAD + 2 * words.len();
    parts.case(part, &case.padded(length), &record.padded(19));
}

/// Counts the refused files that miss a rule by one word.
fn broken(parts: &mut Parts, words: &[u16], answer: u8) {
    let part = Part::File;
    let header = 2 + 2 * words.get(1).map_or(0, |&count| usize::from(count));
    let short = words.len() + 1 == header;
    parts.saw_if(part, answer == 12 && short, "check 12, header cut by 1");
    if answer != 15 {
        return;
    }
    let pairs = || {
        words[2..header]
            .chunks_exact(2)
            .map(|pair| (usize::from(pair[0]), usize::from(pair[1])))
    };
    let early = pairs().any(|(from, _)| from + 1 == header);
    let late = pairs().any(|(from, length)| from + length == words.len() + 1);
    let long = pairs().any(|(from, length)| {
        from >= header && length == SEGMENT_WORDS + 1 && from + length <= words.len()
    });
    parts.saw_if(part, early, "check 15, begins 1 early");
    parts.saw_if(part, late, "check 15, ends 1 late");
    parts.saw_if(part, long, "check 15, 1 word too long");
}

// ---- words

fn words(parts: &mut Parts, random: &mut Random, count: usize) {
    if count < WORDS {
        for _ in 0..count {
            word_case(parts, random.word());
        }
    } else {
        for word in 0..=u16::MAX {
            word_case(parts, word);
        }
    }
}

fn word_case(parts: &mut Parts, word: u16) {
    let part = Part::Words;
    let case = head(4).byte(0).word(word).padded(HEAD);
    let mut record = Bytes::default();
    for mode in MODES {
        record.0.extend(account(parts, mode, word));
    }
    let lit = false;
    let (dx, x) = (Unit(0), Unit(0));
    let half = Half::LongVector { lit, dx };
    assert_eq!(
        half.complete(word).is_err(),
        Half::AbsolutePoint { lit, x }.complete(word).is_err()
    );
    let refusal = half.complete(word).err().map_or(0, |fault| fault as u8);
    parts.saw(part, format!("second {}", refusal));
    let mut record = record
        .signed(word::long_move(word).0)
        .signed(word::coordinate(word).0)
        .byte(refusal);
    record.0.extend(account(parts, CHARACTERS, word));
    parts.case(part, &case, &record.padded(113));
}

fn account(parts: &mut Parts, mode: u8, word: u16) -> Vec<u8> {
    let (name, bytes) = match word::decode(word, Mode::from_number(mode)) {
        Err(fault) => refused(fault),
        Ok(First::Whole(instruction)) => whole(instruction),
        Ok(First::Half(half)) => first(half),
    };
    parts.saw(Part::Words, name);
    bytes.padded(13)
}

fn refused(fault: Fault) -> (&'static str, Bytes) {
    let name = match fault {
        Fault::CodeNotBuilt => "first 24",
        Fault::CharacterCode => "first 32",
        _ => "first 25",
    };
    (name, Bytes::default().byte(fault as u8))
}

fn whole(instruction: Instruction) -> (&'static str, Bytes) {
    let still = Unit(0);
    match instruction {
        Instruction::SetMode { mode, value } => {
            ("first 0, set mode", order(1, value, mode.number()))
        }
        Instruction::NoOp => ("first 0, no-op", order(3, None, 0)),
        Instruction::StatusA { latch, stop } => (
            "first 0, status A",
            order(4, latch.map(u8::from), u8::from(stop)),
        ),
        Instruction::GraphIncrement { increment } => ("first 0, increment", order(5, increment, 0)),
        Instruction::StatusC { write } => ("first 0, status C", order(6, write.map(u8::from), 0)),
        Instruction::Vector { lit, dx, dy } => ("first 0, short vector", item(7, lit, dx, dy)),
        Instruction::GraphX { lit, x } => ("first 0, graph X", item(10, lit, x, still)),
        Instruction::GraphY { lit, y } => ("first 0, graph Y", item(11, lit, still, y)),
        Instruction::RelativePoint { lit, dx, dy } => {
            ("first 0, relative point", item(12, lit, dx, dy))
        }
        Instruction::Characters { codes } => {
            let [x, y] = codes.map(|code| Unit(code.number().into()));
            ("first 0, characters", item(13, true, x, y))
        }
        Instruction::Jump { .. } | Instruction::AbsolutePoint { .. } => {
            unreachable!("it has a second word")
        }
    }
}

fn first(half: Half) -> (&'static str, Bytes) {
    let still = Unit(0);
    match half {
        Half::Jump => ("first 0, jump", order(2, None, 0)),
        Half::LongVector { lit, dx } => ("first 0, long vector", item(8, lit, dx, still)),
        Half::AbsolutePoint { lit, x } => ("first 0, absolute point", item(9, lit, x, still)),
    }
}

/// A setting that is left alone counts as 0.
fn order(kind: u8, setting: Option<u8>, more: u8) -> Bytes {
    let flag = u8::from(setting.is_some());
    detail(kind, flag, setting.unwrap_or(0), more, Unit(0), Unit(0))
}

fn item(kind: u8, lit: bool, x: Unit, y: Unit) -> Bytes {
    detail(kind, u8::from(lit), 0, 0, x, y)
}

fn detail(kind: u8, flag: u8, setting: u8, more: u8, x: Unit, y: Unit) -> Bytes {
    Bytes::default()
        .byte(0)
        .byte(kind)
        .byte(flag)
        .byte(setting)
        .byte(more)
        .signed(x.0)
        .signed(y.0)
}

// ---- vector

const NEAREST: i32 = -2_048;
const FARTHEST: i32 = 2_047;

/// How many vectors go on one sheet.
const SHEET: usize = 100;

/// An image on which no pixel is stored twice, nor with the value that it has: so the digest of
/// the whole shows each store.
struct Sheet {
    bytes: Vec<u8>,
    stored: Vec<bool>,
    ground: u8,
    vectors: usize,
}

impl Sheet {
    fn takes(&self, pixels: &[Place]) -> bool {
        self.vectors < SHEET
            && pixels
                .iter()
                .filter_map(|&place| spot(place))
                .all(|spot| !self.stored[spot])
    }

    fn draw(&mut self, pixels: &[Place], value: u8) -> u32 {
        let mut image = Image::lend(&mut self.bytes).expect("the image has its size");
        let mut stores = 0;
        for &place in pixels {
            stores += u32::from(image.store(place, value));
            if let Some(spot) = spot(place) {
                self.stored[spot] = true;
            }
        }
        self.vectors += 1;
        stores
    }

    fn renew(&mut self, parts: &mut Parts, random: &mut Random) {
        self.ground = random.below(4) as u8;
        let fill = 0b_01_01_01_01 * self.ground;
        look(parts, Part::Vector, &mut self.bytes, Some(fill));
        self.stored.fill(false);
        self.vectors = 0;
    }
}

/// The number of a pixel in the field.
fn spot(place: Place) -> Option<usize> {
    locate(place).map(|(byte, shift)| 4 * byte + shift as usize / 2)
}

fn vectors(parts: &mut Parts, random: &mut Random, count: usize) {
    let mut sheet = Sheet {
        bytes: vec![0; IMAGE_BYTES],
        stored: vec![false; (SIDE * SIDE) as usize],
        ground: 0,
        vectors: 0,
    };
    sheet.renew(parts, random);
    for _ in 0..count {
        let (dx, dy) = way(random);
        let (mut x, mut y) = begin(random, dx, dy);
        for _ in 0..8 {
            if sheet.takes(&line(x, y, dx, dy)) {
                break;
            }
            (x, y) = begin(random, dx, dy);
        }
        let pixels = line(x, y, dx, dy);
        if !sheet.takes(&pixels) {
            sheet.renew(parts, random);
        }
        let value = (sheet.ground + 1 + random.below(3) as u8) % 4;
        let stores = sheet.draw(&pixels, value);
        let mut case = head(5).byte(0).byte(value).byte(0);
        for end in [x, y, x + dx, y + dy] {
            case = case.word((end - NEAREST) as u16);
        }
        parts.case(Part::Vector, &case.padded(HEAD), &stores.to_le_bytes());
        tell(parts, &pixels, dx, dy, stores as usize);
    }
    look(parts, Part::Vector, &mut sheet.bytes, None);
}

fn line(x: i32, y: i32, dx: i32, dy: i32) -> Vec<Place> {
    let place = |x: i32, y: i32| Place {
        x: Pixel(x.into()),
        y: Pixel(y.into()),
    };
    vector::pixels(place(x, y), place(x + dx, y + dy)).collect()
}

/// How far a vector goes.
fn way(random: &mut Random) -> (i32, i32) {
    let most = match random.below(20) {
        0..=6 => 5,
        7..=14 => 31,
        15..=17 => 511,
        18 => 60,
        _ => FARTHEST - NEAREST,
    };
    let dx = between(random, -most, most);
    let dy = between(random, -most, most);
    let sign = if random.chance(50) { 1 } else { -1 };
    match random.below(10) {
        0 => (dx, 0),
        1 => (0, dy),
        2 => (dx, sign * dx),
        // The middle is a half exactly.
        3 => (dx / 2 * 2, sign * ((dx / 2) | 1)),
        4 => (sign * ((dy / 2) | 1), dy / 2 * 2),
        _ => (dx, dy),
    }
}

/// Where a vector begins: in the field, about it, or so that it ends in it.
fn begin(random: &mut Random, dx: i32, dy: i32) -> (i32, i32) {
    let ends_there = random.chance(50);
    let mut axis = |way: i32| {
        let at = match random.below(6) {
            0 => random_edge(random) + between(random, -12, 12),
            1 => between(random, -40, SIDE + 39),
            2 if random.chance(20) => between(random, NEAREST, FARTHEST),
            _ => between(random, 0, SIDE - 1),
        };
        let from = if ends_there { at - way } else { at };
        from.clamp(NEAREST.max(NEAREST - way), FARTHEST.min(FARTHEST - way))
    };
    (axis(dx), axis(dy))
}

fn tell(parts: &mut Parts, pixels: &[Place], dx: i32, dy: i32, stores: usize) {
    let part = Part::Vector;
    let (long, short) = (dx.abs().max(dy.abs()), dx.abs().min(dy.abs()));
    let steep = dx.abs() < dy.abs();
    let up = |way: i32| if way < 0 { "-" } else { "+" };
    if long > 0 {
        let axis = if steep { "Y" } else { "X" };
        parts.saw(
            part,
            format!("octant {}{}, longer {}", up(dx), up(dy), axis),
        );
    }
    parts.saw_if(part, long == 0, "one pixel");
    parts.saw_if(part, long > 0 && short == 0, "along an axis");
    parts.saw_if(part, long > 0 && short == long, "diagonal");
    parts.saw_if(part, long > 511, "more than 511 pixels on");
    let half = |i: i32| {
        (2 * i64::from(i) * i64::from(short) + i64::from(long)) % (2 * i64::from(long)) == 0
    };
    let halves = long > 0 && short > 0 && (1..long).any(half);
    parts.saw_if(part, halves && !steep, "exact half, longer X");
    parts.saw_if(part, halves && steep, "exact half, longer Y");

    let inside = |place: &Place| spot(*place).is_some();
    let (first, last) = (inside(&pixels[0]), inside(&pixels[pixels.len() - 1]));
    parts.saw(
        part,
        match (first, last) {
            (true, true) => "ends in, in",
            (true, false) => "ends in, out",
            (false, true) => "ends out, in",
            (false, false) if stores > 0 => "ends out, out, crossing",
            (false, false) => "ends out, out, no store",
        },
    );
}

#[cfg(test)]
mod tests {
    use super::*;

    /// The cases of a kind, each with its record.
    fn of_kind(parts: &Parts, kind: u8) -> Vec<(&[u8], &[u8])> {
        let mut found = Vec::new();
        for line in parts.index.lines() {
            let at: Vec<usize> = line
                .split(' ')
                .skip(2)
                .map(|number| number.parse().expect("a number"))
                .collect();
            let case = &parts.cases[at[0]..at[0] + at[1]];
            if case[0] == kind {
                found.push((case, &parts.expected[at[2]..at[2] + at[3]]));
            }
        }
        found
    }

    fn word_at(bytes: &[u8], at: usize) -> u16 {
        u16::from_le_bytes([bytes[at], bytes[at + 1]])
    }

    fn signed_at(bytes: &[u8], at: usize) -> i64 {
        let low = i64::from(word_at(bytes, at));
        low + 65_536 * i64::from(word_at(bytes, at + 2)) - (1 << 31)
    }

    #[test]
    fn a_seed_decides_the_cases() {
        assert!(parts(7, 500) == parts(7, 500));
        assert!(parts(7, 500).cases != parts(8, 500).cases);
    }

    #[test]
    fn every_case_and_record_has_its_length_and_place() {
        let parts = parts(3, 1_000);
        let (mut cases, mut records) = (0, 0);
        for (kind, record) in [(1, 24), (2, 4), (3, 19), (4, 113), (5, 4), (6, 4)] {
            for (case, expected) in of_kind(&parts, kind) {
                let words = if kind == 3 { word_at(case, 2) } else { 0 };
                assert_eq!(case.len(), HEAD + 2 * usize::from(words));
                assert_eq!(expected.len(), record);
                cases += case.len();
                records += expected.len();
            }
        }
        assert_eq!(cases, parts.cases.len());
        assert_eq!(records, parts.expected.len());
    }

    #[test]
    fn every_outcome_occurs() {
        let parts = parts(1, 10_000);
        let outcomes: [(Part, &[&str]); 5] = [
            (
                Part::Units,
                &[
                    "X odd below 0",
                    "lowest number of 32 bits",
                    "highest number of 32 bits",
                    "size minus",
                    "size minus 0",
                    "size plus",
                    "index",
                    "index none",
                    "move",
                    "move to the lowest",
                    "move to the highest",
                    "move out below",
                    "move out above",
                ],
            ),
            (
                Part::Image,
                &[
                    "read 0", "read 1", "read 2", "read 3", "store", "plot in", "plot out",
                    "clear", "look",
                ],
            ),
            (
                Part::File,
                &[
                    "check 0",
                    "check 0 of a wide file",
                    "check 12",
                    "check 12, header cut by 1",
                    "check 13",
                    "check 14",
                    "check 15",
                    "check 15, 1 word too long",
                    "check 15, begins 1 early",
                    "check 15, ends 1 late",
                    "fetch 0",
                    "fetch 21",
                    "fetch 22",
                    "fetch 23",
                ],
            ),
            (
                Part::Words,
                &[
                    "first 24",
                    "first 25",
                    "first 32",
                    "first 0, set mode",
                    "first 0, jump",
                    "first 0, no-op",
                    "first 0, status A",
                    "first 0, increment",
                    "first 0, status C",
                    "first 0, short vector",
                    "first 0, long vector",
                    "first 0, absolute point",
                    "first 0, graph X",
                    "first 0, graph Y",
                    "first 0, relative point",
                    "first 0, characters",
                    "second 0",
                    "second 26",
                ],
            ),
            (
                Part::Vector,
                &[
                    "one pixel",
                    "along an axis",
                    "diagonal",
                    "more than 511 pixels on",
                    "exact half, longer X",
                    "exact half, longer Y",
                    "octant ++, longer X",
                    "octant ++, longer Y",
                    "octant +-, longer X",
                    "octant +-, longer Y",
                    "octant -+, longer X",
                    "octant -+, longer Y",
                    "octant --, longer X",
                    "octant --, longer Y",
                    "ends in, in",
                    "ends in, out",
                    "ends out, in",
                    "ends out, out, crossing",
                    "ends out, out, no store",
                    "look",
                ],
            ),
        ];
        let mut known = 0;
        for (part, names) in outcomes {
            for name in names {
                let key = (part, name.to_string());
                let times = parts.outcomes.get(&key).copied().unwrap_or(0);
                assert!(times >= 5, "{} {} occurs {} times", part, name, times);
                known += 1;
            }
        }
        assert_eq!(known, parts.outcomes.len(), "the table has more lines");
    }

    #[test]
    fn every_unit_of_the_range_is_halved() {
        let parts = parts(4, 8_192);
        let mut seen: Vec<i64> = of_kind(&parts, 1)
            .iter()
            .map(|(case, record)| {
                let x = signed_at(case, 4);
                assert_eq!(signed_at(record, 0), (x - x.rem_euclid(2)) / 2);
                x
            })
            .collect();
        seen.sort_unstable();
        assert!(seen.into_iter().eq(i64::from(LOWEST)..=i64::from(HIGHEST)));
    }

    #[test]
    fn every_word_is_tried_where_there_is_room() {
        let mut parts = Parts::default();
        words(&mut parts, &mut Random(1), WORDS);
        let tried = of_kind(&parts, 4);
        assert!(tried
            .iter()
            .map(|(case, _)| word_at(case, 2))
            .eq(0..=u16::MAX));
    }

    #[test]
    fn the_account_of_mode_0_stands_behind_the_others() {
        let mut parts = Parts::default();
        for word in [0o030465, 0o030665, 0o030400, 0o100000, 0o103400, 0o077440] {
            word_case(&mut parts, word);
        }
        let accounts: Vec<&[u8]> = of_kind(&parts, 4)
            .into_iter()
            .map(|(_, record)| &record[100..])
            .collect();
        // The digits 5 and 1, with bit 7 too; a first half of 0; mode 0, and with value 3; and a
        // second half of 127.
        let digits = [0, 13, 1, 0, 0, 53, 0, 0, 128, 49, 0, 0, 128];
        let refused = [32, 0, 0, 0, 0, 0, 0, 0, 0, 0, 0, 0, 0];
        let mode = [0, 1, 0, 0, 0, 0, 0, 0, 128, 0, 0, 0, 128];
        let valued = [0, 1, 1, 3, 0, 0, 0, 0, 128, 0, 0, 0, 128];
        assert_eq!(accounts, [digits, digits, refused, mode, valued, refused]);
    }

    #[test]
    fn a_look_shows_every_store_of_a_vector() {
        let mut parts = Parts::default();
        vectors(&mut parts, &mut Random(5), 2_000);
        let mut bytes = vec![0; IMAGE_BYTES];
        let mut before = bytes.clone();
        let (mut stores, mut looks) = (0, 0);
        let mut at = 0;
        for record in parts.expected.chunks_exact(4) {
            let case = &parts.cases[at..at + HEAD];
            at += HEAD;
            let number = u32::from_le_bytes([record[0], record[1], record[2], record[3]]);
            if case[0] == 5 {
                stores += number;
                let end = |i: usize| i64::from(word_at(case, i)) - 2_048;
                let place = |x: i64, y: i64| Place {
                    x: Pixel(x),
                    y: Pixel(y),
                };
                let mut image = Image::lend(&mut bytes).expect("the size is right");
                for pixel in vector::pixels(place(end(4), end(6)), place(end(8), end(10))) {
                    image.store(pixel, case[2]);
                }
                continue;
            }
            assert_eq!(number, digest(&bytes));
            let changed: u32 = bytes
                .iter()
                .zip(&before)
                .map(|(a, b)| (0..4).filter(|k| (a ^ b) >> (2 * k) & 3 != 0).count() as u32)
                .sum();
            assert_eq!(changed, stores);
            if case[1] == 1 {
                bytes.fill(case[2]);
            }
            before = bytes.clone();
            stores = 0;
            looks += 1;
        }
        assert_eq!(at, parts.cases.len());
        assert!((20..=200).contains(&looks), "{} looks", looks);
    }
}
