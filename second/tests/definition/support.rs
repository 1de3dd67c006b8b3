//! What the tests share: files, images, checksums and chance.

use second::plot::plot;
use second::{fresh, read_pixel, run, Answer, Machine, Outcome, Pixel, Place, Position, Unit};
use second::{IMAGE_BYTES, NO_MODE};

/// A file with these words as its only segment.
pub fn file(segment: &[u16]) -> Vec<u16> {
    file_of(&[segment])
}

/// A file with these segments, one behind the other.
pub fn file_of(segments: &[&[u16]]) -> Vec<u16> {
    let mut words = vec![1, segments.len() as u16];
    let mut offset = 2 + 2 * segments.len();
    for segment in segments {
        words.extend([offset as u16, segment.len() as u16]);
        offset += segment.len();
    }
    words.extend(segments.concat());
    words
}

pub fn bytes_of(words: &[u16]) -> Vec<u8> {
    words.iter().flat_map(|word| word.to_le_bytes()).collect()
}

pub fn blank() -> Vec<u8> {
    vec![0; IMAGE_BYTES]
}

/// An image in which every byte differs from its neighbours.
pub fn patterned() -> Vec<u8> {
    (0..IMAGE_BYTES).map(|i| (i * 37 + i / 256) as u8).collect()
}

pub fn unit_point(x: i64, y: i64) -> Position {
    Position {
        x: Unit(x),
        y: Unit(y),
    }
}

pub fn pixel_point(x: i64, y: i64) -> Place {
    Place {
        x: Pixel(x),
        y: Pixel(y),
    }
}

/// A fresh machine with another position and mode.
pub fn machine_at(x: i64, y: i64, mode: u8) -> Machine {
    Machine {
        x: Unit(x),
        y: Unit(y),
        mode,
        ..fresh()
    }
}

/// Runs words as the only segment, on a blank image and with the built-in characters, and hands back
/// the image too.
pub fn run_on_blank(segment: &[u16], machine: Machine, budget: u64) -> (Outcome, Vec<u8>) {
    let mut image = blank();
    let outcome = run(&file(segment), machine, &mut image, budget, &[]);
    (outcome, image)
}

/// The pixels that are not 0, row by row, with their digits.
pub fn shown(image: &[u8]) -> Vec<(i64, i64, u8)> {
    let mut pixels = Vec::new();
    for y in 0..512 {
        for x in 0..512 {
            let (answer, digit) = read_pixel(image, Pixel(x), Pixel(y));
            assert_eq!(answer, Answer::Done);
            if digit != 0 {
                pixels.push((x, y, digit));
            }
        }
    }
    pixels
}

/// The line of `plot` for words as the only segment.
pub fn line(segment: &[u16]) -> String {
    plot(&bytes_of(&file(segment))).to_string()
}

/// The image that a fresh machine leaves after `plot`'s budget.
pub fn plotted_image(segment: &[u16]) -> Vec<u8> {
    run_on_blank(segment, fresh(), 1_000).1
}

pub fn crc32(bytes: &[u8]) -> u32 {
    let mut crc = !0_u32;
    for &byte in bytes {
        crc ^= u32::from(byte);
        for _ in 0..8 {
            crc = if crc % 2 == 1 {
                crc >> 1 ^ 0xEDB8_8320
            } else {
                crc >> 1
            };
        }
    }
    !crc
}

#[test]
fn the_checksum_is_the_usual_one() {
    assert_eq!(crc32(b"123456789"), 0xCBF4_3926);
}

/// A xorshift generator. A failing test prints the seed it ran with.
pub struct Random(u64);

impl Random {
    pub fn new(seed: u64) -> Random {
        println!("seed {}", seed);
        Random(seed)
    }

    pub fn next(&mut self) -> u64 {
        self.0 ^= self.0 << 13;
        self.0 ^= self.0 >> 7;
        self.0 ^= self.0 << 17;
        self.0
    }

    /// A number from `low` to `high`, both included.
    pub fn between(&mut self, low: i64, high: i64) -> i64 {
        let span = (high - low + 1) as u64;
        low + ((self.next() >> 16) % span) as i64
    }

    pub fn word(&mut self) -> u16 {
        (self.next() >> 24) as u16
    }

    pub fn machine(&mut self) -> Machine {
        Machine {
            counter: 0,
            x: Unit(self.between(-4_096, 4_095)),
            y: Unit(self.between(-4_096, 4_095)),
            mode: [NO_MODE, 0, 1, 2, 3, 4, 5, 6][self.between(0, 7) as usize],
            value: self.between(0, 3) as u8,
            write: self.between(0, 1) as u8,
            latch: self.between(0, 1) as u8,
            increment: self.between(0, 63) as u8,
            status: 0,
        }
    }
}
