//! Random inputs for the program `plot`, each with its line: the files of `cases`, and what is too
//! much for the reader of those: pictures and text with many stores, loops that draw until the
//! budget is used, files spoilt byte by byte, and inputs at the edges of the size that is taken.

use std::iter;

use crate::cases::{
    bytes_of, case, control, laid_out, noise, program, Case, Random, ABSOLUTE_POINT, CHARACTERS,
    DATA, JUMP, LONG_VECTOR, SHORT_VECTOR,
};
use crate::plot::{plot, INPUT_LIMIT};

/// The sizes that every list of files begins with.
const SIZES: [usize; 14] = [
    0,
    1,
    2,
    3,
    4,
    7,
    8,
    10,
    INPUT_LIMIT - 2,
    INPUT_LIMIT - 1,
    INPUT_LIMIT,
    INPUT_LIMIT + 1,
    INPUT_LIMIT + 2,
    200_000,
];

/// The files of a seed, without end. The first ones are the same for every seed.
pub fn files(seed: u64) -> impl Iterator<Item = Case> {
    let mut random = Random(seed);
    sized().chain(iter::repeat_with(move || case_of(file(&mut random))))
}

fn case_of(bytes: Vec<u8>) -> Case {
    let line = plot(&bytes);
    Case { bytes, line }
}

/// Of each size: all bytes 0, all bits set, and a file that stops at once, cut or with more behind it.
fn sized() -> impl Iterator<Item = Case> {
    let stops = bytes_of(&[1, 1, 4, 1, control(14) | 1 << 10]);
    SIZES.iter().flat_map(move |&size| {
        let mut file = stops.clone();
        file.resize(size, 0xAA);
        [vec![0; size], vec![0xFF; size], file].map(case_of)
    })
}

fn file(random: &mut Random) -> Vec<u8> {
    match random.below(100) {
        0..=64 => case(random).bytes,
        65..=74 => bytes_of(&program(random)),
        75..=80 => bytes_of(&noise(random)),
        81..=83 => bytes_of(&picture(random)),
        84 => bytes_of(&page(random)),
        85..=94 => spoilt(random),
        95..=97 => filled_up(random),
        _ => (0..random.below(300))
            .map(|_| random.word() as u8)
            .collect(),
    }
}

/// Vectors of any length from a point of the field, drawn until there is no budget left or one of them
/// leaves the range.
fn picture(random: &mut Random) -> Vec<u16> {
    let mode = random.pick(&[SHORT_VECTOR, LONG_VECTOR]);
    let mut words = vec![control(ABSOLUTE_POINT)];
    words.extend([random.below(1_024), random.below(1_024)]);
    words.push(control(mode) | random.below(8) << 8);
    for _ in 0..1 + random.below(4) {
        // Two words for a long vector, and two vectors where they are short.
        words.extend([random.word() & DATA, random.word() & DATA]);
    }
    words.extend([control(JUMP), 0]);
    laid_out(random, 1, vec![(0, words)])
}

/// Lines of characters over each other, until there is no budget left.
fn page(random: &mut Random) -> Vec<u16> {
    let mut words = Vec::new();
    for _ in 0..1 + random.below(4) {
        words.push(control(ABSOLUTE_POINT));
        words.extend([random.below(1_024), random.below(1_024)]);
        words.push(control(CHARACTERS) | random.below(8) << 8);
        for _ in 0..1 + random.below(12) {
            words.push(random.good_characters());
        }
    }
    words.extend([control(JUMP), 0]);
    laid_out(random, 1, vec![(0, words)])
}

/// A good file of which some bytes were changed, or all from some byte on.
fn spoilt(random: &mut Random) -> Vec<u8> {
    let mut bytes = bytes_of(&program(random));
    let changes = match random.below(4) {
        0 => {
            let from = random.index(bytes.len());
            bytes.truncate(from);
            bytes.extend((0..random.below(60)).map(|_| random.word() as u8));
            0
        }
        1 => 1,
        _ => 1 + random.below(8),
    };
    for _ in 0..changes {
        let at = random.index(bytes.len());
        bytes[at] = random.word() as u8;
    }
    bytes
}

/// A good file with so many bytes behind it that its size is at the limit, or past it.
fn filled_up(random: &mut Random) -> Vec<u8> {
    let mut bytes = bytes_of(&program(random));
    let size = INPUT_LIMIT - 4 + random.index(9);
    bytes.resize_with(size, || random.word() as u8);
    bytes
}

#[cfg(test)]
mod tests {
    use super::*;

    fn first(seed: u64, count: usize) -> Vec<Case> {
        files(seed).take(count).collect()
    }

    #[test]
    fn a_seed_decides_the_files() {
        assert!(first(7, 100) == first(7, 100));
        assert!(first(7, 100) != first(8, 100));
    }

    #[test]
    fn every_answer_of_plot_occurs() {
        for seed in [1, 2] {
            let files = first(seed, 2_000);
            for answer in [0, 1, 2, 12, 13, 14, 15, 19]
                .into_iter()
                .chain(21..=27)
                .chain([32])
            {
                let found = files.iter().filter(|file| file.line.answer == answer);
                let times = found.count();
                assert!(times >= 10, "answer {} occurs {} times", answer, times);
            }
        }
    }

    #[test]
    fn every_size_at_the_limit_occurs_with_a_good_file() {
        let files = first(3, 2_000);
        for (size, answer) in [(65_534, 1), (65_536, 1), (65_535, 19), (65_538, 19)] {
            let is = |file: &&Case| file.bytes.len() == size && file.line.answer == answer;
            assert!(files.iter().any(|file| is(&file)), "{} bytes", size);
        }
        assert!(files.iter().any(|file| file.bytes.is_empty()));
        assert!(files.iter().any(|file| file.bytes.len() == 200_000));
    }

    #[test]
    fn some_files_draw_at_length() {
        let files = first(4, 2_000);
        let count = |least: u64| {
            files
                .iter()
                .filter(|file| file.line.stores >= least)
                .count()
        };
        assert!(count(1_000) > 50 && count(20_000) > 10);
    }
}
