//! The program `picture`: from the bytes of a file to its screen, as a binary PGM.

use crate::image::{read_pixel, IMAGE_BYTES};
use crate::machine::fresh;
use crate::plot::INPUT_LIMIT;
use crate::run::run;
use crate::unit::Pixel;

/// Eight segments have no more words, so that a file without a jump back is drawn whole.
pub const USUAL_BUDGET: u64 = 32_768;

const SIDE: i64 = 512;

/// The screen that a display file draws in so many steps, with a lent set of characters or, where it
/// is empty, the built-in one.
pub fn picture(bytes: &[u8], budget: u64, set: &[u8]) -> Vec<u8> {
    let mut image = vec![0; IMAGE_BYTES];
    if let Some(words) = words(bytes) {
        run(&words, fresh(), &mut image, budget, set);
    }
    pgm(&image)
}

/// Low byte first; an input that no file can have gives none.
pub(crate) fn words(bytes: &[u8]) -> Option<Vec<u16>> {
    if bytes.len() % 2 == 1 || bytes.len() > INPUT_LIMIT {
        return None;
    }
    let pairs = bytes.chunks_exact(2);
    Some(
        pairs
            .map(|pair| u16::from_le_bytes([pair[0], pair[1]]))
            .collect(),
    )
}

/// The top row first, and each byte a pixel's own digit: 3 is the largest.
pub(crate) fn pgm(image: &[u8]) -> Vec<u8> {
    let mut bytes = format!("P5\n{} {}\n3\n", SIDE, SIDE).into_bytes();
    for y in (0..SIDE).rev() {
        bytes.extend((0..SIDE).map(|x| read_pixel(image, Pixel(x), Pixel(y)).1));
    }
    bytes
}

#[cfg(test)]
mod tests {
    use super::*;
    use crate::cases::bytes_of;
    use crate::plot::plot;
    use crate::run::BUDGET_LIMIT;

    const HEADER: usize = 13;

    fn digits(picture: &[u8]) -> Vec<(usize, u8)> {
        let body = picture[HEADER..].iter().copied().enumerate();
        body.filter(|&(_, digit)| digit != 0).collect()
    }

    #[test]
    fn the_lower_left_pixel_begins_the_last_row() {
        // a point of value 2 at (0, 0), one of value 1 at (1023, 0), one of value 3 at (0, 1023)
        let words = [
            1, 1, 4, 10, 0o117000, 0o040000, 0, 0o116400, 0o041777, 0, 0o117400, 0o040000, 0o1777,
            0o172000,
        ];
        let picture = picture(&bytes_of(&words), USUAL_BUDGET, &[]);
        assert_eq!(&picture[..HEADER], b"P5\n512 512\n3\n");
        assert_eq!(picture.len(), HEADER + 262_144);
        assert_eq!(digits(&picture), [(0, 3), (261_632, 2), (262_143, 1)]);
    }

    #[test]
    fn the_usual_budget_is_that_of_eight_full_segments() {
        // no-ops up to the last two places, which hold a vector's mode and a lit vector
        let mut words = vec![1, 8];
        words.extend([(18, 4_096); 7].iter().flat_map(|&(at, size)| [at, size]));
        words.extend([4_114, 4_096]);
        words.extend([0o164000; 8_190]);
        words.extend([0o104000, 0o040000]);
        let bytes = bytes_of(&words);
        assert_eq!(digits(&picture(&bytes, USUAL_BUDGET, &[])), [(261_632, 3)]);
        assert!(digits(&picture(&bytes, USUAL_BUDGET - 1, &[])).is_empty());
    }

    #[test]
    fn a_budget_cuts_the_drawing_where_its_last_step_ends() {
        // no-ops, the mode of relative points as step 998, then four points side by side, and a stop
        let mut words = vec![1, 1, 4, 1_003];
        words.extend([0o164000; 997]);
        words.extend([0o130000, 0o040400, 0o040400, 0o040400, 0o040400, 0o172000]);
        let bytes = bytes_of(&words);
        let points = [(261_633, 3), (261_634, 3), (261_635, 3), (261_636, 3)];
        for (budget, count) in [(998, 0), (999, 1), (1_000, 2), (1_001, 3), (1_002, 4)] {
            let drawn = digits(&picture(&bytes, budget, &[]));
            assert_eq!(drawn, points[..count], "{}", budget);
        }
        assert_eq!(digits(&picture(&bytes, BUDGET_LIMIT, &[])), points);
        // `plot` ends after the same step as a picture of 1,000
        let line = plot(&bytes);
        assert_eq!((line.steps, line.stores), (1_000, 2));
    }

    #[test]
    fn a_budget_of_0_leaves_the_screen_blank() {
        let sound = [1, 1, 4, 3, 0o104000, 0o040000, 0o172000];
        let refused = [2, 1, 4, 3, 0o104000, 0o040000, 0o172000];
        for (words, count) in [(sound, 1), (refused, 0)] {
            let bytes = bytes_of(&words);
            assert!(digits(&picture(&bytes, 0, &[])).is_empty());
            assert_eq!(digits(&picture(&bytes, USUAL_BUDGET, &[])).len(), count);
        }
    }

    #[test]
    fn an_input_that_no_file_has_leaves_the_screen_blank() {
        for size in [0, 1, 3, 65_537, 65_538] {
            for budget in [0, 1_000, USUAL_BUDGET] {
                let picture = picture(&vec![0; size], budget, &[]);
                assert!(digits(&picture).is_empty(), "{} {}", size, budget);
            }
        }
    }
}
