//! The image memory: 512 by 512 pixels of two bits, four to a byte, lowest row first.

use crate::answer::{Answer, Door};
use crate::characters::Cell;
use crate::unit::{Pixel, Place};

/// The size of every image.
pub const IMAGE_BYTES: usize = 65_536;

const SIDE: i64 = 512;
const PIXELS_IN_BYTE: i64 = 4;
const DIGIT_BITS: i64 = 2;
const DIGIT: u8 = 3;

const CELL_SIDE: i64 = 8;
/// The bit of a row's leftmost pixel.
const LEFTMOST: u8 = 0x80;

/// A lent image of the right size.
pub(crate) struct Image<'a> {
    bytes: &'a mut [u8; IMAGE_BYTES],
}

impl<'a> Image<'a> {
    pub(crate) fn lend(bytes: &'a mut [u8]) -> Result<Image<'a>, Door> {
        match <&mut [u8; IMAGE_BYTES]>::try_from(bytes) {
            Ok(bytes) => Ok(Image { bytes }),
            Err(_) => Err(Door::ImageSize),
        }
    }

    /// Stores a pixel value and says whether the place was in the field.
    pub(crate) fn store(&mut self, place: Place, value: u8) -> bool {
        match locate(place) {
            Some((byte, shift)) => {
                self.bytes[byte] = self.bytes[byte] & !(DIGIT << shift) | value << shift;
                true
            }
            None => false,
        }
    }

    /// Stores a pixel value for each bit of a character, whose lower left corner is at a place, and
    /// counts those in the field.
    pub(crate) fn store_cell(&mut self, corner: Place, cell: &Cell, value: u8) -> u64 {
        let mut stores = 0;
        let mut y = corner.y + Pixel(CELL_SIDE);
        for row in cell {
            y = y - Pixel(1);
            for column in 0..CELL_SIDE {
                if row & LEFTMOST >> column != 0 {
                    let x = corner.x + Pixel(column);
                    stores += u64::from(self.store(Place { x, y }, value));
                }
            }
        }
        stores
    }
}

/// Sets every pixel to 0.
pub fn clear(image: &mut [u8]) -> Answer {
    Answer::from(Image::lend(image).map(|image| image.bytes.fill(0)))
}

/// The digit stored at a pixel; a refused call gives 0 for it.
pub fn read_pixel(image: &[u8], x: Pixel, y: Pixel) -> (Answer, u8) {
    if image.len() != IMAGE_BYTES {
        return (Answer::Refused(Door::ImageSize), 0);
    }
    match locate(Place { x, y }) {
        Some((byte, shift)) => (Answer::Done, image[byte] >> shift & DIGIT),
        None => (Answer::Refused(Door::OutsideField), 0),
    }
}

/// The byte of a pixel and the shift of its digit there, if it is in the field.
pub(crate) fn locate(place: Place) -> Option<(usize, u32)> {
    let (x, y) = (place.x.0, place.y.0);
    if !(0..SIDE).contains(&x) || !(0..SIDE).contains(&y) {
        return None;
    }
    let byte = (SIDE * y + x) / PIXELS_IN_BYTE;
    let shift = DIGIT_BITS * (x % PIXELS_IN_BYTE);
    Some((byte as usize, shift as u32))
}

#[cfg(test)]
mod tests {
    use super::*;

    fn place(x: i64, y: i64) -> Place {
        Place {
            x: Pixel(x),
            y: Pixel(y),
        }
    }

    #[test]
    fn digits_run_lowest_first_and_rows_are_128_bytes() {
        assert_eq!(locate(place(0, 0)), Some((0, 0)));
        assert_eq!(locate(place(3, 0)), Some((0, 6)));
        assert_eq!(locate(place(4, 0)), Some((1, 0)));
        assert_eq!(locate(place(511, 0)), Some((127, 6)));
        assert_eq!(locate(place(0, 1)), Some((128, 0)));
        assert_eq!(locate(place(511, 511)), Some((65_535, 6)));
    }

    #[test]
    fn a_store_replaces_one_digit_and_touches_nothing_else() {
        for value in 0..4 {
            let mut bytes = vec![0b_01_10_11_01; IMAGE_BYTES];
            let mut image = Image::lend(&mut bytes).expect("the size is right");
            assert!(image.store(place(6, 2), value));
            let mut expected = vec![0b_01_10_11_01; IMAGE_BYTES];
            expected[257] = 0b_01_00_11_01 | value << 4;
            assert!(bytes == expected, "value {}", value);
        }
    }

    #[test]
    fn a_cell_has_its_top_row_first_and_its_lower_left_at_the_corner() {
        let mut bytes = vec![0b_01_10_11_01; IMAGE_BYTES];
        let mut image = Image::lend(&mut bytes).expect("the size is right");
        // Columns 0 and 7 of the top row, column 4 of the fourth, column 1 of the lowest.
        let cell = [0x81, 0, 0, 0x08, 0, 0, 0, 0x40];
        assert_eq!(image.store_cell(place(5, 2), &cell, 2), 4);
        let mut expected = vec![0b_01_10_11_01; IMAGE_BYTES];
        for (x, y) in [(5, 9), (12, 9), (9, 6), (6, 2)] {
            let (byte, shift) = locate(place(x, y)).expect("in the field");
            expected[byte] = expected[byte] & !(3 << shift) | 2 << shift;
        }
        assert!(bytes == expected);
    }

    #[test]
    fn a_cell_is_cut_at_the_edges_of_the_field() {
        let mut bytes = vec![0; IMAGE_BYTES];
        let mut image = Image::lend(&mut bytes).expect("the size is right");
        for (x, y, stores) in [
            (-8, 0, 0),
            (-7, 0, 8),
            (-3, -2, 30),
            (0, -7, 8),
            (0, -8, 0),
            (504, 504, 64),
            (505, 504, 56),
            (511, 511, 1),
            (512, 504, 0),
            (504, 512, 0),
        ] {
            let stored = image.store_cell(place(x, y), &[0xFF; 8], 3);
            assert_eq!(stored, stores, "({}, {})", x, y);
        }
    }

    #[test]
    fn a_store_beyond_the_field_touches_nothing() {
        let mut bytes = vec![0; IMAGE_BYTES];
        let mut image = Image::lend(&mut bytes).expect("the size is right");
        for (x, y) in [(-1, 0), (0, -1), (512, 0), (0, 512), (-1, 1), (512, 511)] {
            assert!(!image.store(place(x, y), 3), "({}, {})", x, y);
        }
        assert!(bytes.iter().all(|&byte| byte == 0));
    }
}
