//! The pixels of a vector, by a running remainder in place of a division for each pixel.
//!
//! A second yardstick: bench/run builds second/ once more with this file in place of src/vector.rs.

use crate::unit::{Pixel, Place};

/// The pixels from one end to the other, both included, in the order of drawing.
///
/// The longer axis goes pixel by pixel. The other coordinate is the nearest one
/// to the line, and of two equally near the higher, whichever way the vector
/// runs.
pub fn pixels(from: Place, to: Place) -> impl Iterator<Item = Place> {
    let dx = (to.x - from.x).0;
    let dy = (to.y - from.y).0;
    let n = dx.abs().max(dy.abs());
    let x_is_longer = dx.abs() == n;
    let shorter = if x_is_longer { dy } else { dx };
    let mut next = from;
    // Below 0, how far the line is from where the other coordinate moves on, in parts of which a
    // pixel has 2n. That is half a pixel at first, and one part more where the vector goes down, as
    // at a half it does not move on yet.
    let mut remainder = if shorter < 0 { -n - 1 } else { -n };
    (0..n + 1).map(move |_| {
        let place = next;
        remainder += 2 * shorter.abs();
        let moves = remainder >= 0;
        if moves {
            remainder -= 2 * n;
        }
        if x_is_longer {
            next.x = next.x + Pixel(dx.signum());
            if moves {
                next.y = next.y + Pixel(dy.signum());
            }
        } else {
            next.y = next.y + Pixel(dy.signum());
            if moves {
                next.x = next.x + Pixel(dx.signum());
            }
        }
        place
    })
}

#[cfg(test)]
mod tests {
    use super::*;

    /// The definition: of a coordinate that goes by `d` in `n` steps, what it has gone by after `i` of
    /// them is the whole number nearest to i * d / n, and at a half the higher one.
    fn nearest(i: i64, d: i64, n: i64) -> i64 {
        (2 * i * d + n).div_euclid(2 * n)
    }

    fn place(x: i64, y: i64) -> Place {
        Place {
            x: Pixel(x),
            y: Pixel(y),
        }
    }

    /// The longer axis is under the same rule, as i * n / n is a whole number.
    fn compare(x: i64, y: i64, dx: i64, dy: i64) {
        let n = dx.abs().max(dy.abs());
        let walked: Vec<Place> = pixels(place(x, y), place(x + dx, y + dy)).collect();
        let defined: Vec<Place> = (0..=n)
            .map(|i| match n {
                0 => place(x, y),
                _ => place(x + nearest(i, dx, n), y + nearest(i, dy, n)),
            })
            .collect();
        assert_eq!(walked, defined, "from {}, {} by {}, {}", x, y, dx, dy);
    }

    #[test]
    fn every_vector_of_a_square_has_the_pixels_of_the_definition() {
        for dx in -40..=40 {
            for dy in -40..=40 {
                compare(-3, 5, dx, dy);
            }
        }
    }

    #[test]
    fn the_longest_vectors_have_the_pixels_of_the_definition() {
        for d in (-4_095..=4_095).step_by(39) {
            for end in [-4_095, 4_095] {
                compare(0, 0, end, d);
                compare(0, 0, d, end);
            }
        }
    }

    #[test]
    fn a_vector_to_where_it_begins_is_one_pixel() {
        let walked: Vec<Place> = pixels(place(7, -2), place(7, -2)).collect();
        assert_eq!(walked, [place(7, -2)]);
    }
}
