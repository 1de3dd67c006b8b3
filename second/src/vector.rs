//! The pixels of a vector.

use crate::unit::{Pixel, Place};

/// The pixels from one end to the other, both included, in the order of drawing.
///
/// The longer axis goes pixel by pixel. The other coordinate is the nearest one
/// to the line, and of two equally near the higher, whichever way the vector
/// runs: that is why the reverse vector has the same pixels.
pub fn pixels(from: Place, to: Place) -> impl Iterator<Item = Place> {
    let dx = (to.x - from.x).0;
    let dy = (to.y - from.y).0;
    let n = dx.abs().max(dy.abs());
    let x_is_longer = dx.abs() == n;
    (0..n + 1).map(move |i| {
        let (across, up) = if n == 0 {
            (0, 0)
        } else if x_is_longer {
            (i * dx.signum(), nearest(i * dy, n))
        } else {
            (nearest(i * dx, n), i * dy.signum())
        };
        Place {
            x: from.x + Pixel(across),
            y: from.y + Pixel(up),
        }
    })
}

/// The whole number nearest to a fraction, the higher one at a half.
fn nearest(numerator: i64, denominator: i64) -> i64 {
    (2 * numerator + denominator).div_euclid(2 * denominator)
}

#[cfg(test)]
mod tests {
    use super::*;

    #[test]
    fn halves_go_up_on_both_sides_of_zero() {
        let cases = [
            (-5, 2, -2),
            (-3, 2, -1),
            (-1, 2, 0),
            (-2, 3, -1),
            (-1, 3, 0),
            (0, 1, 0),
            (1, 3, 0),
            (2, 3, 1),
            (1, 2, 1),
            (3, 2, 2),
            (5, 2, 3),
        ];
        for (numerator, denominator, whole) in cases {
            assert_eq!(
                nearest(numerator, denominator),
                whole,
                "{}/{}",
                numerator,
                denominator
            );
        }
    }
}
