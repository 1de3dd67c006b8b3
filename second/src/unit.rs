//! Display units and pixels: two kinds of count that only halving connects.

use std::ops::{Add, RangeInclusive, Sub};

use crate::answer::Fault;

/// Where the position may stand, on either axis.
const RANGE: RangeInclusive<i64> = -4_096..=4_095;

/// A coordinate or a distance in display units.
#[derive(Clone, Copy, Debug, PartialEq, Eq)]
pub struct Unit(pub i64);

/// A coordinate or a distance in pixels.
#[derive(Clone, Copy, Debug, PartialEq, Eq)]
pub struct Pixel(pub i64);

/// A point in display units.
#[derive(Clone, Copy, Debug, PartialEq, Eq)]
pub struct Position {
    pub x: Unit,
    pub y: Unit,
}

/// A point in pixels.
#[derive(Clone, Copy, Debug, PartialEq, Eq)]
pub struct Place {
    pub x: Pixel,
    pub y: Pixel,
}

impl Unit {
    /// Rounding down, rather than toward zero, keeps every pixel two units wide.
    pub fn pixel(self) -> Pixel {
        Pixel(self.0.div_euclid(2))
    }
}

impl Add for Unit {
    type Output = Unit;

    fn add(self, other: Unit) -> Unit {
        Unit(self.0 + other.0)
    }
}

impl Add for Pixel {
    type Output = Pixel;

    fn add(self, other: Pixel) -> Pixel {
        Pixel(self.0 + other.0)
    }
}

impl Sub for Pixel {
    type Output = Pixel;

    fn sub(self, other: Pixel) -> Pixel {
        Pixel(self.0 - other.0)
    }
}

impl Position {
    pub fn place(self) -> Place {
        Place {
            x: self.x.pixel(),
            y: self.y.pixel(),
        }
    }

    pub(crate) fn in_range(self) -> bool {
        RANGE.contains(&self.x.0) && RANGE.contains(&self.y.0)
    }

    pub(crate) fn moved(self, dx: Unit, dy: Unit) -> Result<Position, Fault> {
        let end = Position {
            x: self.x + dx,
            y: self.y + dy,
        };
        if end.in_range() {
            Ok(end)
        } else {
            Err(Fault::PositionRange)
        }
    }
}

#[cfg(test)]
mod tests {
    use super::*;

    #[test]
    fn units_round_down_to_their_pixel() {
        let cases = [
            (-4_096, -2_048),
            (-4_095, -2_048),
            (-4, -2),
            (-3, -2),
            (-2, -1),
            (-1, -1),
            (0, 0),
            (1, 0),
            (2, 1),
            (1_023, 511),
            (1_024, 512),
            (4_095, 2_047),
        ];
        for (unit, pixel) in cases {
            assert_eq!(Unit(unit).pixel(), Pixel(pixel), "unit {}", unit);
        }
    }

    #[test]
    fn both_axes_have_the_same_range() {
        for (number, inside) in [
            (-4_097, false),
            (-4_096, true),
            (4_095, true),
            (4_096, false),
        ] {
            let across = Position {
                x: Unit(number),
                y: Unit(0),
            };
            let up = Position {
                x: Unit(0),
                y: Unit(number),
            };
            assert_eq!(across.in_range(), inside, "X {}", number);
            assert_eq!(up.in_range(), inside, "Y {}", number);
        }
    }
}
