//! The fault of the interpreter that was bought before: in the graph modes it stepped along the axis
//! first and plotted then, so that every point stood one increment too far.

use crate::answer::Answer;
use crate::file::File;
use crate::image::IMAGE_BYTES;
use crate::machine::{fresh, Machine};
use crate::picture::{pgm, words};
use crate::run::{step, Outcome};
use crate::unit::Unit;

const GRAPH_X: u8 = 4;
const GRAPH_Y: u8 = 5;
/// Set in every word that is no data word.
const CONTROL: u16 = 1 << 15;

/// The screen of a display file as that interpreter drew it in so many steps. Characters, which it
/// did not have, are the built-in ones.
pub fn fault(bytes: &[u8], budget: u64) -> Vec<u8> {
    let mut image = vec![0; IMAGE_BYTES];
    if let Some(words) = words(bytes) {
        run_late(&words, &mut image, budget);
    }
    pgm(&image)
}

fn run_late(words: &[u16], image: &mut [u8], budget: u64) {
    let mut machine = fresh();
    for _ in 0..budget {
        let outcome = step_late(words, machine, image);
        if outcome.answer != Answer::Done {
            return;
        }
        machine = outcome.machine;
    }
}

/// A point of a graph is plotted where the growth has already led, and then nothing grows.
fn step_late(words: &[u16], machine: Machine, image: &mut [u8]) -> Outcome {
    let growth = Unit(i64::from(machine.increment));
    let (x, y) = match machine.mode {
        GRAPH_X if is_data(words, machine.counter) => (machine.x, machine.y + growth),
        GRAPH_Y if is_data(words, machine.counter) => (machine.x + growth, machine.y),
        _ => return step(words, machine, image, &[]),
    };
    let grown = Machine {
        x,
        y,
        increment: 0,
        ..machine
    };
    let mut outcome = step(words, grown, image, &[]);
    outcome.machine.increment = machine.increment;
    outcome
}

fn is_data(words: &[u16], counter: u16) -> bool {
    let word = File::open(words)
        .ok()
        .and_then(|file| file.fetch(counter).ok());
    word.map_or(false, |word| word & CONTROL == 0)
}

#[cfg(test)]
mod tests {
    use super::*;
    use crate::cases::bytes_of;
    use crate::picture::{picture, USUAL_BUDGET};

    /// The pixels that are lit, by column and row, from the lower left.
    fn lit(picture: &[u8]) -> Vec<(usize, usize)> {
        let body = picture[13..].iter().enumerate();
        let places = body.filter(|&(_, &digit)| digit != 0);
        places.map(|(at, _)| (at % 512, 511 - at / 512)).collect()
    }

    /// A file that sets the position to (10, 20) and the increment to 6, then plots two points.
    fn graph(mode: u16) -> Vec<u8> {
        let head = [1, 1, 4, 8, 0o114000, 10, 20, 0o174106];
        bytes_of(&[&head[..], &[mode, 0o040100, 0o040200, 0o172000][..]].concat())
    }

    #[test]
    fn graph_y_is_one_increment_too_far_right() {
        let bytes = graph(0o124000);
        assert_eq!(lit(&picture(&bytes, USUAL_BUDGET, &[])), [(8, 64), (5, 32)]);
        assert_eq!(lit(&fault(&bytes, USUAL_BUDGET)), [(11, 64), (8, 32)]);
    }

    #[test]
    fn graph_x_is_one_increment_too_high() {
        let bytes = graph(0o120000);
        assert_eq!(
            lit(&picture(&bytes, USUAL_BUDGET, &[])),
            [(64, 13), (32, 10)]
        );
        assert_eq!(lit(&fault(&bytes, USUAL_BUDGET)), [(64, 16), (32, 13)]);
    }

    #[test]
    fn without_a_graph_nothing_differs() {
        let bytes = bytes_of(&[1, 1, 4, 4, 0o113400, 0o040006, 4, 0o172000]);
        for budget in [0, 1, 2, USUAL_BUDGET] {
            assert_eq!(fault(&bytes, budget), picture(&bytes, budget, &[]));
        }
    }

    #[test]
    fn a_budget_cuts_the_graph_where_its_last_step_ends() {
        // the two points are steps 5 and 6
        let bytes = graph(0o124000);
        let points = [(8, 32), (11, 64)];
        for (budget, count) in [(0, 0), (4, 0), (5, 1), (6, 2), (1_000, 2)] {
            let mut drawn = lit(&fault(&bytes, budget));
            drawn.reverse();
            assert_eq!(drawn, points[..count], "{}", budget);
        }
    }
}
