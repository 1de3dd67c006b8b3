//! The program `plot`: from the bytes of a file to the printed line.

use std::fmt;

use crate::answer::{Answer, Door};
use crate::image::IMAGE_BYTES;
use crate::machine::fresh;
use crate::picture::words;
use crate::run::run;
use crate::stores::stores;
use crate::unit::Place;

/// The most bytes a file may have.
pub const INPUT_LIMIT: usize = 65_536;

const BUDGET: u64 = 1_000;

/// The seven numbers of the printed line.
#[derive(Clone, Copy, Debug, PartialEq, Eq)]
pub struct Line {
    pub answer: u8,
    pub steps: u64,
    pub words: u64,
    pub stores: u64,
    pub counter: u16,
    pub x: i64,
    pub y: i64,
}

/// Runs a fresh machine on the file that the bytes spell, with the built-in characters.
pub fn plot(bytes: &[u8]) -> Line {
    if bytes.len() % 2 == 1 || bytes.len() > INPUT_LIMIT {
        return Line::refused(Door::PlotInput);
    }
    let words: Vec<u16> = bytes
        .chunks_exact(2)
        .map(|pair| u16::from_le_bytes([pair[0], pair[1]]))
        .collect();
    let mut image = vec![0; IMAGE_BYTES];
    let outcome = run(&words, fresh(), &mut image, BUDGET, &[]);
    if let Answer::Refused(door) = outcome.answer {
        return Line::refused(door);
    }
    Line {
        answer: outcome.answer.number(),
        steps: outcome.steps,
        words: outcome.words,
        stores: outcome.stores,
        counter: outcome.machine.counter,
        x: outcome.machine.x.0,
        y: outcome.machine.y.0,
    }
}

/// The pixels that this run stores, one for each store, in the order of the stores.
pub fn stored(bytes: &[u8]) -> Vec<Place> {
    match words(bytes) {
        Some(words) => stores(&words, fresh(), BUDGET, &[]),
        None => Vec::new(),
    }
}

impl Line {
    fn refused(door: Door) -> Line {
        Line {
            answer: Answer::Refused(door).number(),
            steps: 0,
            words: 0,
            stores: 0,
            counter: 0,
            x: 0,
            y: 0,
        }
    }
}

impl fmt::Display for Line {
    fn fmt(&self, f: &mut fmt::Formatter) -> fmt::Result {
        write!(
            f,
            "{} {} {} {} {} {} {}",
            self.answer, self.steps, self.words, self.stores, self.counter, self.x, self.y
        )
    }
}
