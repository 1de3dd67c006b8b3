//! The stores of a run, one after the other.

use crate::answer::Answer;
use crate::characters::{self, Set, ADVANCE};
use crate::file::File;
use crate::image::{read_pixel, IMAGE_BYTES};
use crate::machine::Machine;
use crate::run::step;
use crate::unit::{Place, Position};
use crate::vector;
use crate::word::{self, First, Instruction, Mode};

const CHARACTERS: u8 = 0;
const SHORT_VECTOR: u8 = 1;
const LONG_VECTOR: u8 = 2;
const GRAPH_X: u8 = 4;
const GRAPH_Y: u8 = 5;

/// The pixel of each store of a run on a blank image, in the order of the stores.
///
/// A run says how many stores a step made. Which ones they are follows from the mode, and from
/// where the step began and ended; of characters, from where it began and the codes of the word.
pub fn stores(words: &[u16], machine: Machine, budget: u64, set: &[u8]) -> Vec<Place> {
    let mut image = vec![0; IMAGE_BYTES];
    let mut before = machine;
    let mut places = Vec::new();
    for _ in 0..budget {
        let outcome = step(words, before, &mut image, set);
        if outcome.stores > 0 {
            let item = match before.mode {
                CHARACTERS => cells(words, before, set),
                _ => item(before, outcome.machine),
            };
            places.extend(item.into_iter().filter(|place| in_field(&image, place)));
        }
        if outcome.answer != Answer::Done {
            break;
        }
        before = outcome.machine;
    }
    places
}

/// The pixels of the point or the vector that a step drew, in the field or not.
fn item(before: Machine, after: Machine) -> Vec<Place> {
    let point = |x, y| Position { x, y }.place();
    let from = point(before.x, before.y);
    let to = point(after.x, after.y);
    match before.mode {
        SHORT_VECTOR | LONG_VECTOR => vector::pixels(from, to).collect(),
        GRAPH_X => vec![point(after.x, before.y)],
        GRAPH_Y => vec![point(before.x, after.y)],
        _ => vec![to],
    }
}

/// The same for the two characters of a step.
fn cells(words: &[u16], before: Machine, set: &[u8]) -> Vec<Place> {
    let file = File::open(words).expect("the step took the file");
    let set = Set::choose(set).expect("the step took the set");
    let word = file.fetch(before.counter).expect("the step had its word");
    let codes = match word::decode(word, Some(Mode::Characters)) {
        Ok(First::Whole(Instruction::Characters { codes })) => codes,
        other => unreachable!("the step drew characters, not {:?}", other),
    };
    let mut at = Position {
        x: before.x,
        y: before.y,
    };
    let mut places = Vec::new();
    for code in codes {
        places.extend(characters::pixels(at.place(), set.cell(code)));
        at.x = at.x + ADVANCE;
    }
    places
}

fn in_field(image: &[u8], place: &Place) -> bool {
    read_pixel(image, place.x, place.y).0 == Answer::Done
}
