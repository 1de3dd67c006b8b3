//! Steps and runs: the doors in their order, then one instruction after another.

use crate::answer::{Answer, Door, Fault};
use crate::characters::{Code, Set, ADVANCE};
use crate::file::File;
use crate::image::Image;
use crate::machine::{Machine, State, Status};
use crate::unit::{Position, Unit};
use crate::vector;
use crate::word::{self, First, Instruction};

/// The largest budget a run takes.
pub const BUDGET_LIMIT: u64 = 1_000_000;

const WORD_BYTES: u16 = 2;

/// What a run hands back. The counts are over completed steps.
#[derive(Clone, Copy, Debug, PartialEq, Eq)]
pub struct Outcome {
    pub answer: Answer,
    pub steps: u64,
    pub words: u64,
    pub stores: u64,
    pub machine: Machine,
}

/// Carries out instructions until the budget is used up or the machine no longer runs. Characters
/// are those of the lent set; where it is empty, those of the built-in one.
pub fn run(words: &[u16], machine: Machine, image: &mut [u8], budget: u64, set: &[u8]) -> Outcome {
    match admit(words, machine, image, budget, set) {
        Ok((file, state, image, set)) => repeat(&file, state, image, budget, set),
        Err(door) => Outcome {
            answer: Answer::Refused(door),
            steps: 0,
            words: 0,
            stores: 0,
            machine,
        },
    }
}

/// Carries out one instruction.
pub fn step(words: &[u16], machine: Machine, image: &mut [u8], set: &[u8]) -> Outcome {
    run(words, machine, image, 1, set)
}

/// The doors of a run; the order of these lines is the order of the refusals.
fn admit<'a>(
    words: &'a [u16],
    machine: Machine,
    image: &'a mut [u8],
    budget: u64,
    set: &'a [u8],
) -> Result<(File<'a>, State, Image<'a>, Set<'a>), Door> {
    let image = Image::lend(image)?;
    let file = File::open(words)?;
    let state = State::try_from(machine)?;
    if budget > BUDGET_LIMIT {
        return Err(Door::Budget);
    }
    let set = Set::choose(set)?;
    if state.status != Status::Running {
        return Err(Door::NotRunning);
    }
    Ok((file, state, image, set))
}

fn repeat(file: &File, mut state: State, mut image: Image, budget: u64, set: Set) -> Outcome {
    let (mut steps, mut words, mut stores) = (0, 0, 0);
    while steps < budget && state.status == Status::Running {
        match prepare(file, state) {
            Ok(step) => {
                steps += 1;
                words += u64::from(step.words);
                stores += draw(&step, &mut image, set);
                state = step.state;
            }
            Err(fault) => state.status = Status::Faulted(fault),
        }
    }
    Outcome {
        answer: Answer::from(state.status),
        steps,
        words,
        stores,
        machine: Machine::from(state),
    }
}

/// A step that no check refuses any more, before anything is drawn.
struct Step {
    words: u16,
    state: State,
    item: Option<Item>,
}

/// What a lit instruction draws.
enum Item {
    Point(Position),
    Vector(Position, Position),
    /// Two characters, the first one at the position.
    Characters(Position, [Code; 2]),
}

fn prepare(file: &File, mut state: State) -> Result<Step, Fault> {
    let (instruction, words) = read(file, &state)?;
    state.counter = state.counter.wrapping_add(WORD_BYTES * words);
    let item = obey(instruction, &mut state)?;
    Ok(Step { words, state, item })
}

/// The instruction at the counter and the number of its words.
fn read(file: &File, state: &State) -> Result<(Instruction, u16), Fault> {
    let first = file.fetch(state.counter)?;
    match word::decode(first, state.mode)? {
        First::Whole(instruction) => Ok((instruction, 1)),
        First::Half(half) => {
            let second = file.fetch(state.counter.wrapping_add(WORD_BYTES))?;
            Ok((half.complete(second)?, 2))
        }
    }
}

fn obey(instruction: Instruction, state: &mut State) -> Result<Option<Item>, Fault> {
    let from = state.position;
    let growth = Unit(i64::from(state.increment));
    match instruction {
        Instruction::NoOp => Ok(None),
        Instruction::SetMode { mode, value } => {
            state.mode = Some(mode);
            state.value = value.unwrap_or(state.value);
            Ok(None)
        }
        Instruction::Jump { target } => {
            state.counter = target;
            Ok(None)
        }
        Instruction::StatusA { latch, stop } => {
            state.latch = latch.unwrap_or(state.latch);
            if stop {
                state.status = stopped(state.latch);
            }
            Ok(None)
        }
        Instruction::GraphIncrement { increment } => {
            state.increment = increment.unwrap_or(state.increment);
            Ok(None)
        }
        Instruction::StatusC { write } => {
            state.write = write.unwrap_or(state.write);
            Ok(None)
        }
        Instruction::Characters { codes } => {
            state.position = from.moved(ADVANCE + ADVANCE, Unit(0))?;
            Ok(Some(Item::Characters(from, codes)))
        }
        Instruction::Vector { lit, dx, dy } => {
            state.position = from.moved(dx, dy)?;
            Ok(lighted(lit, Item::Vector(from, state.position)))
        }
        Instruction::AbsolutePoint { lit, at } => {
            state.position = at;
            Ok(lighted(lit, Item::Point(at)))
        }
        // In both graph modes the point stands where the pen was before it grew.
        Instruction::GraphX { lit, x } => {
            let point = Position { x, ..from };
            state.position = point.moved(Unit(0), growth)?;
            Ok(lighted(lit, Item::Point(point)))
        }
        Instruction::GraphY { lit, y } => {
            let point = Position { y, ..from };
            state.position = point.moved(growth, Unit(0))?;
            Ok(lighted(lit, Item::Point(point)))
        }
        Instruction::RelativePoint { lit, dx, dy } => {
            state.position = from.moved(dx, dy)?;
            Ok(lighted(lit, Item::Point(state.position)))
        }
    }
}

fn stopped(latch: bool) -> Status {
    if latch {
        Status::StoppedWithInterrupt
    } else {
        Status::Stopped
    }
}

fn lighted(lit: bool, item: Item) -> Option<Item> {
    if lit {
        Some(item)
    } else {
        None
    }
}

/// Stores a step's item and counts the stores.
fn draw(step: &Step, image: &mut Image, set: Set) -> u64 {
    if !step.state.write {
        return 0;
    }
    let value = step.state.value;
    match step.item {
        None => 0,
        Some(Item::Point(at)) => u64::from(image.store(at.place(), value)),
        Some(Item::Vector(from, to)) => vector::pixels(from.place(), to.place())
            .map(|place| u64::from(image.store(place, value)))
            .sum(),
        Some(Item::Characters(mut at, codes)) => {
            let mut stores = 0;
            for code in codes {
                stores += image.store_cell(at.place(), set.cell(code), value);
                at.x = at.x + ADVANCE;
            }
            stores
        }
    }
}
