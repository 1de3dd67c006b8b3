//! The machine: the plain record that callers hold, and its checked form.

use crate::answer::{Answer, Door, Fault};
use crate::unit::{Position, Unit};
use crate::word::Mode;

/// The mode number of a machine that has no mode.
pub const NO_MODE: u8 = 255;

const RUNNING: u8 = 0;
const HIGHEST_VALUE: u8 = 3;
const HIGHEST_INCREMENT: u8 = 63;

/// The machine as callers keep it. Its numbers may be out of range; the calls check.
#[derive(Clone, Copy, Debug, PartialEq, Eq)]
pub struct Machine {
    pub counter: u16,
    pub x: Unit,
    pub y: Unit,
    /// 0 to 6, or `NO_MODE`.
    pub mode: u8,
    /// The pixel value, 0 to 3.
    pub value: u8,
    /// 0 for off, 1 for on.
    pub write: u8,
    /// The stop-interrupt latch, 0 for off, 1 for on.
    pub latch: u8,
    /// The graph increment, 0 to 63.
    pub increment: u8,
    /// 0 while it runs, 1 or 2 after a stop without or with interrupt, 21 to 27 or 32 after a
    /// refusal.
    pub status: u8,
}

/// A machine that has done nothing yet.
pub fn fresh() -> Machine {
    Machine {
        counter: 0,
        x: Unit(0),
        y: Unit(0),
        mode: NO_MODE,
        value: HIGHEST_VALUE,
        write: 1,
        latch: 0,
        increment: 0,
        status: RUNNING,
    }
}

/// Sets a machine running at an address, whatever ended its last run.
pub fn start(machine: Machine, address: u16) -> (Answer, Machine) {
    match State::try_from(machine) {
        Ok(_) => {
            let started = Machine {
                counter: address,
                status: RUNNING,
                ..machine
            };
            (Answer::Done, started)
        }
        Err(door) => (Answer::Refused(door), machine),
    }
}

#[derive(Clone, Copy, Debug, PartialEq, Eq)]
pub(crate) enum Status {
    Running,
    Stopped,
    StoppedWithInterrupt,
    Faulted(Fault),
}

/// A machine whose every field is in range.
#[derive(Clone, Copy, Debug, PartialEq, Eq)]
pub(crate) struct State {
    pub(crate) counter: u16,
    pub(crate) position: Position,
    pub(crate) mode: Option<Mode>,
    pub(crate) value: u8,
    pub(crate) write: bool,
    pub(crate) latch: bool,
    pub(crate) increment: u8,
    pub(crate) status: Status,
}

impl TryFrom<Machine> for State {
    type Error = Door;

    fn try_from(machine: Machine) -> Result<State, Door> {
        Ok(State {
            counter: machine.counter,
            position: position(machine.x, machine.y)?,
            mode: mode(machine.mode)?,
            value: at_most(HIGHEST_VALUE, machine.value)?,
            write: switch(machine.write)?,
            latch: switch(machine.latch)?,
            increment: at_most(HIGHEST_INCREMENT, machine.increment)?,
            status: Status::from_number(machine.status)?,
        })
    }
}

impl From<State> for Machine {
    fn from(state: State) -> Machine {
        Machine {
            counter: state.counter,
            x: state.position.x,
            y: state.position.y,
            mode: state.mode.map_or(NO_MODE, Mode::number),
            value: state.value,
            write: u8::from(state.write),
            latch: u8::from(state.latch),
            increment: state.increment,
            status: Answer::from(state.status).number(),
        }
    }
}

impl Status {
    fn from_number(number: u8) -> Result<Status, Door> {
        Ok(match number {
            RUNNING => Status::Running,
            1 => Status::Stopped,
            2 => Status::StoppedWithInterrupt,
            21 => Status::Faulted(Fault::OddAddress),
            22 => Status::Faulted(Fault::NoSuchSegment),
            23 => Status::Faulted(Fault::PastSegmentEnd),
            24 => Status::Faulted(Fault::CodeNotBuilt),
            25 => Status::Faulted(Fault::NoMode),
            26 => Status::Faulted(Fault::SecondWord),
            27 => Status::Faulted(Fault::PositionRange),
            32 => Status::Faulted(Fault::CharacterCode),
            _ => return Err(Door::MachineField),
        })
    }
}

impl From<Status> for Answer {
    fn from(status: Status) -> Answer {
        match status {
            Status::Running => Answer::Done,
            Status::Stopped => Answer::Stopped,
            Status::StoppedWithInterrupt => Answer::StoppedWithInterrupt,
            Status::Faulted(fault) => Answer::Faulted(fault),
        }
    }
}

fn position(x: Unit, y: Unit) -> Result<Position, Door> {
    let position = Position { x, y };
    if position.in_range() {
        Ok(position)
    } else {
        Err(Door::MachineField)
    }
}

fn mode(number: u8) -> Result<Option<Mode>, Door> {
    if number == NO_MODE {
        return Ok(None);
    }
    let mode = Mode::from_number(number).ok_or(Door::MachineField)?;
    Ok(Some(mode))
}

fn at_most(highest: u8, number: u8) -> Result<u8, Door> {
    if number <= highest {
        Ok(number)
    } else {
        Err(Door::MachineField)
    }
}

fn switch(number: u8) -> Result<bool, Door> {
    match number {
        0 => Ok(false),
        1 => Ok(true),
        _ => Err(Door::MachineField),
    }
}

#[cfg(test)]
mod tests {
    use super::*;

    #[test]
    fn the_record_and_its_checked_form_hold_the_same() {
        for status in [0, 1, 2, 21, 22, 23, 24, 25, 26, 27, 32] {
            for mode in [NO_MODE, 0, 1, 2, 3, 4, 5, 6] {
                for switches in 0..4 {
                    let machine = Machine {
                        counter: 65_535,
                        x: Unit(-4_096),
                        y: Unit(4_095),
                        mode,
                        value: 2,
                        write: switches / 2,
                        latch: switches % 2,
                        increment: 63,
                        status,
                    };
                    assert_eq!(State::try_from(machine).map(Machine::from), Ok(machine));
                }
            }
        }
    }
}
