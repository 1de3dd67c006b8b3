//! The numbered answers: what a call says about how it went.

/// Why a call was turned away before it changed anything.
#[derive(Clone, Copy, Debug, PartialEq, Eq)]
pub enum Door {
    ImageSize = 11,
    FileTooShort = 12,
    Tag = 13,
    SegmentCount = 14,
    SegmentBounds = 15,
    MachineField = 16,
    Budget = 17,
    CharacterSet = 18,
    PlotInput = 19,
    NotRunning = 28,
    OutsideField = 31,
}

/// Why an instruction was turned away; the number stays behind as the status.
#[derive(Clone, Copy, Debug, PartialEq, Eq)]
pub enum Fault {
    OddAddress = 21,
    NoSuchSegment = 22,
    PastSegmentEnd = 23,
    CodeNotBuilt = 24,
    NoMode = 25,
    SecondWord = 26,
    PositionRange = 27,
    CharacterCode = 32,
}

/// The outcome of a call.
#[derive(Clone, Copy, Debug, PartialEq, Eq)]
pub enum Answer {
    Done,
    Stopped,
    StoppedWithInterrupt,
    Faulted(Fault),
    Refused(Door),
}

impl Answer {
    pub fn number(self) -> u8 {
        match self {
            Answer::Done => 0,
            Answer::Stopped => 1,
            Answer::StoppedWithInterrupt => 2,
            Answer::Faulted(fault) => fault as u8,
            Answer::Refused(door) => door as u8,
        }
    }
}

impl From<Result<(), Door>> for Answer {
    fn from(result: Result<(), Door>) -> Answer {
        match result {
            Ok(()) => Answer::Done,
            Err(door) => Answer::Refused(door),
        }
    }
}
