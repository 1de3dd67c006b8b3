//! The instruction words: from one or two of them to an instruction.

use crate::answer::Fault;
use crate::characters::Code;
use crate::unit::{Position, Unit};

/// How words with bit 15 clear are taken.
#[derive(Clone, Copy, Debug, PartialEq, Eq)]
pub(crate) enum Mode {
    Characters = 0,
    ShortVector = 1,
    LongVector = 2,
    AbsolutePoint = 3,
    GraphX = 4,
    GraphY = 5,
    RelativePoint = 6,
}

/// A whole instruction. A setting that the word leaves alone is `None`.
#[derive(Clone, Copy, Debug, PartialEq, Eq)]
pub(crate) enum Instruction {
    SetMode { mode: Mode, value: Option<u8> },
    Jump { target: u16 },
    NoOp,
    StatusA { latch: Option<bool>, stop: bool },
    GraphIncrement { increment: Option<u8> },
    StatusC { write: Option<bool> },
    Characters { codes: [Code; 2] },
    Vector { lit: bool, dx: Unit, dy: Unit },
    AbsolutePoint { lit: bool, at: Position },
    GraphX { lit: bool, x: Unit },
    GraphY { lit: bool, y: Unit },
    RelativePoint { lit: bool, dx: Unit, dy: Unit },
}

/// What the first word tells.
#[derive(Clone, Copy, Debug, PartialEq, Eq)]
pub(crate) enum First {
    Whole(Instruction),
    Half(Half),
}

/// The first half of an instruction of two words.
#[derive(Clone, Copy, Debug, PartialEq, Eq)]
pub(crate) enum Half {
    Jump,
    LongVector { lit: bool, dx: Unit },
    AbsolutePoint { lit: bool, x: Unit },
}

impl Mode {
    pub(crate) fn from_number(number: u8) -> Option<Mode> {
        match number {
            0 => Some(Mode::Characters),
            1 => Some(Mode::ShortVector),
            2 => Some(Mode::LongVector),
            3 => Some(Mode::AbsolutePoint),
            4 => Some(Mode::GraphX),
            5 => Some(Mode::GraphY),
            6 => Some(Mode::RelativePoint),
            _ => None,
        }
    }

    pub(crate) fn number(self) -> u8 {
        self as u8
    }
}

/// Takes an instruction's first word apart.
pub(crate) fn decode(word: u16, mode: Option<Mode>) -> Result<First, Fault> {
    if bit(word, 15) {
        return control(word);
    }
    match mode {
        Some(mode) => data(word, mode),
        None => Err(Fault::NoMode),
    }
}

impl Half {
    /// Joins the second word to the first.
    pub(crate) fn complete(self, second: u16) -> Result<Instruction, Fault> {
        match self {
            // The target is a bare address, not a data word, so its bit 15 is free.
            Half::Jump => Ok(Instruction::Jump { target: second }),
            _ if bit(second, 15) => Err(Fault::SecondWord),
            Half::LongVector { lit, dx } => Ok(Instruction::Vector {
                lit,
                dx,
                dy: long_move(second),
            }),
            Half::AbsolutePoint { lit, x } => Ok(Instruction::AbsolutePoint {
                lit,
                at: Position {
                    x,
                    y: coordinate(second),
                },
            }),
        }
    }
}

fn control(word: u16) -> Result<First, Fault> {
    let code = small(word, 14, 11);
    let instruction = match code {
        12 => return Ok(First::Half(Half::Jump)),
        13 => Instruction::NoOp,
        14 => Instruction::StatusA {
            latch: when(bit(word, 9), bit(word, 8)),
            stop: bit(word, 10),
        },
        15 if bit(word, 10) => Instruction::StatusC {
            write: when(small(word, 9, 8) == 0, bit(word, 4)),
        },
        15 => Instruction::GraphIncrement {
            increment: when(bit(word, 6), small(word, 5, 0)),
        },
        _ => Instruction::SetMode {
            mode: Mode::from_number(code).ok_or(Fault::CodeNotBuilt)?,
            value: when(bit(word, 10), small(word, 9, 8)),
        },
    };
    Ok(First::Whole(instruction))
}

fn data(word: u16, mode: Mode) -> Result<First, Fault> {
    let lit = bit(word, 14);
    let (dx, dy) = short_moves(word);
    let instruction = match mode {
        // Bit 14 belongs to the second code here: every character is lit.
        Mode::Characters => Instruction::Characters {
            codes: [character(word, 6, 0)?, character(word, 14, 8)?],
        },
        Mode::ShortVector => Instruction::Vector { lit, dx, dy },
        Mode::LongVector => {
            let dx = long_move(word);
            return Ok(First::Half(Half::LongVector { lit, dx }));
        }
        Mode::AbsolutePoint => {
            let x = coordinate(word);
            return Ok(First::Half(Half::AbsolutePoint { lit, x }));
        }
        Mode::GraphX => Instruction::GraphX {
            lit,
            x: coordinate(word),
        },
        Mode::GraphY => Instruction::GraphY {
            lit,
            y: coordinate(word),
        },
        Mode::RelativePoint => Instruction::RelativePoint { lit, dx, dy },
    };
    Ok(First::Whole(instruction))
}

fn character(word: u16, high: u32, low: u32) -> Result<Code, Fault> {
    Code::from_number(small(word, high, low)).ok_or(Fault::CharacterCode)
}

fn short_moves(word: u16) -> (Unit, Unit) {
    (
        signed(bit(word, 13), field(word, 12, 7)),
        signed(bit(word, 6), field(word, 5, 0)),
    )
}

pub(crate) fn long_move(word: u16) -> Unit {
    signed(bit(word, 13), field(word, 9, 0))
}

pub(crate) fn coordinate(word: u16) -> Unit {
    Unit(i64::from(field(word, 9, 0)))
}

pub(crate) fn signed(negative: bool, size: u16) -> Unit {
    let size = i64::from(size);
    Unit(if negative { -size } else { size })
}

fn when<T>(named: bool, setting: T) -> Option<T> {
    if named {
        Some(setting)
    } else {
        None
    }
}

fn bit(word: u16, number: u32) -> bool {
    field(word, number, number) == 1
}

fn field(word: u16, high: u32, low: u32) -> u16 {
    word >> low & u16::MAX >> (15 - (high - low))
}

/// A field of eight bits or fewer.
fn small(word: u16, high: u32, low: u32) -> u8 {
    field(word, high, low) as u8
}

#[cfg(test)]
mod tests {
    use super::*;

    fn whole(word: u16, mode: u8) -> Instruction {
        match decode(word, Mode::from_number(mode)) {
            Ok(First::Whole(instruction)) => instruction,
            other => panic!("{:o} gives {:?}", word, other),
        }
    }

    #[test]
    fn moves_are_sign_and_magnitude() {
        let (lit, dx, dy) = (true, Unit(5), Unit(-3));
        assert_eq!(whole(0o041303, 1), Instruction::Vector { lit, dx, dy });
        assert_eq!(
            whole(0o041303, 6),
            Instruction::RelativePoint { lit, dx, dy }
        );
        let (lit, dx, dy) = (false, Unit(0), Unit(0));
        assert_eq!(whole(0o020100, 1), Instruction::Vector { lit, dx, dy });
    }

    #[test]
    fn only_data_words_of_two_mind_bit_15_of_the_second() {
        let (lit, dx, x) = (true, Unit(-1), Unit(1));
        for second in [0o100000, 0o177777] {
            let jump = Instruction::Jump { target: second };
            assert_eq!(Half::Jump.complete(second), Ok(jump));
            let refused = Err(Fault::SecondWord);
            assert_eq!(Half::LongVector { lit, dx }.complete(second), refused);
            assert_eq!(Half::AbsolutePoint { lit, x }.complete(second), refused);
        }
    }

    #[test]
    fn a_character_word_holds_two_codes_and_bit_7_is_not_read() {
        for first in 0..128 {
            for second in 0..128 {
                let codes = (Code::from_number(first), Code::from_number(second));
                let expected = match codes {
                    (Some(first), Some(second)) => Ok(First::Whole(Instruction::Characters {
                        codes: [first, second],
                    })),
                    _ => Err(Fault::CharacterCode),
                };
                let word = u16::from(second) << 8 | u16::from(first);
                for word in [word, word | 1 << 7] {
                    assert_eq!(decode(word, Some(Mode::Characters)), expected, "{:o}", word);
                }
            }
        }
    }

    #[test]
    fn fields_are_cut_out_whole() {
        assert_eq!(field(0o177777, 15, 0), 0o177777);
        assert_eq!(field(0o152525, 12, 7), 0o52);
        assert_eq!(field(0o001000, 9, 9), 1);
        assert_eq!(field(0o176777, 9, 9), 0);
    }
}
