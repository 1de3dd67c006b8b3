//! Every word layout twice: with all its named bits and no other, and the other way about.

use second::{step, Machine, Outcome, Unit};

use crate::support::*;

/// A machine on which every setting shows.
fn before(mode: u8) -> Machine {
    Machine {
        counter: 0,
        x: Unit(500),
        y: Unit(300),
        mode,
        value: 1,
        write: 1,
        latch: 0,
        increment: 5,
        status: 0,
    }
}

/// Takes one step and checks the answer and the words it took.
fn after(machine: Machine, words: &[u16]) -> (Outcome, Machine) {
    let outcome = run_on_blank(words, machine, 1).0;
    assert_eq!(outcome.answer.number(), outcome.machine.status);
    (outcome, outcome.machine)
}

/// As `after`, for a word that is completed and leaves the machine running.
fn running(machine: Machine, words: &[u16]) -> Machine {
    let (outcome, left) = after(machine, words);
    assert_eq!((outcome.answer.number(), outcome.steps), (0, 1));
    assert_eq!(outcome.words, words.len() as u64);
    left
}

#[test]
fn set_mode() {
    for mode in 0..=6_u8 {
        let word = 0o100000 | u16::from(mode) << 11;
        let left = running(before(1), &[word | 0o003400]);
        let expected = Machine {
            counter: 2,
            value: 3,
            ..before(mode)
        };
        assert_eq!(left, expected);
        let left = running(before(1), &[word | 0o000377]);
        let expected = Machine {
            counter: 2,
            ..before(mode)
        };
        assert_eq!(left, expected);
    }
}

#[test]
fn set_mode_takes_bit_9_as_the_higher_and_needs_bit_10() {
    for (bits, value) in [(0o2000, 0), (0o2400, 1), (0o3000, 2), (0o3400, 3)] {
        for old in 0..=3 {
            let machine = Machine {
                value: old,
                ..before(1)
            };
            assert_eq!(running(machine, &[0o104000 | bits]).value, value);
        }
    }
    for bits in [0o0000, 0o0400, 0o1000, 0o1400] {
        assert_eq!(running(before(1), &[0o104000 | bits]).value, 1);
    }
}

#[test]
fn jump() {
    for word in [0o160000, 0o163777] {
        for target in [0, 0o177777, 0o052525] {
            let expected = Machine {
                counter: target,
                ..before(1)
            };
            assert_eq!(running(before(1), &[word, target]), expected);
        }
    }
}

#[test]
fn no_op() {
    for word in [0o164000, 0o167777] {
        let expected = Machine {
            counter: 2,
            ..before(1)
        };
        assert_eq!(running(before(1), &[word]), expected);
    }
}

#[test]
fn status_a() {
    let (outcome, left) = after(before(1), &[0o173400]);
    assert_eq!((outcome.answer.number(), outcome.steps), (2, 1));
    let expected = Machine {
        counter: 2,
        latch: 1,
        status: 2,
        ..before(1)
    };
    assert_eq!(left, expected);
    for latch in [0, 1] {
        let machine = Machine { latch, ..before(1) };
        let left = running(machine, &[0o170377]);
        assert_eq!(
            left,
            Machine {
                counter: 2,
                ..machine
            }
        );
    }
}

#[test]
fn status_a_sets_the_latch_before_it_stops() {
    for (word, latch, answer, left) in [
        (0o170000, 1, 0, 1),
        (0o170400, 0, 0, 0),
        (0o171000, 1, 0, 0),
        (0o171400, 0, 0, 1),
        (0o172000, 0, 1, 0),
        (0o172000, 1, 2, 1),
        (0o172400, 0, 1, 0),
        (0o173000, 1, 1, 0),
        (0o173400, 0, 2, 1),
    ] {
        let machine = Machine { latch, ..before(1) };
        let (outcome, machine) = after(machine, &[word]);
        assert_eq!(
            (outcome.answer.number(), machine.latch),
            (answer, left),
            "{:o}",
            word
        );
    }
}

#[test]
fn graph_increment() {
    let expected = Machine {
        counter: 2,
        increment: 63,
        ..before(1)
    };
    assert_eq!(running(before(1), &[0o174177]), expected);
    let expected = Machine {
        counter: 2,
        ..before(1)
    };
    assert_eq!(running(before(1), &[0o175600]), expected);
}

#[test]
fn graph_increment_needs_bit_6() {
    assert_eq!(running(before(1), &[0o174077]).increment, 5);
    assert_eq!(running(before(1), &[0o174100]).increment, 0);
}

#[test]
fn status_c() {
    for write in [0, 1] {
        let machine = Machine { write, ..before(1) };
        // Bits 9 and 8 name another memory, so bit 4 is idle.
        let left = running(machine, &[0o177420]);
        assert_eq!(
            left,
            Machine {
                counter: 2,
                ..machine
            }
        );
        let left = running(machine, &[0o176357]);
        let expected = Machine {
            counter: 2,
            write: 0,
            ..machine
        };
        assert_eq!(left, expected);
        let left = running(machine, &[0o176020]);
        let expected = Machine {
            counter: 2,
            write: 1,
            ..machine
        };
        assert_eq!(left, expected);
    }
}

#[test]
fn status_c_is_for_memory_zero_only() {
    for word in [0o176400, 0o177000, 0o177400] {
        assert_eq!(running(before(1), &[word]).write, 1);
    }
}

#[test]
fn codes_not_built() {
    for code in [7, 8, 9, 10, 11] {
        for rest in [0, 0o003777] {
            let (outcome, left) = after(before(1), &[0o100000 | code << 11 | rest]);
            assert_eq!((outcome.answer.number(), outcome.steps), (24, 0));
            let expected = Machine {
                status: 24,
                ..before(1)
            };
            assert_eq!(left, expected);
        }
    }
}

/// Two characters with all bits of one code and no other, then with bit 7: an underline, a space.
#[test]
fn characters() {
    assert_eq!(data(0, &[0o020137]), (532, 300, 7));
    assert_eq!(data(0, &[0o057440]), (532, 300, 7));
    assert_eq!(data(0, &[0o020337]), (532, 300, 7));
    assert_eq!(data(0, &[0o057640]), (532, 300, 7));
    assert_eq!(data(0, &[0o020040]), (532, 300, 0));
}

/// Takes a data word in a mode and tells the move and the stores.
fn data(mode: u8, words: &[u16]) -> (i64, i64, u64) {
    let machine = before(mode);
    let (outcome, left) = after(machine, words);
    assert_eq!(
        (outcome.answer.number(), outcome.words),
        (0, words.len() as u64)
    );
    let expected = Machine {
        counter: 2 * words.len() as u16,
        x: left.x,
        y: left.y,
        ..machine
    };
    assert_eq!(left, expected);
    (left.x.0, left.y.0, outcome.stores)
}

#[test]
fn short_vector() {
    assert_eq!(data(1, &[0o077777]), (437, 237, 33));
    assert_eq!(data(1, &[0]), (500, 300, 0));
}

#[test]
fn short_vector_fields() {
    assert_eq!(data(1, &[0o040000]), (500, 300, 1));
    assert_eq!(data(1, &[0o017600]), (563, 300, 0));
    assert_eq!(data(1, &[0o037600]), (437, 300, 0));
    assert_eq!(data(1, &[0o000077]), (500, 363, 0));
    assert_eq!(data(1, &[0o000177]), (500, 237, 0));
}

#[test]
fn long_vector() {
    // From pixel (250, 150) to (-262, -362): 151 of the 513 pixels are in the field.
    assert_eq!(data(2, &[0o061777, 0o021777]), (-523, -723, 151));
    assert_eq!(data(2, &[0o016000, 0o056000]), (500, 300, 0));
}

#[test]
fn long_vector_fields() {
    assert_eq!(data(2, &[0o040000, 0]), (500, 300, 1));
    assert_eq!(data(2, &[0o001777, 0]), (1_523, 300, 0));
    assert_eq!(data(2, &[0, 0o001777]), (500, 1_323, 0));
    assert_eq!(data(2, &[0o020001, 0o000002]), (499, 302, 0));
    assert_eq!(data(2, &[0o000001, 0o020002]), (501, 298, 0));
}

#[test]
fn absolute_point() {
    assert_eq!(data(3, &[0o041777, 0o001777]), (1_023, 1_023, 1));
    assert_eq!(data(3, &[0o036000, 0o076000]), (0, 0, 0));
}

#[test]
fn graph_x() {
    assert_eq!(data(4, &[0o041777]), (1_023, 305, 1));
    assert_eq!(data(4, &[0o036000]), (0, 305, 0));
}

#[test]
fn graph_y() {
    assert_eq!(data(5, &[0o041777]), (505, 1_023, 1));
    assert_eq!(data(5, &[0o036000]), (505, 0, 0));
}

#[test]
fn relative_point() {
    assert_eq!(data(6, &[0o077777]), (437, 237, 1));
    assert_eq!(data(6, &[0]), (500, 300, 0));
}

#[test]
fn relative_point_fields_and_the_plot_at_its_end() {
    assert_eq!(data(6, &[0o017600]), (563, 300, 0));
    assert_eq!(data(6, &[0o037600]), (437, 300, 0));
    assert_eq!(data(6, &[0o000077]), (500, 363, 0));
    assert_eq!(data(6, &[0o000177]), (500, 237, 0));
    let image = run_on_blank(&[0o041203], machine_at(500, 300, 6), 1).1;
    assert_eq!(shown(&image), [(252, 151, 3)]);
}

#[test]
fn every_word_in_every_mode_is_refused_or_takes_its_number_of_words() {
    let mut image = blank();
    let good = |code: u16| (32..127).contains(&code);
    for mode in [0, 1, 2, 3, 4, 5, 6, 255] {
        for word in 0..=65_535 {
            let words = file(&[word, 0]);
            let outcome = step(&words, before(mode), &mut image, &[]);
            let code = word >> 11 & 15;
            let (refusal, length) = match (word >> 15, mode) {
                (1, _) if (7..=11).contains(&code) => (24, 0),
                (1, _) => (0, if code == 12 { 2 } else { 1 }),
                (_, 255) => (25, 0),
                (_, 0) if !good(word & 127) || !good(word >> 8) => (32, 0),
                (_, 2) | (_, 3) => (0, 2),
                (_, _) => (0, 1),
            };
            let stop = word >> 10 == 0b111101;
            assert_eq!(outcome.words, length, "mode {} word {:o}", mode, word);
            if refusal != 0 || !stop {
                assert_eq!(
                    outcome.answer.number(),
                    refusal,
                    "mode {} word {:o}",
                    mode,
                    word
                );
            }
        }
    }
}
