//! Every answer, and which one speaks first when two could.

use second::plot::plot;
use second::{check, clear, fresh, read_pixel, run, start, step, Machine, Outcome, Pixel, Unit};
use second::{IMAGE_BYTES, NO_MODE};

use crate::support::*;

/// A run that would be let in, to be spoiled in one place or more.
struct Call {
    image: Vec<u8>,
    words: Vec<u16>,
    machine: Machine,
    budget: u64,
    set: Vec<u8>,
}

fn sound() -> Call {
    Call {
        image: patterned(),
        words: file(&[0o113400, 0o040006, 0o000004, 0o172000]),
        machine: fresh(),
        budget: 10,
        set: Vec::new(),
    }
}

impl Call {
    fn image(mut self, bytes: usize) -> Call {
        self.image.resize(bytes, 0x5A);
        self
    }

    fn words(mut self, words: &[u16]) -> Call {
        self.words = words.to_vec();
        self
    }

    fn value(mut self, value: u8) -> Call {
        self.machine.value = value;
        self
    }

    fn status(mut self, status: u8) -> Call {
        self.machine.status = status;
        self
    }

    fn budget(mut self, budget: u64) -> Call {
        self.budget = budget;
        self
    }

    fn set(mut self, bytes: usize) -> Call {
        self.set = vec![0x3C; bytes];
        self
    }

    /// Checks the number, and that the refused call left all as it was.
    fn expect(mut self, number: u8) {
        let before = self.image.clone();
        let outcome = run(
            &self.words,
            self.machine,
            &mut self.image,
            self.budget,
            &self.set,
        );
        assert_eq!(outcome.answer.number(), number);
        assert_eq!((outcome.steps, outcome.words, outcome.stores), (0, 0, 0));
        assert_eq!(outcome.machine, self.machine);
        assert!(self.image == before);
    }
}

#[test]
fn the_sound_call_is_let_in() {
    let mut call = sound();
    let outcome = run(&call.words, call.machine, &mut call.image, call.budget, &[]);
    assert_eq!(outcome.answer.number(), 1);
}

#[test]
fn each_door_of_a_run_alone() {
    for bytes in [0, IMAGE_BYTES - 1, IMAGE_BYTES + 1] {
        sound().image(bytes).expect(11);
    }
    sound().words(&[]).expect(12);
    sound().words(&[1]).expect(12);
    sound().words(&[0, 1, 4, 0]).expect(13);
    sound().words(&[2, 1, 4, 0]).expect(13);
    sound().words(&[1, 0, 4, 0]).expect(14);
    sound().words(&[1; 40]).expect(15);
    sound().words(&[&[1, 9][..], &[30; 38]].concat()).expect(14);
    sound().words(&[1, 1, 4]).expect(12);
    sound().words(&[1, 1, 3, 0]).expect(15);
    sound().value(4).expect(16);
    sound().budget(1_000_001).expect(17);
    for bytes in [1, 8, 752, 759, 761, 768, 1_024, 65_536] {
        sound().set(bytes).expect(18);
        sound().set(bytes).budget(0).expect(18);
    }
    for status in [1, 2, 21, 22, 23, 24, 25, 26, 27, 32] {
        sound().status(status).expect(28);
        sound().status(status).budget(0).expect(28);
        sound().status(status).budget(1).expect(28);
    }
}

#[test]
fn neighbouring_doors_speak_in_their_order() {
    sound().image(1).words(&[]).expect(11);
    sound().words(&[2]).expect(12);
    sound().words(&[2, 0]).expect(13);
    sound().words(&[2, 9]).expect(13);
    sound().words(&[2, 1]).expect(13);
    sound().words(&[1, 9]).expect(14);
    sound().words(&[1, 65_535]).expect(14);
    sound().words(&[1, 1, 0]).expect(12);
    sound().words(&[1, 2, 0, 9_999, 0]).expect(12);
    sound().words(&[1, 1, 3, 0]).value(4).expect(15);
    sound().value(4).budget(1_000_001).expect(16);
    sound().value(4).status(1).expect(16);
    sound().value(4).set(759).expect(16);
    sound().budget(1_000_001).status(1).expect(17);
    sound().budget(1_000_001).set(759).expect(17);
    sound().set(759).status(1).expect(18);
    sound().set(761).status(32).expect(18);
}

#[test]
fn with_everything_wrong_the_doors_open_one_by_one() {
    let spoiled = || sound().value(4).budget(1_000_001).set(1).status(2);
    spoiled().image(0).words(&[]).expect(11);
    spoiled().words(&[7]).expect(12);
    spoiled().words(&[7, 9]).expect(13);
    spoiled().words(&[1, 9]).expect(14);
    spoiled().words(&[1, 8, 0, 5_000]).expect(12);
    spoiled().words(&[1, 1, 0, 5_000]).expect(15);
    spoiled().expect(16);
    spoiled().value(3).expect(17);
    spoiled().value(3).budget(1_000_000).expect(18);
    spoiled().value(3).budget(1_000_000).set(760).expect(28);
    spoiled().value(3).budget(1_000_000).set(0).expect(28);
}

#[test]
fn a_step_has_the_doors_of_a_run() {
    let words = file(&[0o164000]);
    let stopped = Machine {
        status: 1,
        ..fresh()
    };
    assert_eq!(step(&words, stopped, &mut blank(), &[]).answer.number(), 28);
    assert_eq!(step(&words, fresh(), &mut [0; 5], &[]).answer.number(), 11);
    assert_eq!(step(&[1], fresh(), &mut blank(), &[]).answer.number(), 12);
    for bytes in [1, 759, 761] {
        let set = vec![0; bytes];
        assert_eq!(
            step(&words, fresh(), &mut blank(), &set).answer.number(),
            18
        );
        assert_eq!(
            step(&words, stopped, &mut blank(), &set).answer.number(),
            18
        );
    }
}

#[test]
fn the_file_check_gives_12_to_15() {
    let cases: [(&[u16], u8); 12] = [
        (&[], 12),
        (&[2], 12),
        (&[2, 0], 13),
        (&[0, 1, 4, 0], 13),
        (&[1, 0], 14),
        (&[1, 9], 14),
        (&[1, 1, 0], 12),
        (&[1, 2, 6, 0, 6], 12),
        (&[1, 2, 6, 0, 5, 0], 15),
        (&[1, 1, 4, 1], 15),
        (&[1, 1, 4, 0], 0),
        (&[1, 1, 4, 1, 7], 0),
    ];
    for (words, number) in cases {
        assert_eq!(check(words).number(), number, "{:?}", words);
    }
}

#[test]
fn one_and_eight_segments_are_taken() {
    for count in 1..=8 {
        let segments = vec![&[0o164000_u16][..]; count];
        assert_eq!(check(&file_of(&segments)).number(), 0);
    }
}

#[test]
fn each_segment_keeps_both_sides_of_its_bounds() {
    for broken in 0..3 {
        for (offset, length, number) in [
            (8, 0, 0),
            (7, 0, 15),
            (0, 0, 15),
            (12, 0, 0),
            (13, 0, 15),
            (65_535, 0, 15),
            (8, 4, 0),
            (8, 5, 15),
            (9, 4, 15),
            (11, 1, 0),
            (11, 2, 15),
            (65_535, 65_535, 15),
        ] {
            let mut words = vec![1, 3, 8, 4, 9, 2, 12, 0, 5, 6, 7, 8];
            words[2 + 2 * broken] = offset;
            words[3 + 2 * broken] = length;
            assert_eq!(check(&words).number(), number, "{:?}", words);
        }
    }
}

#[test]
fn a_file_may_reach_the_highest_offset() {
    let mut words = vec![0; 65_536];
    words[..4].copy_from_slice(&[1, 1, 65_535, 1]);
    assert_eq!(check(&words).number(), 0);
    words[3] = 2;
    assert_eq!(check(&words).number(), 15);
}

/// Every field of the machine, spoiled on each side of its range.
fn spoiled_machines() -> Vec<Machine> {
    let sound = fresh();
    let mut spoiled = Vec::new();
    for number in [-4_097, 4_096, i64::MIN, i64::MAX] {
        let unit = Unit(number);
        spoiled.push(Machine { x: unit, ..sound });
        spoiled.push(Machine { y: unit, ..sound });
    }
    for mode in [7, 8, 254] {
        spoiled.push(Machine { mode, ..sound });
    }
    for value in [4, 255] {
        spoiled.push(Machine { value, ..sound });
    }
    for switch in [2, 255] {
        spoiled.push(Machine {
            write: switch,
            ..sound
        });
        spoiled.push(Machine {
            latch: switch,
            ..sound
        });
    }
    for increment in [64, 255] {
        spoiled.push(Machine { increment, ..sound });
    }
    for status in [3, 11, 18, 19, 20, 28, 31, 33, 255] {
        spoiled.push(Machine { status, ..sound });
    }
    spoiled
}

/// Every field of the machine at the ends of its range.
fn extreme_machines() -> Vec<Machine> {
    let sound = fresh();
    let mut extreme = Vec::new();
    for number in [-4_096, 4_095] {
        let unit = Unit(number);
        extreme.push(Machine { x: unit, ..sound });
        extreme.push(Machine { y: unit, ..sound });
    }
    for mode in [0, 1, 6, NO_MODE] {
        extreme.push(Machine { mode, ..sound });
    }
    for value in [0, 3] {
        extreme.push(Machine { value, ..sound });
    }
    for switch in [0, 1] {
        extreme.push(Machine {
            write: switch,
            ..sound
        });
        extreme.push(Machine {
            latch: switch,
            ..sound
        });
    }
    for increment in [0, 63] {
        extreme.push(Machine { increment, ..sound });
    }
    for counter in [1, 65_535] {
        extreme.push(Machine { counter, ..sound });
    }
    extreme
}

#[test]
fn sixteen_is_for_a_field_out_of_range() {
    let words = file(&[0o164000]);
    for machine in spoiled_machines() {
        let mut image = patterned();
        let outcome = run(&words, machine, &mut image, 1, &[]);
        assert_eq!((outcome.answer.number(), outcome.machine), (16, machine));
        assert!(image == patterned());
        let (answer, left) = start(machine, 2);
        assert_eq!((answer.number(), left), (16, machine));
    }
    for machine in extreme_machines() {
        assert_ne!(
            run(&words, machine, &mut blank(), 1, &[]).answer.number(),
            16
        );
        assert_eq!(start(machine, 2).0.number(), 0);
    }
}

#[test]
fn start_accepts_any_known_status_and_any_address() {
    for status in [0, 1, 2, 21, 22, 23, 24, 25, 26, 27, 32] {
        for address in [0, 1, 8_190, 65_535] {
            let machine = Machine {
                counter: 77,
                x: Unit(-5),
                y: Unit(6),
                mode: 4,
                value: 1,
                write: 0,
                latch: 1,
                increment: 9,
                status,
            };
            let (answer, started) = start(machine, address);
            let expected = Machine {
                counter: address,
                status: 0,
                ..machine
            };
            assert_eq!((answer.number(), started), (0, expected));
        }
    }
}

#[test]
fn clear_sets_a_whole_image_to_zero_or_nothing_at_all() {
    let mut image = patterned();
    assert_eq!(clear(&mut image).number(), 0);
    assert!(image == blank());
    for bytes in [0, 1, IMAGE_BYTES - 1, IMAGE_BYTES + 1] {
        let mut image = vec![7; bytes];
        assert_eq!(clear(&mut image).number(), 11);
        assert!(image == vec![7; bytes]);
    }
}

#[test]
fn read_pixel_finds_each_digit_of_a_byte() {
    let mut image = blank();
    image[128 * 3 + 1] = 0b_11_10_01_00;
    for (x, digit) in [(3, 0), (4, 0), (5, 1), (6, 2), (7, 3), (8, 0)] {
        let (answer, found) = read_pixel(&image, Pixel(x), Pixel(3));
        assert_eq!((answer.number(), found), (0, digit));
    }
}

#[test]
fn read_pixel_refuses_a_wrong_image_and_then_a_place_outside() {
    let full = vec![255; IMAGE_BYTES];
    for (x, y) in [(0, 0), (511, 0), (0, 511), (511, 511)] {
        let (answer, digit) = read_pixel(&full, Pixel(x), Pixel(y));
        assert_eq!((answer.number(), digit), (0, 3));
    }
    for (x, y) in [
        (-1, 0),
        (0, -1),
        (512, 0),
        (0, 512),
        (i64::MIN, 5),
        (5, i64::MAX),
    ] {
        let (answer, digit) = read_pixel(&full, Pixel(x), Pixel(y));
        assert_eq!((answer.number(), digit), (31, 0));
        let (answer, digit) = read_pixel(&full[1..], Pixel(x), Pixel(y));
        assert_eq!((answer.number(), digit), (11, 0));
    }
    let (answer, digit) = read_pixel(&full[1..], Pixel(0), Pixel(0));
    assert_eq!((answer.number(), digit), (11, 0));
}

#[test]
fn plot_gives_19_before_any_door() {
    let sound = bytes_of(&file(&[0o172000]));
    assert_eq!(plot(&sound).to_string(), "1 1 1 0 2 0 0");
    assert_eq!(plot(&[]).to_string(), "12 0 0 0 0 0 0");
    assert_eq!(plot(&[2]).to_string(), "19 0 0 0 0 0 0");
    assert_eq!(plot(&[2, 0]).to_string(), "12 0 0 0 0 0 0");
    assert_eq!(plot(&[2, 0, 0]).to_string(), "19 0 0 0 0 0 0");
    assert_eq!(plot(&[2, 0, 0, 0]).to_string(), "13 0 0 0 0 0 0");
    for (bytes, line) in [
        (65_535, "19 0 0 0 0 0 0"),
        (65_536, "1 1 1 0 2 0 0"),
        (65_537, "19 0 0 0 0 0 0"),
        (65_538, "19 0 0 0 0 0 0"),
    ] {
        let mut padded = sound.clone();
        padded.resize(bytes, 0);
        assert_eq!(plot(&padded).to_string(), line);
    }
    for (words, line) in [
        ([2, 1, 4, 0], "13 0 0 0 0 0 0"),
        ([1, 0, 4, 0], "14 0 0 0 0 0 0"),
        ([1, 1, 4, 1], "15 0 0 0 0 0 0"),
        ([1, 1, 4, 0], "23 0 0 0 0 0 0"),
    ] {
        assert_eq!(plot(&bytes_of(&words)).to_string(), line);
    }
}

/// Two completed steps of three words and five stores, after which the refusal comes.
const EARLIER: [u16; 3] = [0o112400, 0o040010, 0];

/// Runs the earlier words and then others, and checks all that a refusal must leave.
fn refused_after(later: &[u16], number: u8) -> Outcome {
    let segment = [&EARLIER, later].concat();
    let (earlier, earlier_image) = run_on_blank(&segment, fresh(), 2);
    assert_eq!(earlier.answer.number(), 0);
    assert_eq!((earlier.steps, earlier.words, earlier.stores), (2, 3, 5));
    let (outcome, image) = run_on_blank(&segment, fresh(), 100);
    assert_eq!(outcome.answer.number(), number);
    let expected = Machine {
        status: number,
        ..earlier.machine
    };
    assert_eq!(outcome.machine, expected);
    assert_eq!((outcome.steps, outcome.words, outcome.stores), (2, 3, 5));
    assert!(image == earlier_image);
    outcome
}

#[test]
fn a_refused_instruction_leaves_only_its_status() {
    assert_eq!(refused_after(&[], 23).machine.counter, 6);
    assert_eq!(refused_after(&[0o040010], 23).machine.counter, 6);
    for code in [7, 8, 9, 10, 11] {
        refused_after(&[0o100000 | code << 11, 0], 24);
    }
    refused_after(&[0o040010, 0o100000], 26);
    refused_after(&[0o040010, 0o177777], 26);
    refused_after(&[0o160000], 23);
}

#[test]
fn a_jump_to_an_odd_or_missing_place_is_done_and_the_next_fetch_is_refused() {
    for (target, number) in [(1, 21), (8_192, 22), (6, 23), (8_191, 21), (65_534, 22)] {
        let outcome = run_on_blank(&[0o160000, target], fresh(), 100).0;
        assert_eq!((outcome.answer.number(), outcome.steps), (number, 1));
        assert_eq!(outcome.machine.counter, target);
        assert_eq!(outcome.machine.status, number);
    }
}

#[test]
fn a_refused_first_instruction_counts_nothing() {
    for (segment, machine, number) in [
        (vec![0o040000], fresh(), 25),
        (vec![0o134000], fresh(), 24),
        (vec![0o020037], machine_at(0, 0, 0), 32),
        (vec![0o020040], machine_at(4_064, 0, 0), 27),
        (vec![0o040000, 0o100000], machine_at(0, 0, 3), 26),
        (vec![0o057777], machine_at(4_095, 0, 6), 27),
        (vec![0o041777, 0], machine_at(4_000, 0, 2), 27),
        (vec![], fresh(), 23),
    ] {
        let (outcome, image) = run_on_blank(&segment, machine, 10);
        assert_eq!(outcome.answer.number(), number);
        assert_eq!((outcome.steps, outcome.words, outcome.stores), (0, 0, 0));
        let expected = Machine {
            status: number,
            ..machine
        };
        assert_eq!(outcome.machine, expected);
        assert!(image == blank());
    }
}

#[test]
fn a_fetch_checks_odd_then_segment_then_place() {
    let words = file_of(&[&[0o164000], &[]]);
    for (counter, number) in [
        (0, 0),
        (1, 21),
        (2, 23),
        (3, 21),
        (8_191, 21),
        (8_192, 23),
        (8_193, 21),
        (16_382, 23),
        (16_383, 21),
        (16_384, 22),
        (16_385, 21),
        (65_534, 22),
        (65_535, 21),
    ] {
        let machine = Machine { counter, ..fresh() };
        let outcome = run(&words, machine, &mut blank(), 1, &[]);
        assert_eq!(outcome.answer.number(), number, "counter {}", counter);
    }
}

#[test]
fn the_word_itself_is_judged_before_a_second_fetch() {
    // Each of these is the last word of its segment.
    assert_eq!(run_on_blank(&[0o134000], fresh(), 1).0.answer.number(), 24);
    assert_eq!(
        run_on_blank(&[0o134000], machine_at(0, 0, 2), 1)
            .0
            .answer
            .number(),
        24
    );
    assert_eq!(run_on_blank(&[0o040000], fresh(), 1).0.answer.number(), 25);
}

#[test]
fn the_second_fetch_comes_before_26_and_27() {
    for mode in [2, 3] {
        let outcome = run_on_blank(&[0o041777], machine_at(4_095, 0, mode), 1).0;
        assert_eq!(outcome.answer.number(), 23);
    }
    let mut segment = vec![0o164000; 4_096];
    segment[4_095] = 0o041777;
    for (segments, number) in [
        (file_of(&[&segment]), 22),
        (file_of(&[&segment, &[]]), 23),
        (file_of(&[&segment, &[0o100000]]), 26),
        (file_of(&[&segment, &[0]]), 27),
    ] {
        let machine = Machine {
            counter: 8_190,
            ..machine_at(4_095, 0, 2)
        };
        let outcome = run(&segments, machine, &mut blank(), 1, &[]);
        let expected = Machine {
            status: number,
            ..machine
        };
        assert_eq!(outcome.machine, expected);
    }
}

#[test]
fn a_second_word_with_bit_15_comes_before_a_range_left() {
    let machine = machine_at(4_095, 0, 2);
    assert_eq!(
        run_on_blank(&[0o041777, 0o100000], machine, 1)
            .0
            .answer
            .number(),
        26
    );
    assert_eq!(
        run_on_blank(&[0o041777, 0o000000], machine, 1)
            .0
            .answer
            .number(),
        27
    );
    assert_eq!(
        run_on_blank(&[0o061777, 0o000000], machine, 1)
            .0
            .answer
            .number(),
        0
    );
}

#[test]
fn every_mode_needs_one_to_be_set() {
    for word in [0, 0o040000, 0o077777] {
        assert_eq!(run_on_blank(&[word, 0], fresh(), 1).0.answer.number(), 25);
    }
    for mode in 0..=6 {
        // Two spaces, of which each other mode makes something too.
        let outcome = run_on_blank(&[0o020040, 0], machine_at(0, 0, mode), 1).0;
        assert_eq!(outcome.answer.number(), 0);
    }
}
