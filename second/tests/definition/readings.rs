//! Readings that look right and are wrong: each test fails under one of them.

use second::vector::pixels;
use second::{fresh, Machine};

use crate::support::*;

#[test]
fn the_first_week_stands_in_the_first_column() {
    // Point (0, 0) unlit, increment 20, graph Y, three weeks.
    let segment = [
        0o114000, 0, 0, 0o174124, 0o124000, 0o040144, 0o040310, 0o040454, 0o172000,
    ];
    let (outcome, image) = run_on_blank(&segment, fresh(), 100);
    assert_eq!(shown(&image), [(0, 50, 3), (10, 100, 3), (20, 150, 3)]);
    assert_eq!((outcome.machine.x.0, outcome.machine.y.0), (60, 300));
}

#[test]
fn ten_vectors_of_one_unit_reach_unit_ten() {
    for (word, x, y) in [
        (0o040200, 10, 0),
        (0o060200, -10, 0),
        (0o040001, 0, 10),
        (0o040101, 0, -10),
    ] {
        let mut segment = vec![0o104000];
        segment.extend([word; 10]);
        let outcome = run_on_blank(&segment, fresh(), 11).0;
        assert_eq!((outcome.machine.x.0, outcome.machine.y.0), (x, y));
    }
}

#[test]
fn every_vector_of_a_small_square_has_the_pixels_of_its_reverse() {
    for from_x in -6..=6 {
        for from_y in -6..=6 {
            for to_x in -6..=6 {
                for to_y in -6..=6 {
                    let from = pixel_point(from_x, from_y);
                    let to = pixel_point(to_x, to_y);
                    let there: Vec<_> = pixels(from, to).collect();
                    let mut back: Vec<_> = pixels(to, from).collect();
                    back.reverse();
                    assert_eq!(there, back);
                }
            }
        }
    }
}

#[test]
fn unit_minus_one_is_not_in_pixel_zero() {
    for (x, y) in [(-1, 0), (0, -1), (-1, -1)] {
        // A relative point of no move plots where the machine stands.
        let (outcome, image) = run_on_blank(&[0o040000], machine_at(x, y, 6), 1);
        assert_eq!((outcome.steps, outcome.stores), (1, 0));
        assert!(image == blank());
    }
    let (outcome, _) = run_on_blank(&[0o040000], machine_at(1, 1, 6), 1);
    assert_eq!(outcome.stores, 1);
}

#[test]
fn a_vector_is_not_redrawn_from_where_it_enters_the_field() {
    // Pixels (-1, 0) to (3, 1). Drawn afresh from (0, 0), column 1 would have row 0.
    let (outcome, image) = run_on_blank(&[0o042002], machine_at(-2, 0, 1), 1);
    assert_eq!(outcome.stores, 4);
    assert_eq!(shown(&image), [(0, 0, 3), (1, 1, 3), (2, 1, 3), (3, 1, 3)]);
    // Pixels (-1, 0) to (2, 2). Drawn afresh from (0, 1), column 1 would have row 2.
    let (outcome, image) = run_on_blank(&[0o041404], machine_at(-2, 0, 1), 1);
    assert_eq!(outcome.stores, 3);
    assert_eq!(shown(&image), [(0, 1, 3), (1, 1, 3), (2, 2, 3)]);
}

#[test]
fn a_jump_target_may_have_bit_15() {
    // Segment 4 begins at byte address 32,768, whose bit 15 is set.
    let empty: &[u16] = &[];
    let words = file_of(&[&[0o160000, 0o100000], empty, empty, empty, &[0o172000]]);
    let mut image = blank();
    let outcome = second::run(&words, fresh(), &mut image, 10, &[]);
    assert_eq!(
        (outcome.answer.number(), outcome.steps, outcome.words),
        (1, 2, 3)
    );
    assert_eq!(outcome.machine.counter, 32_770);
}

#[test]
fn a_jump_between_data_words_keeps_the_mode() {
    let (outcome, _) = run_on_blank(&[0o160000, 0o000004, 0o000203], machine_at(0, 0, 1), 2);
    assert_eq!(
        (
            outcome.answer.number(),
            outcome.machine.x.0,
            outcome.machine.y.0
        ),
        (0, 1, 3)
    );
}

#[test]
fn stopping_and_starting_keep_the_latch() {
    let latched = Machine {
        latch: 1,
        ..fresh()
    };
    let outcome = run_on_blank(&[0o172000], latched, 1).0;
    assert_eq!((outcome.answer.number(), outcome.machine.latch), (2, 1));
    let (_, started) = second::start(outcome.machine, 0);
    assert_eq!(started, latched);
}
