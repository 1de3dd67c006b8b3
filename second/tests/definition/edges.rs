//! The listed edges, each from both sides.

use second::vector::pixels;
use second::{check, fresh, run, step, Machine, Outcome, Unit};

use crate::support::*;

fn list(from: (i64, i64), to: (i64, i64)) -> Vec<(i64, i64)> {
    pixels(pixel_point(from.0, from.1), pixel_point(to.0, to.1))
        .map(|place| (place.x.0, place.y.0))
        .collect()
}

fn end(outcome: &Outcome) -> (i64, i64) {
    (outcome.machine.x.0, outcome.machine.y.0)
}

#[test]
fn units_have_the_pixel_below_them() {
    for (unit, pixel) in [
        (-4, -2),
        (-3, -2),
        (-2, -1),
        (-1, -1),
        (0, 0),
        (1, 0),
        (2, 1),
        (1_022, 511),
        (1_023, 511),
        (1_024, 512),
    ] {
        assert_eq!(unit_point(unit, 0).place(), pixel_point(pixel, 0));
        assert_eq!(unit_point(0, unit).place(), pixel_point(0, pixel));
    }
}

#[test]
fn a_half_goes_up_whichever_way_the_vector_runs() {
    assert_eq!(list((0, 0), (2, 1)), [(0, 0), (1, 1), (2, 1)]);
    assert_eq!(list((2, 1), (0, 0)), [(2, 1), (1, 1), (0, 0)]);
    assert_eq!(list((0, 0), (1, 2)), [(0, 0), (1, 1), (1, 2)]);
    assert_eq!(list((1, 2), (0, 0)), [(1, 2), (1, 1), (0, 0)]);
    assert_eq!(list((0, 0), (2, -1)), [(0, 0), (1, 0), (2, -1)]);
    assert_eq!(list((2, -1), (0, 0)), [(2, -1), (1, 0), (0, 0)]);
    assert_eq!(list((0, 0), (-1, -2)), [(0, 0), (0, -1), (-1, -2)]);
}

#[test]
fn less_and_more_than_a_half_go_to_the_nearer_side() {
    assert_eq!(list((0, 0), (3, 1)), [(0, 0), (1, 0), (2, 1), (3, 1)]);
    assert_eq!(list((3, 1), (0, 0)), [(3, 1), (2, 1), (1, 0), (0, 0)]);
}

#[test]
fn equal_differences_walk_both_axes_at_once() {
    assert_eq!(list((0, 0), (-2, 2)), [(0, 0), (-1, 1), (-2, 2)]);
}

#[test]
fn a_lit_vector_that_goes_nowhere_is_a_dot() {
    assert_eq!(list((7, -3), (7, -3)), [(7, -3)]);
    for (mode, words) in [(1, vec![0o040000]), (2, vec![0o040000, 0])] {
        let (outcome, image) = run_on_blank(&words, machine_at(9, 4, mode), 1);
        assert_eq!(outcome.stores, 1);
        assert_eq!(shown(&image), [(4, 2, 3)]);
    }
}

#[test]
fn a_vector_inside_one_pixel_has_one_pixel_and_the_next_unit_makes_two() {
    let (outcome, image) = run_on_blank(&[0o040201], machine_at(8, 4, 1), 1);
    assert_eq!((outcome.stores, end(&outcome)), (1, (9, 5)));
    assert_eq!(shown(&image), [(4, 2, 3)]);
    let (outcome, image) = run_on_blank(&[0o040200], machine_at(9, 4, 1), 1);
    assert_eq!((outcome.stores, end(&outcome)), (2, (10, 4)));
    assert_eq!(shown(&image), [(4, 2, 3), (5, 2, 3)]);
}

#[test]
fn an_unlit_vector_moves_and_stores_nothing() {
    let (outcome, image) = run_on_blank(&[0o001303], machine_at(100, 100, 1), 1);
    assert_eq!((outcome.stores, end(&outcome)), (0, (105, 97)));
    assert!(image == blank());
}

#[test]
fn short_vector_041303_is_lit_and_goes_five_right_three_down() {
    let (outcome, image) = run_on_blank(&[0o041303], machine_at(100, 100, 1), 1);
    assert_eq!(end(&outcome), (105, 97));
    assert_eq!(outcome.stores, 3);
    assert_eq!(shown(&image), [(52, 48, 3), (51, 49, 3), (50, 50, 3)]);
}

#[test]
fn short_vector_signs_belong_to_their_own_axis() {
    let (outcome, _) = run_on_blank(&[0o021203], machine_at(100, 100, 1), 1);
    assert_eq!(end(&outcome), (95, 103));
}

#[test]
fn a_sign_on_size_zero_is_idle() {
    let (outcome, image) = run_on_blank(&[0o020100], machine_at(100, 100, 1), 1);
    assert_eq!(
        (outcome.answer.number(), outcome.steps, outcome.stores),
        (0, 1, 0)
    );
    assert_eq!(end(&outcome), (100, 100));
    assert!(image == blank());
    let (outcome, _) = run_on_blank(&[0o020301], machine_at(100, 100, 1), 1);
    assert_eq!(end(&outcome), (99, 99));
    let (outcome, _) = run_on_blank(&[0o020000, 0o020000], machine_at(100, 100, 2), 1);
    assert_eq!(end(&outcome), (100, 100));
}

/// Eight full segments on the same words, so that every even address has a word.
fn full_file(segment: &[u16; 4_096]) -> Vec<u16> {
    let mut words = vec![1, 8];
    for _ in 0..8 {
        words.extend([18, 4_096]);
    }
    words.extend(segment);
    words
}

#[test]
fn the_counter_wraps_after_65534() {
    let words = full_file(&[0o164000; 4_096]);
    for (before, after) in [(65_532, 65_534), (65_534, 0), (0, 2)] {
        let machine = Machine {
            counter: before,
            ..fresh()
        };
        let outcome = step(&words, machine, &mut blank(), &[]);
        assert_eq!(outcome.answer.number(), 0);
        assert_eq!(outcome.machine.counter, after);
    }
}

#[test]
fn a_second_word_is_fetched_across_the_wrap() {
    let mut segment = [0o164000; 4_096];
    segment[0] = 0o000017;
    segment[4_095] = 0o000021;
    let words = full_file(&segment);
    let machine = Machine {
        counter: 65_534,
        ..machine_at(0, 0, 3)
    };
    let outcome = step(&words, machine, &mut blank(), &[]);
    assert_eq!((outcome.answer.number(), outcome.words), (0, 2));
    assert_eq!((outcome.machine.counter, end(&outcome)), (2, (17, 15)));
}

#[test]
fn graph_y_plots_and_then_steps() {
    let machine = Machine {
        increment: 4,
        ..machine_at(10, 0, 5)
    };
    let (outcome, image) = run_on_blank(&[0o040100, 0o040104], machine, 1);
    assert_eq!(shown(&image), [(5, 32, 3)]);
    assert_eq!(end(&outcome), (14, 64));
    let (outcome, image) = run_on_blank(&[0o040100, 0o040104], machine, 2);
    assert_eq!(shown(&image), [(5, 32, 3), (7, 34, 3)]);
    assert_eq!((outcome.stores, end(&outcome)), (2, (18, 68)));
}

#[test]
fn graph_x_plots_and_then_steps() {
    let machine = Machine {
        increment: 4,
        ..machine_at(0, 10, 4)
    };
    let (outcome, image) = run_on_blank(&[0o040100, 0o040104], machine, 2);
    assert_eq!(shown(&image), [(32, 5, 3), (34, 7, 3)]);
    assert_eq!((outcome.stores, end(&outcome)), (2, (68, 18)));
}

#[test]
fn a_graph_word_moves_unlit_or_with_write_off() {
    let unlit = Machine {
        increment: 4,
        ..machine_at(10, 0, 5)
    };
    let dark = Machine { write: 0, ..unlit };
    for (machine, word) in [(unlit, 0o000100), (dark, 0o040100)] {
        let (outcome, image) = run_on_blank(&[word], machine, 1);
        assert_eq!((outcome.stores, end(&outcome)), (0, (14, 64)));
        assert!(image == blank());
    }
}

#[test]
fn a_long_move_reaches_the_range_and_no_further() {
    for (from, word, to) in [
        (3_072, 0o001777, Some(4_095)),
        (3_073, 0o001777, None),
        (-3_073, 0o021777, Some(-4_096)),
        (-3_074, 0o021777, None),
    ] {
        let across = run_on_blank(&[word, 0], machine_at(from, 5, 2), 1).0;
        let up = run_on_blank(&[0, word], machine_at(5, from, 2), 1).0;
        match to {
            Some(to) => {
                assert_eq!((across.answer.number(), end(&across)), (0, (to, 5)));
                assert_eq!((up.answer.number(), end(&up)), (0, (5, to)));
            }
            None => {
                assert_eq!((across.answer.number(), end(&across)), (27, (from, 5)));
                assert_eq!((up.answer.number(), end(&up)), (27, (5, from)));
            }
        }
    }
}

#[test]
fn a_short_move_reaches_the_range_and_no_further() {
    for mode in [1, 6] {
        for (from, word, answer, to) in [
            ((4_032, 0), 0o017600, 0, (4_095, 0)),
            ((4_033, 0), 0o017600, 27, (4_033, 0)),
            ((-4_033, 0), 0o037600, 0, (-4_096, 0)),
            ((-4_034, 0), 0o037600, 27, (-4_034, 0)),
            ((0, 4_032), 0o000077, 0, (0, 4_095)),
            ((0, 4_033), 0o000077, 27, (0, 4_033)),
            ((0, -4_033), 0o000177, 0, (0, -4_096)),
            ((0, -4_034), 0o000177, 27, (0, -4_034)),
        ] {
            let outcome = run_on_blank(&[word], machine_at(from.0, from.1, mode), 1).0;
            assert_eq!((outcome.answer.number(), end(&outcome)), (answer, to));
        }
    }
}

#[test]
fn graph_growth_reaches_the_range_and_no_further() {
    for (old, increment, answer) in [
        (4_091, 4, 0),
        (4_092, 4, 27),
        (4_095, 0, 0),
        (4_095, 1, 27),
        (4_032, 63, 0),
        (4_033, 63, 27),
        (-4_096, 63, 0),
    ] {
        for mode in [4, 5] {
            let machine = if mode == 4 {
                machine_at(3, old, mode)
            } else {
                machine_at(old, 3, mode)
            };
            let machine = Machine {
                increment,
                ..machine
            };
            let outcome = run_on_blank(&[0o040100], machine, 1).0;
            assert_eq!(outcome.answer.number(), answer);
            let grown = old + i64::from(increment);
            let expected = match (answer, mode) {
                (0, 4) => (64, grown),
                (0, _) => (grown, 64),
                (_, 4) => (3, old),
                (_, _) => (old, 3),
            };
            assert_eq!(end(&outcome), expected);
        }
    }
}

#[test]
fn a_refused_growth_does_not_set_the_other_coordinate() {
    let machine = Machine {
        increment: 63,
        ..machine_at(4_095, 10, 5)
    };
    let (outcome, image) = run_on_blank(&[0o040100], machine, 1);
    assert_eq!((outcome.answer.number(), outcome.steps), (27, 0));
    assert_eq!(
        outcome.machine,
        Machine {
            status: 27,
            ..machine
        }
    );
    assert!(image == blank());
}

#[test]
fn pixels_come_from_the_true_ends() {
    let (outcome, image) = run_on_blank(&[0o040601], machine_at(1, 1, 1), 1);
    assert_eq!((outcome.stores, end(&outcome)), (3, (4, 2)));
    assert_eq!(shown(&image), [(0, 0, 3), (1, 1, 3), (2, 1, 3)]);
}

#[test]
fn pixels_beyond_the_field_are_left_out() {
    let (outcome, image) = run_on_blank(&[0o042000], machine_at(1_020, 0, 1), 1);
    assert_eq!((outcome.stores, end(&outcome)), (2, (1_028, 0)));
    assert_eq!(shown(&image), [(510, 0, 3), (511, 0, 3)]);
    let (outcome, image) = run_on_blank(&[0o062000], machine_at(3, 0, 1), 1);
    assert_eq!((outcome.stores, end(&outcome)), (2, (-5, 0)));
    assert_eq!(shown(&image), [(0, 0, 3), (1, 0, 3)]);
    let (outcome, image) = run_on_blank(&[0o040010], machine_at(0, 1_020, 1), 1);
    assert_eq!((outcome.stores, end(&outcome)), (2, (0, 1_028)));
    assert_eq!(shown(&image), [(0, 510, 3), (0, 511, 3)]);
    assert_eq!(list((510, 0), (514, 0)).len(), 5);
}

#[test]
fn the_latch_decides_between_the_two_stops() {
    let both = run_on_blank(&[0o171400, 0o172000], fresh(), 10).0;
    assert_eq!(
        (both.answer.number(), both.steps, both.machine.counter),
        (2, 2, 4)
    );
    assert_eq!((both.machine.status, both.machine.latch), (2, 1));
    let alone = run_on_blank(&[0o172000], fresh(), 10).0;
    assert_eq!(
        (alone.answer.number(), alone.steps, alone.machine.counter),
        (1, 1, 2)
    );
    assert_eq!((alone.machine.status, alone.machine.latch), (1, 0));
}

#[test]
fn budget_zero_does_nothing_and_a_million_is_the_most() {
    let words = file(&[0o160000, 0]);
    let mut image = patterned();
    let outcome = run(&words, fresh(), &mut image, 0, &[]);
    assert_eq!(outcome.answer.number(), 0);
    assert_eq!((outcome.steps, outcome.words, outcome.stores), (0, 0, 0));
    assert_eq!(outcome.machine, fresh());
    assert!(image == patterned());
    let outcome = run(&words, fresh(), &mut image, 1_000_000, &[]);
    assert_eq!(
        (outcome.answer.number(), outcome.steps, outcome.words),
        (0, 1_000_000, 2_000_000)
    );
    for budget in [1_000_001, u64::MAX] {
        let outcome = run(&words, fresh(), &mut image, budget, &[]);
        assert_eq!((outcome.answer.number(), outcome.steps), (17, 0));
    }
}

#[test]
fn a_segment_of_4096_words_is_taken_and_one_more_is_not() {
    let mut words = vec![0o164000; 5_000];
    words[..4].copy_from_slice(&[1, 1, 4, 4_096]);
    assert_eq!(check(&words).number(), 0);
    let outcome = run(&words, fresh(), &mut blank(), 5_000, &[]);
    assert_eq!((outcome.answer.number(), outcome.steps), (22, 4_096));
    words[3] = 4_097;
    assert_eq!(check(&words).number(), 15);
    assert_eq!(
        run(&words, fresh(), &mut blank(), 1, &[]).answer.number(),
        15
    );
}

#[test]
fn a_fresh_machine_is_as_listed() {
    let expected = Machine {
        counter: 0,
        x: Unit(0),
        y: Unit(0),
        mode: 255,
        value: 3,
        write: 1,
        latch: 0,
        increment: 0,
        status: 0,
    };
    assert_eq!(fresh(), expected);
}
