//! Runs as repeated steps: budgets, counts, and what may not matter.

use second::{fresh, run, start, step, stores, Machine};

use crate::support::*;

/// A segment with few refusals: mostly data words, and modes and settings between them.
fn lively_segment(random: &mut Random, length: usize) -> Vec<u16> {
    (0..length)
        .map(|_| match random.between(0, 9) {
            0 | 1 => 0o100000 + random.between(0, 6) as u16 * 0o4000 + (random.word() & 0o3777),
            2 => 0o164000 | random.word() & 0o3777,
            3 => 0o174000 | random.word() & 0o3777,
            4 => 0o170000 | random.word() & 0o3777,
            _ => random.word() & 0o77777,
        })
        .collect()
}

#[test]
fn a_run_is_its_steps_one_after_another() {
    let mut random = Random::new(0x5eed_0001);
    for _ in 0..300 {
        let words = file(&lively_segment(&mut random, 40));
        let machine = random.machine();
        let budget = random.between(0, 60) as u64;
        let mut whole_image = patterned();
        let whole = run(&words, machine, &mut whole_image, budget, &[]);

        let mut image = patterned();
        let mut now = machine;
        let (mut steps, mut fetched, mut stores) = (0, 0, 0);
        while steps < budget && now.status == 0 {
            let one = step(&words, now, &mut image, &[]);
            assert_eq!(one.answer.number(), one.machine.status);
            if one.steps == 0 {
                assert!(one.answer.number() >= 21);
            }
            steps += one.steps;
            fetched += one.words;
            stores += one.stores;
            now = one.machine;
        }
        assert_eq!(
            (whole.steps, whole.words, whole.stores),
            (steps, fetched, stores)
        );
        assert_eq!(whole.machine, now);
        assert_eq!(whole.answer.number(), now.status);
        assert!(whole_image == image);
    }
}

#[test]
fn only_the_header_and_the_segments_matter() {
    let mut random = Random::new(0x5eed_0002);
    for _ in 0..200 {
        let segment = lively_segment(&mut random, 30);
        // Two segments over the same words, with a gap before them and a tail behind.
        let mut one = vec![1, 2, 10, 20, 20, 20];
        let mut other = one.clone();
        one.extend((0..4).map(|_| random.word()));
        other.extend((0..4).map(|_| random.word()));
        one.extend(&segment);
        other.extend(&segment);
        other.extend((0..random.between(0, 9)).map(|_| random.word()));
        let machine = random.machine();
        let (mut one_image, mut other_image) = (patterned(), patterned());
        let one_outcome = run(&one, machine, &mut one_image, 50, &[]);
        let other_outcome = run(&other, machine, &mut other_image, 50, &[]);
        assert_eq!(one_outcome, other_outcome);
        assert!(one_image == other_image);
    }
}

#[test]
fn a_refused_instruction_touches_no_pixel() {
    let mut random = Random::new(0x5eed_0003);
    let mut refusals = 0;
    for _ in 0..3_000 {
        let words = file(&[random.word(), random.word()]);
        let machine = random.machine();
        let mut image = patterned();
        let outcome = step(&words, machine, &mut image, &[]);
        if outcome.answer.number() >= 21 {
            refusals += 1;
            let status = outcome.answer.number();
            assert_eq!(outcome.machine, Machine { status, ..machine });
            assert_eq!((outcome.steps, outcome.words, outcome.stores), (0, 0, 0));
            assert!(image == patterned());
        }
    }
    assert!(refusals > 100);
}

#[test]
fn a_budget_used_on_the_stop_answers_the_stop() {
    let segment = [0o164000, 0o172000];
    for (budget, answer, steps) in [(1, 0, 1), (2, 1, 2), (3, 1, 2)] {
        let outcome = run_on_blank(&segment, fresh(), budget).0;
        assert_eq!((outcome.answer.number(), outcome.steps), (answer, steps));
    }
}

#[test]
fn a_jump_to_itself_uses_the_budget() {
    let outcome = run_on_blank(&[0o160000, 0], fresh(), 77).0;
    assert_eq!(
        (outcome.answer.number(), outcome.steps, outcome.words),
        (0, 77, 154)
    );
    assert_eq!(outcome.machine, fresh());
}

#[test]
fn a_store_that_changes_nothing_is_still_counted() {
    let segment = [0o107400, 0o040000, 0o040000, 0o106000, 0o040000];
    let (outcome, image) = run_on_blank(&segment, fresh(), 5);
    assert_eq!((outcome.answer.number(), outcome.stores), (0, 3));
    assert!(image == blank());
}

#[test]
fn stores_need_light_and_write() {
    for (write, word, stores) in [
        (0, 0o000200, 0),
        (0, 0o040200, 0),
        (1, 0o000200, 0),
        (1, 0o040200, 1),
    ] {
        let machine = Machine {
            write,
            ..machine_at(0, 0, 1)
        };
        let outcome = run_on_blank(&[word], machine, 1).0;
        assert_eq!((outcome.stores, outcome.machine.x.0), (stores, 1));
    }
}

#[test]
fn the_stored_value_is_the_one_set_last() {
    let segment = [
        0o106400, 0o040000, 0o131000, 0o040400, 0o133000, 0o040400, 0o172000,
    ];
    let image = plotted_image(&segment);
    assert_eq!(shown(&image), [(0, 0, 1), (1, 0, 1), (2, 0, 2)]);
}

#[test]
fn a_stopped_machine_runs_on_after_a_start_and_keeps_its_mode() {
    let words = file(&[0o104000, 0o000203, 0o172000, 0o000203]);
    let mut image = blank();
    let first = run(&words, fresh(), &mut image, 10, &[]);
    assert_eq!((first.answer.number(), first.machine.counter), (1, 6));
    let (_, started) = start(first.machine, first.machine.counter);
    let second = run(&words, started, &mut image, 1, &[]);
    assert_eq!(
        (
            second.answer.number(),
            second.machine.x.0,
            second.machine.y.0
        ),
        (0, 2, 6)
    );
}

#[test]
fn a_start_at_an_odd_address_is_refused_by_the_fetch() {
    let (answer, machine) = start(fresh(), 3);
    assert_eq!(answer.number(), 0);
    let outcome = run_on_blank(&[0o164000, 0o164000], machine, 1).0;
    assert_eq!((outcome.answer.number(), outcome.machine.counter), (21, 3));
}

/// A lit vector, the same one back, a point that stands there already, and a vector out of the field.
#[test]
fn stores_are_listed_in_their_order() {
    let words = file(&[
        0o041002, 0o061102, 0o114000, 0o040004, 0o000002, 0o104000, 0o064000,
    ]);
    let listed: Vec<_> = stores(&words, machine_at(0, 0, 1), 6, &[])
        .iter()
        .map(|place| (place.x.0, place.y.0))
        .collect();
    let there = [(0, 0), (1, 1), (2, 1)];
    let back = [(2, 1), (1, 1), (0, 0)];
    let out = [(2, 1), (1, 1), (0, 1)];
    assert_eq!(listed, [&there[..], &back, &[(2, 1)], &out].concat());
}

/// With one pixel value throughout, the picture is the set of the pixels that are stored.
#[test]
fn the_listed_stores_make_the_picture_of_the_run() {
    let mut random = Random::new(0x5eed_0009);
    let mut total = 0;
    for _ in 0..300 {
        let mode = random.between(0, 6);
        let mut segment: Vec<u16> = (0..30).map(|_| random.word() & 0o77777).collect();
        // Another mode after half of the words, and no pixel value.
        segment[15] = 0o100000 + random.between(0, 6) as u16 * 0o4000;
        let machine = Machine {
            increment: random.between(0, 63) as u8,
            ..machine_at(
                random.between(0, 1_023),
                random.between(0, 1_023),
                mode as u8,
            )
        };
        let words = file(&segment);
        let mut image = blank();
        let outcome = run(&words, machine, &mut image, 60, &[]);
        let listed = stores(&words, machine, 60, &[]);
        assert_eq!(listed.len() as u64, outcome.stores);
        let mut pixels: Vec<_> = listed
            .iter()
            .map(|place| (place.x.0, place.y.0, 3))
            .collect();
        let mut lit = shown(&image);
        pixels.sort_unstable();
        pixels.dedup();
        lit.sort_unstable();
        assert_eq!(lit, pixels);
        total += listed.len();
    }
    assert!(total > 10_000, "{} stores", total);
}
