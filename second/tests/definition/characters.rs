//! Mode 0, characters: each sentence of the request that asked for them.

use std::fs;
use std::path::Path;

use second::{fresh, read_pixel, run, start, step, stores, Machine, Outcome, Pixel};
use second::{BUILT_IN, IMAGE_BYTES, SET_BYTES};

use crate::support::*;

/// A set in which every cell differs from every other.
fn lent_set() -> Vec<u8> {
    (0..SET_BYTES)
        .map(|i| (i * 37 + i / 8 * 101) as u8)
        .collect()
}

/// The word of two characters.
fn word(first: char, second: char) -> u16 {
    second as u16 * 256 + first as u16
}

fn step_on(image: &mut [u8], word: u16, machine: Machine, set: &[u8]) -> Outcome {
    step(&file(&[word]), machine, image, set)
}

/// The stores of a word on a machine, in their order.
fn stored(word: u16, machine: Machine, set: &[u8]) -> Vec<(i64, i64)> {
    stores(&file(&[word]), machine, 1, set)
        .iter()
        .map(|place| (place.x.0, place.y.0))
        .collect()
}

/// The pixels of a cell's ink with its lower left corner at a pixel, in the field or not: written
/// out here once more, from the top row down and from the left.
fn ink(cell: &[u8], left: i64, bottom: i64) -> Vec<(i64, i64)> {
    let mut pixels = Vec::new();
    for row in 0..8 {
        for column in 0..8 {
            if cell[row as usize] & (0x80 >> column) != 0 {
                pixels.push((left + column, bottom + 7 - row));
            }
        }
    }
    pixels
}

fn cell(set: &[u8], code: u16) -> &[u8] {
    let from = 8 * (usize::from(code) - 32);
    &set[from..from + 8]
}

fn in_field(&(x, y): &(i64, i64)) -> bool {
    (0..512).contains(&x) && (0..512).contains(&y)
}

// ---- by hand

/// A 1 and a 7 at units (10, 20), which is pixel (5, 10), as docs/CHARACTERS.md has their pictures.
#[test]
fn two_digits_written_out() {
    let one = [
        &[(8, 17), (9, 17)][..],
        &[(7, 16), (8, 16), (9, 16)],
        &[(6, 15), (7, 15), (8, 15), (9, 15)],
        &[(8, 14), (9, 14)],
        &[(8, 13), (9, 13)],
        &[(8, 12), (9, 12)],
        &[(6, 11), (7, 11), (8, 11), (9, 11), (10, 11), (11, 11)],
    ]
    .concat();
    let seven = [
        &[(14, 17), (15, 17), (16, 17), (17, 17), (18, 17), (19, 17)][..],
        &[(18, 16), (19, 16)],
        &[(17, 15), (18, 15)],
        &[(17, 14), (18, 14)],
        &[(16, 13), (17, 13)],
        &[(16, 12), (17, 12)],
        &[(16, 11), (17, 11)],
    ]
    .concat();
    let expected = [one, seven].concat();
    for at in [machine_at(10, 20, 0), machine_at(11, 21, 0)] {
        let (outcome, image) = run_on_blank(&[0x3731], at, 1);
        assert_eq!(outcome.answer.number(), 0);
        assert_eq!((outcome.steps, outcome.words, outcome.stores), (1, 1, 39));
        assert_eq!(
            outcome.machine,
            Machine {
                counter: 2,
                x: at.x + second::Unit(32),
                ..at
            }
        );
        assert_eq!(stored(0x3731, at, &[]), expected);
        let mut lit: Vec<_> = expected.iter().map(|&(x, y)| (x, y, 3)).collect();
        lit.sort_unstable_by_key(|&(x, y, _)| (y, x));
        assert_eq!(shown(&image), lit);
    }
}

/// A comma, whose ink is in the three lowest rows, at pixel (-2, -1): the column left of a row's ink
/// and the lowest row are cut off.
#[test]
fn a_cut_cell_written_out() {
    // ....##.. two above the lowest row, ...##... one above it, ..##.... lowest.
    let at = machine_at(-4, -2, 0);
    assert_eq!(
        stored(word(',', ' '), at, &[]),
        [(2, 1), (3, 1), (1, 0), (2, 0)]
    );
    let at = machine_at(-8, 0, 0);
    assert_eq!(stored(word(',', ' '), at, &[]), [(0, 2), (1, 2), (0, 1)]);
    // At pixel (507, 506), then as the second character at pixel (508, 506).
    let at = machine_at(1_014, 1_012, 0);
    let rows = [(511, 508), (510, 507), (511, 507), (509, 506), (510, 506)];
    assert_eq!(stored(word(',', ' '), at, &[]), rows);
    let at = machine_at(1_000, 1_012, 0);
    let rows = [(511, 507), (510, 506), (511, 506)];
    assert_eq!(stored(word(' ', ','), at, &[]), rows);
}

// ---- the word

#[test]
fn the_low_code_comes_first_and_bit_7_is_not_read() {
    let at = machine_at(100, 100, 0);
    for set in [&[][..], &lent_set()] {
        let used = if set.is_empty() { &BUILT_IN[..] } else { set };
        for first in 32..=126 {
            for second in 32..=126 {
                let (left, right) = (cell(used, first), cell(used, second));
                let expected = [ink(left, 50, 50), ink(right, 58, 50)].concat();
                for bit_7 in [0, 1 << 7] {
                    let word = second << 8 | bit_7 | first;
                    let mut image = blank();
                    let outcome = step_on(&mut image, word, at, set);
                    assert_eq!(outcome.answer.number(), 0);
                    assert_eq!(outcome.stores, expected.len() as u64);
                    let lit = |&(x, y): &(i64, i64)| read_pixel(&image, Pixel(x), Pixel(y)).1 == 3;
                    assert!(expected.iter().all(lit), "{} {}", first, second);
                }
            }
        }
    }
    assert_eq!(stored(word('1', '7'), at, &[]), stored(0o033661, at, &[]));
}

/// Bit 14 is the highest of the second code, set in a letter and clear in a digit.
#[test]
fn every_character_is_lit() {
    for (second, pixels) in [('1', 21), ('q', 22), ('!', 18)] {
        let at = machine_at(0, 0, 0);
        assert_eq!(stored(word(' ', second), at, &[]).len(), pixels);
        assert_eq!(stored(word(second, ' '), at, &[]).len(), pixels);
    }
    assert_eq!((word(' ', '1') >> 14, word(' ', 'q') >> 14), (0, 1));
}

#[test]
fn a_lit_character_is_stored_only_while_write_is_on() {
    let off = Machine {
        write: 0,
        ..machine_at(100, 100, 0)
    };
    let mut image = patterned();
    let outcome = step_on(&mut image, word('8', '8'), off, &[]);
    assert_eq!(
        (outcome.answer.number(), outcome.steps, outcome.stores),
        (0, 1, 0)
    );
    assert_eq!((outcome.machine.x.0, outcome.machine.y.0), (132, 100));
    assert!(image == patterned());
}

// ---- the cell

#[test]
fn rows_go_down_bits_go_right_and_the_lower_left_is_the_positions_pixel() {
    let mut set = vec![0; SET_BYTES];
    let mut mark = |code: u16, row: usize, bits: u8| set[8 * usize::from(code - 32) + row] = bits;
    mark(32, 0, 0x80);
    mark(33, 7, 0x01);
    mark(126, 7, 0x80);
    mark(125, 0, 0x01);
    for (x, y, left, bottom) in [
        (0, 0, 0, 0),
        (1, 1, 0, 0),
        (2, 3, 1, 1),
        (-1, -1, -1, -1),
        (-3, 5, -2, 2),
        (999, 998, 499, 499),
    ] {
        let at = machine_at(x, y, 0);
        for (code, place) in [
            (32, (left, bottom + 7)),
            (33, (left + 7, bottom)),
            (126, (left, bottom)),
            (125, (left + 7, bottom + 7)),
        ] {
            let mut expected = vec![place, (place.0 + 8, place.1)];
            expected.retain(in_field);
            assert_eq!(stored(code << 8 | code, at, &set), expected);
        }
    }
}

#[test]
fn set_bits_store_the_value_and_clear_bits_nothing() {
    let set = lent_set();
    for value in 0..=3 {
        let at = Machine {
            value,
            ..machine_at(301, 77, 0)
        };
        let mut image = patterned();
        let outcome = step_on(&mut image, word('A', '~'), at, &set);
        let places = [ink(cell(&set, 65), 150, 38), ink(cell(&set, 126), 158, 38)].concat();
        assert_eq!(outcome.stores, places.len() as u64);
        let before = patterned();
        for y in 30..54 {
            for x in 140..180 {
                let expected = if places.contains(&(x, y)) {
                    value
                } else {
                    read_pixel(&before, Pixel(x), Pixel(y)).1
                };
                assert_eq!(read_pixel(&image, Pixel(x), Pixel(y)).1, expected);
            }
        }
        let touched = (0..IMAGE_BYTES).filter(|&i| image[i] != before[i]);
        assert!(touched.into_iter().all(|i| (38..46).contains(&(i / 128))));
    }
}

#[test]
fn each_character_advances_x_by_16_units() {
    for x in [-4_096, -17, -1, 0, 1, 500, 1_023, 4_062, 4_063] {
        for y in [-4_096, 0, 4_095] {
            let (outcome, _) = run_on_blank(&[word('4', '2')], machine_at(x, y, 0), 1);
            assert_eq!(outcome.answer.number(), 0);
            assert_eq!((outcome.machine.x.0, outcome.machine.y.0), (x + 32, y));
        }
    }
    // Five words in a row: ten cells side by side, each eight pixels on.
    let mut set = vec![0; SET_BYTES];
    set[7] = 0x80;
    let words = file(&[word(' ', ' '); 5]);
    let columns: Vec<i64> = stores(&words, machine_at(7, 0, 0), 5, &set)
        .iter()
        .map(|place| place.x.0)
        .collect();
    assert_eq!(columns, [3, 11, 19, 27, 35, 43, 51, 59, 67, 75]);
}

/// A full cell at every place about each edge of the field, against the pixels of the whole cell.
#[test]
fn only_what_is_in_the_field_is_stored() {
    let set = vec![0xFF; SET_BYTES];
    let about: Vec<i64> = (-36..=4).chain(984..=1_030).collect();
    let mut image = blank();
    for &x in &about {
        for &y in &about {
            let (left, bottom) = (x.div_euclid(2), y.div_euclid(2));
            let mut expected = [
                ink(&[0xFF; 8], left, bottom),
                ink(&[0xFF; 8], left + 8, bottom),
            ]
            .concat();
            expected.retain(in_field);
            let outcome = step_on(&mut image, word('a', 'b'), machine_at(x, y, 0), &set);
            assert_eq!(outcome.stores, expected.len() as u64, "({}, {})", x, y);
            let lit = |&(x, y): &(i64, i64)| read_pixel(&image, Pixel(x), Pixel(y)).1 == 3;
            assert!(expected.iter().all(lit), "({}, {})", x, y);
            // Cleared again, so that nothing else was lit.
            let erased = Machine {
                value: 0,
                ..machine_at(x, y, 0)
            };
            step_on(&mut image, word('a', 'b'), erased, &set);
            assert_eq!(image.iter().position(|&byte| byte != 0), None);
        }
    }
}

#[test]
fn the_order_of_the_stores_is_first_character_top_row_left_pixel() {
    let set = lent_set();
    let mut random = Random::new(0x5eed_2001);
    for _ in 0..500 {
        let (x, y) = (random.between(-40, 1_040), random.between(-40, 1_040));
        let first = random.between(32, 126) as u16;
        let second = random.between(32, 126) as u16;
        let (left, bottom) = (x.div_euclid(2), y.div_euclid(2));
        let mut expected = [
            ink(cell(&set, first), left, bottom),
            ink(cell(&set, second), left + 8, bottom),
        ]
        .concat();
        expected.retain(in_field);
        assert_eq!(
            stored(second << 8 | first, machine_at(x, y, 0), &set),
            expected
        );
    }
}

// ---- the sets

#[test]
fn an_empty_set_is_the_built_in_one_and_760_bytes_are_the_hosts() {
    let at = machine_at(100, 100, 0);
    let drawn = |set: &[u8]| {
        let mut image = blank();
        let outcome = step_on(&mut image, word('0', '9'), at, set);
        assert_eq!(outcome.answer.number(), 0);
        image
    };
    assert!(drawn(&[]) == drawn(&BUILT_IN));
    assert!(drawn(&lent_set()) != drawn(&[]));
    assert!(drawn(&[0; SET_BYTES]) == blank());
    // In a lent set a space may have ink, and any cell may be blank.
    assert_eq!(stored(word(' ', ' '), at, &[0xFF; SET_BYTES]).len(), 128);
    assert_eq!(stored(word(' ', ' '), at, &[]).len(), 0);
}

#[test]
fn eighteen_is_for_a_set_of_neither_0_nor_760_bytes() {
    let words = file(&[word('0', '9')]);
    let machine = machine_at(100, 100, 0);
    for bytes in (1..=1_024).chain([1_520, 7_600, 65_536, 66_296]) {
        let set = vec![0xFF; bytes];
        let mut image = patterned();
        let stepped = step(&words, machine, &mut image, &set);
        let ran = run(&words, machine, &mut image, 1, &set);
        assert_eq!(stepped, ran);
        if bytes == SET_BYTES {
            assert_eq!((ran.answer.number(), ran.stores), (0, 128));
        } else {
            assert_eq!(ran.answer.number(), 18, "{} bytes", bytes);
            assert_eq!((ran.steps, ran.words, ran.stores), (0, 0, 0));
            assert_eq!(ran.machine, machine);
            assert!(image == patterned());
        }
    }
}

#[test]
fn in_the_built_in_set_only_the_space_is_blank_and_the_digits_differ() {
    for code in 33..=126 {
        assert!(
            cell(&BUILT_IN, code).iter().any(|&row| row != 0),
            "{}",
            code
        );
    }
    assert_eq!(cell(&BUILT_IN, 32), [0; 8]);
    for digit in 48..=57 {
        for other in 48..digit {
            assert_ne!(cell(&BUILT_IN, digit), cell(&BUILT_IN, other));
        }
    }
}

/// Each cell of the page: a line `49 1`, and below it eight rows, a picture and a byte in hex.
#[test]
fn the_built_in_set_is_the_one_that_is_listed() {
    let path = Path::new(env!("CARGO_MANIFEST_DIR")).join("../docs/CHARACTERS.md");
    let page = fs::read_to_string(path).expect("the page");
    let list = page.split("```").nth(1).expect("the list");
    let lines: Vec<&str> = list
        .lines()
        .skip(1)
        .filter(|line| !line.is_empty())
        .collect();
    let mut codes = Vec::new();
    for block in lines.chunks(9) {
        assert_eq!(block.len(), 9);
        // A cell takes 11 places of a line, and 4 are left between two.
        for from in (0..block[0].len()).step_by(15) {
            let name = block[0][from..].split_whitespace().collect::<Vec<_>>();
            let code: u16 = name[0].parse().expect("a code");
            let sign = name[1].to_string();
            assert!(sign == "space" && code == 32 || sign == char::from(code as u8).to_string());
            let listed = &block[1..];
            for (row, &byte) in listed.iter().zip(cell(&BUILT_IN, code)) {
                let picture: String = (0..8)
                    .map(|column| if byte & 0x80 >> column == 0 { '.' } else { '#' })
                    .collect();
                assert_eq!(row[from..from + 11], format!("{} {:02X}", picture, byte));
            }
            codes.push(code);
        }
    }
    assert!(codes.into_iter().eq(32..=126));
}

// ---- refusals

/// All that a refusal of the word must leave: the status and nothing else.
fn expect_refused(word: u16, machine: Machine, number: u8) {
    for set in [&[][..], &[0xFF; SET_BYTES]] {
        let mut image = patterned();
        let outcome = step_on(&mut image, word, machine, set);
        assert_eq!(outcome.answer.number(), number, "{:o}", word);
        assert_eq!((outcome.steps, outcome.words, outcome.stores), (0, 0, 0));
        let left = Machine {
            status: number,
            ..machine
        };
        assert_eq!(outcome.machine, left);
        assert!(image == patterned());
    }
}

#[test]
fn thirty_two_is_for_a_code_outside_32_to_126_in_either_half() {
    let at = machine_at(100, 100, 0);
    for code in (0..32).chain([127]) {
        for bit_7 in [0, 1 << 7] {
            expect_refused(word('8', ' ') & 0o377 | code << 8 | bit_7, at, 32);
            expect_refused(word(' ', '8') & 0o77400 | code | bit_7, at, 32);
            expect_refused(code << 8 | code | bit_7, at, 32);
        }
    }
    for code in [32, 126] {
        for other in [32, 57, 126] {
            for word in [code << 8 | other, other << 8 | code] {
                assert_eq!(step_on(&mut blank(), word, at, &[]).answer.number(), 0);
            }
        }
    }
}

#[test]
fn thirty_two_speaks_before_27() {
    for x in [4_063, 4_064, 4_079, 4_080, 4_095] {
        let at = machine_at(x, 0, 0);
        for bad in [0o020037, 0o077440, 0] {
            expect_refused(bad, at, 32);
        }
    }
}

#[test]
fn twenty_seven_is_for_the_two_advances_together() {
    for (x, number) in [
        (4_062, 0),
        (4_063, 0),
        (4_064, 27),
        (4_079, 27),
        (4_080, 27),
        (4_095, 27),
    ] {
        let at = machine_at(x, 0, 0);
        if number == 0 {
            let outcome = step_on(&mut blank(), word('8', '8'), at, &[]);
            assert_eq!((outcome.answer.number(), outcome.machine.x.0), (0, x + 32));
        } else {
            expect_refused(word('8', '8'), at, number);
        }
    }
}

#[test]
fn earlier_steps_keep_their_effect() {
    let segment = [0o102400, word('1', '7'), 0o020000];
    let (outcome, image) = run_on_blank(&segment, machine_at(10, 20, 255), 10);
    assert_eq!(outcome.answer.number(), 32);
    assert_eq!((outcome.steps, outcome.words, outcome.stores), (2, 2, 39));
    let left = Machine {
        counter: 4,
        value: 1,
        status: 32,
        ..machine_at(42, 20, 0)
    };
    assert_eq!(outcome.machine, left);
    assert_eq!(shown(&image).len(), 39);
}

// ---- the mode and the statuses

#[test]
fn code_0_sets_the_mode_and_only_with_bit_10_the_value() {
    for (order, value) in [
        (0o100000, 3),
        (0o101777, 3),
        (0o102000, 0),
        (0o102400, 1),
        (0o103000, 2),
        (0o103777, 3),
    ] {
        let (outcome, _) = run_on_blank(&[order], fresh(), 1);
        assert_eq!((outcome.answer.number(), outcome.steps), (0, 1));
        let set = Machine {
            counter: 2,
            mode: 0,
            value,
            ..fresh()
        };
        assert_eq!(outcome.machine, set);
    }
    for code in [7, 8, 9, 10, 11] {
        let (outcome, _) = run_on_blank(&[0o100000 | code << 11], fresh(), 1);
        assert_eq!(outcome.answer.number(), 24);
    }
}

#[test]
fn without_a_mode_a_character_word_is_still_25() {
    let (outcome, _) = run_on_blank(&[word('1', '7')], fresh(), 1);
    assert_eq!(outcome.answer.number(), 25);
    // A bad code too: there is no mode that would make it one.
    assert_eq!(run_on_blank(&[0], fresh(), 1).0.answer.number(), 25);
}

#[test]
fn sixteen_lets_mode_0_and_status_32_pass() {
    let machine = machine_at(0, 0, 0);
    assert_eq!(start(machine, 8).0.number(), 0);
    let refused = Machine {
        status: 32,
        counter: 6,
        ..machine
    };
    let mut image = patterned();
    let outcome = run(&file(&[0o164000]), refused, &mut image, 1, &[]);
    assert_eq!((outcome.answer.number(), outcome.machine), (28, refused));
    let (answer, started) = start(refused, 8);
    let running = Machine {
        status: 0,
        counter: 8,
        ..machine
    };
    assert_eq!((answer.number(), started), (0, running));
    for status in [18, 29, 30, 31, 33, 34, 35, 36] {
        let machine = Machine { status, ..machine };
        assert_eq!(start(machine, 8).0.number(), 16, "status {}", status);
    }
}

#[test]
fn other_modes_follow_where_the_characters_ended() {
    let segment = [
        0o100000,
        word('4', '2'),
        0o104000,
        0o040000,
        0o100000,
        word('-', ' '),
    ];
    let machine = machine_at(20, 20, 255);
    let words = file(&segment);
    let listed: Vec<_> = stores(&words, machine, 6, &[])
        .iter()
        .map(|place| (place.x.0, place.y.0))
        .collect();
    let expected = [
        ink(cell(&BUILT_IN, 52), 10, 10),
        ink(cell(&BUILT_IN, 50), 18, 10),
        vec![(26, 10)],
        ink(cell(&BUILT_IN, 45), 26, 10),
    ]
    .concat();
    assert_eq!(listed, expected);
}

/// The numbers under two columns of a chart: week 1 and week 52.
#[test]
fn numbers_under_the_columns() {
    let segment = [
        0o114000,
        96,
        64,
        0o100000,
        word(' ', '1'),
        0o114000,
        912,
        64,
        0o100000,
        word('5', '2'),
        0o172000,
    ];
    // The digits 1, 5 and 2 have 21, 24 and 23 pixels.
    assert_eq!(line(&segment), "1 9 11 68 22 944 64");
}
