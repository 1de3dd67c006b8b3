//! Display files taken from the manuals, with the lines and images expected of them.

use second::plot::plot;
use second::{fresh, Machine};

use crate::support::*;

/// Checks the printed line and the checksum of the image.
fn expect(segment: &[u16], printed: &str, checksum: u32) {
    assert_eq!(line(segment), printed);
    assert_eq!(
        crc32(&plotted_image(segment)),
        checksum,
        "image of {}",
        printed
    );
}

/// How many pixels of an image are lit, all of them with one value.
fn lit_with(segment: &[u16], value: u8) -> usize {
    let pixels = shown(&plotted_image(segment));
    assert!(pixels.iter().all(|&(_, _, digit)| digit == value));
    pixels.len()
}

#[test]
fn listed_case() {
    let segment = [0o113400, 0o040006, 0o000004, 0o172000];
    expect(&segment, "1 3 4 4 8 6 4", 0x0032_3f9d);
    let image = plotted_image(&segment);
    assert_eq!((image[0], image[128], image[256]), (0x03, 0x3C, 0xC0));
    let bytes = [1, 0, 1, 0, 4, 0, 4, 0, 0, 0x97, 6, 0x40, 4, 0, 0, 0xF4];
    assert_eq!(bytes_of(&file(&segment)), bytes);
    assert_eq!(plot(&bytes).to_string(), "1 3 4 4 8 6 4");
}

#[test]
fn v1_rectangle() {
    let segment = [
        0o176030, 0o114000, 0, 0, 0o113777, 0o041776, 0, 0o040000, 0o001676, 0o061776, 0, 0o040000,
        0o021676, 0o170200, 0o172000,
    ];
    expect(&segment, "1 10 15 1984 30 0 0", 0xdec7_99f0);
    assert_eq!(lit_with(&segment, 3), 1_980);
    let bytes = [
        0x01, 0x00, 0x01, 0x00, 0x04, 0x00, 0x0F, 0x00, 0x18, 0xFC, 0x00, 0x98, 0x00, 0x00, 0x00,
        0x00, 0xFF, 0x97, 0xFE, 0x43, 0x00, 0x00, 0x00, 0x40, 0xBE, 0x03, 0xFE, 0x63, 0x00, 0x00,
        0x00, 0x40, 0xBE, 0x23, 0x80, 0xF0, 0x00, 0xF4,
    ];
    assert_eq!(plot(&bytes).to_string(), "1 10 15 1984 30 0 0");
}

const LARGE_RECTANGLE: [u16; 12] = [
    0o117224, 0, 0, 0o110000, 0o041777, 0, 0o040000, 0o001377, 0o061777, 0, 0o040000, 0o021377,
];

fn with_tail(tail: &[u16]) -> Vec<u16> {
    [&LARGE_RECTANGLE, tail].concat()
}

#[test]
fn v2_large_rectangle() {
    expect(
        &with_tail(&[0o160000, 0]),
        "0 1000 1750 224000 0 0 0",
        0x1830_64ed,
    );
    expect(&with_tail(&[0o172000]), "1 8 13 1792 26 0 0", 0x1830_64ed);
    assert_eq!(lit_with(&with_tail(&[0o172000]), 2), 2 * 512 + 2 * 384 - 4);
}

#[test]
fn v3_rectangle_with_diagonal() {
    let stopping = with_tail(&[0o110037, 0o041777, 0o001377, 0o172000]);
    expect(&stopping, "1 10 16 2304 32 1023 767", 0x903b_8e24);
    assert_eq!(lit_with(&stopping, 2), 2_298);
    let looping = with_tail(&[0o110037, 0o041777, 0o001377, 0o160000, 0]);
    assert_eq!(line(&looping), "0 1000 1700 230400 0 1023 767");
}

#[test]
fn v4_feed_me_ends_at_its_zero_byte() {
    let segment = [
        0o114024, 0o001050, 0o000577, 0o100000, 0o042506, 0o042105, 0o046440, 0o000105, 0o172000,
    ];
    // F, E, E, D and M have 21, 25, 25, 28 and 35 pixels, a space none.
    assert_eq!(line(&segment), "32 6 7 134 14 648 383");
}

#[test]
fn v4_feed_me_padded_with_a_space() {
    let segment = [
        0o114024, 0o001050, 0o000577, 0o100000, 0o042506, 0o042105, 0o046440, 0o020105, 0o172000,
    ];
    assert_eq!(line(&segment), "1 8 9 159 18 680 383");
    // The lower left corner of the first cell, and of the cells after it, is at these pixels.
    let corners = [
        (276, 'F'),
        (284, 'E'),
        (292, 'E'),
        (300, 'D'),
        (316, 'M'),
        (324, 'E'),
    ];
    let mut expected = Vec::new();
    for (left, letter) in corners {
        let rows = match letter {
            'F' => [0x7E, 0x60, 0x60, 0x7C, 0x60, 0x60, 0x60, 0],
            'E' => [0x7E, 0x60, 0x60, 0x7C, 0x60, 0x60, 0x7E, 0],
            'D' => [0x78, 0x6C, 0x66, 0x66, 0x66, 0x6C, 0x78, 0],
            _ => [0xC6, 0xEE, 0xFE, 0xD6, 0xD6, 0xC6, 0xC6, 0],
        };
        for (y, row) in (191..199).rev().zip(rows) {
            let columns = (0..8).filter(|column| row >> (7 - column) & 1 == 1);
            expected.extend(columns.map(|column| (left + column, y, 3)));
        }
    }
    let mut lit = shown(&plotted_image(&segment));
    lit.sort_unstable();
    expected.sort_unstable();
    assert_eq!(lit, expected);
}

const GRAPH_HEAD: [u16; 5] = [0o114000, 0o040000, 0o000577, 0o174150, 0o124000];

#[test]
fn v5_graph_as_printed() {
    let mut segment = GRAPH_HEAD.to_vec();
    segment.extend([700, 800, 900, 1_000, 900, 800, 700, 600, 0o172000]);
    expect(&segment, "1 13 14 1 28 320 600", 0xd531_f2ca);
    assert_eq!(shown(&plotted_image(&segment)), [(0, 191, 3)]);
}

#[test]
fn v5_graph_lit() {
    let mut segment = GRAPH_HEAD.to_vec();
    segment.extend([
        0o041274, 0o041440, 0o041604, 0o041750, 0o041604, 0o041440, 0o041274, 0o041130, 0o172000,
    ]);
    expect(&segment, "1 13 14 9 28 320 600", 0x226f_d2f0);
    let rows = [
        (0, 191, 3),
        (140, 300, 3),
        (0, 350, 3),
        (120, 350, 3),
        (20, 400, 3),
        (100, 400, 3),
        (40, 450, 3),
        (80, 450, 3),
        (60, 500, 3),
    ];
    assert_eq!(shown(&plotted_image(&segment)), rows);
}

#[test]
fn v6_bootstrap_program() {
    let segment = [0o114000, 0, 0, 0o110000, 0o041000, 0o001000, 0o160000, 0];
    expect(&segment, "0 1000 1600 51400 0 512 512", 0x5eb6_4e97);
    let diagonal: Vec<_> = (0..=256).map(|i| (i, i, 3)).collect();
    assert_eq!(shown(&plotted_image(&segment)), diagonal);
    let once = run_on_blank(&segment, fresh(), 5).0;
    assert_eq!(
        (once.answer.number(), once.steps, once.words, once.stores),
        (0, 5, 8, 257)
    );
    assert_eq!(
        (once.machine.counter, once.machine.x.0, once.machine.y.0),
        (0, 512, 512)
    );
    let bytes = [
        0x01, 0x00, 0x01, 0x00, 0x04, 0x00, 0x08, 0x00, 0x00, 0x98, 0x00, 0x00, 0x00, 0x00, 0x00,
        0x90, 0x00, 0x42, 0x00, 0x02, 0x00, 0xE0, 0x00, 0x00,
    ];
    assert_eq!(plot(&bytes).to_string(), "0 1000 1600 51400 0 512 512");
}

#[test]
fn v7_vector_figures() {
    let from_zero = |vectors: &[u16]| [&[0o114000, 0, 0, 0o110000], vectors, &[0o172000]].concat();
    expect(
        &from_zero(&[0o041777, 0o001777]),
        "1 5 7 512 14 1023 1023",
        0x98c2_ea2d,
    );
    expect(
        &from_zero(&[0o041777, 0o001000]),
        "1 5 7 512 14 1023 512",
        0x7dba_a627,
    );
    expect(
        &from_zero(&[0o041777, 0o021777]),
        "1 5 7 1 14 1023 -1023",
        0xfa58_bcd9,
    );
    let from_middle = [
        0o114000, 0o1000, 0o1000, 0o110000, 0o041777, 0o001777, 0o172000,
    ];
    expect(&from_middle, "1 5 7 256 14 1535 1535", 0x08dc_06b2);
    let peak = from_zero(&[0o041000, 0o001777, 0o041000, 0o021777]);
    expect(&peak, "1 6 9 1023 18 1024 0", 0xb849_91f1);
}

#[test]
fn v8_box_with_both_diagonals_drawn_both_ways() {
    let segment = [
        &[0o114000, 0, 0, 0o110000, 0o041777, 0][..],
        &[0o114000, 0, 0, 0o110000, 0o041777, 0o001377],
        &[0o114000, 0o1777, 0, 0o110000, 0o061777, 0o001377],
        &[
            0o114000, 0o1777, 0, 0o110000, 0o040000, 0o001377, 0o061777, 0o021377,
        ],
        &[0o114000, 0, 0o1377, 0o110000, 0o041777, 0o021377],
        &[
            0o114000, 0o1777, 0o1377, 0o110000, 0o061777, 0, 0o040000, 0o021377,
        ],
        &[0o172000],
    ]
    .concat();
    expect(&segment, "1 27 41 3840 82 0 0", 0xe746_1697);
    assert_eq!(lit_with(&segment, 3), 2_808);
    let each_line_once = [
        &[0o114000, 0, 0, 0o110000, 0o041777, 0][..],
        &[0o040000, 0o001377, 0o061777, 0, 0o040000, 0o021377],
        &[0o041777, 0o001377, 0o114000, 0o1777, 0],
        &[0o110000, 0o061777, 0o001377, 0o172000],
    ]
    .concat();
    let (outcome, image) = run_on_blank(&each_line_once, fresh(), 1_000);
    assert_eq!((outcome.answer.number(), outcome.stores), (1, 2_816));
    assert!(image == plotted_image(&segment));
}

#[test]
fn v9_rectangles_over_the_edge_of_the_field() {
    let mut segment = vec![
        0o114000, 0, 0, 0o110000, 0o041776, 0, 0o040000, 0o001776, 0o061776, 0, 0o040000, 0o021776,
    ];
    for (x, y) in [(0, 512), (1_022, 512), (512, 0), (512, 1_022)] {
        segment.extend([
            0o114000, x, y, 0o110000, 0o020100, 0o020100, 0o040200, 0, 0o040000,
        ]);
        segment.extend([0o000200, 0o060200, 0, 0o040000, 0o020200]);
    }
    segment.push(0o172000);
    expect(&segment, "1 40 69 2572 138 448 958", 0xccc5_63be);
}

#[test]
fn v10_graph_increments() {
    for i in 0..=63_u16 {
        let segment = [
            0o114000,
            0,
            0,
            0o174100 + i,
            0o124000,
            0o040100,
            0o040200,
            0o040300,
            0o172000,
        ];
        assert_eq!(line(&segment), format!("1 8 9 3 18 {} 192", 3 * i));
        let i = i64::from(i);
        let points = [(0, 32, 3), (i / 2, 64, 3), (i, 96, 3)];
        assert_eq!(shown(&plotted_image(&segment)), points);
    }
}

#[test]
fn v11_the_base_replaces_digits() {
    for first in [0o176026, 0o176020] {
        let segment = [
            first, 0o114000, 0, 0o000010, 0o112400, 0o040020, 0, 0o114000, 0o000010, 0, 0o113000,
            0o040000, 0o000020, 0o172000,
        ];
        assert_eq!(line(&segment), "1 10 14 18 28 8 16");
        let image = plotted_image(&segment);
        assert!(shown(&image).contains(&(4, 4, 2)));
    }
}

/// The machine after one word, as seen from a fresh machine with another increment.
fn alone(word: u16) -> (u8, Machine) {
    let machine = Machine {
        increment: 9,
        ..fresh()
    };
    let outcome = run_on_blank(&[word, 0o000100], machine, 1).0;
    let mut left = outcome.machine;
    if left.counter == 2 {
        left.counter = 0;
    }
    (outcome.answer.number(), left)
}

#[test]
fn v12_op_code_table() {
    let machine = Machine {
        increment: 9,
        ..fresh()
    };
    let refused = |status| (status, Machine { status, ..machine });
    let mode = |mode, value| {
        (
            0,
            Machine {
                mode,
                value,
                ..machine
            },
        )
    };
    let jump = (
        0,
        Machine {
            counter: 64,
            ..machine
        },
    );
    let latch = |latch| (0, Machine { latch, ..machine });
    let stop = |status, latch| {
        let left = Machine {
            status,
            latch,
            ..machine
        };
        (status, left)
    };
    let increment = |increment| {
        (
            0,
            Machine {
                increment,
                ..machine
            },
        )
    };
    let write = |write| (0, Machine { write, ..machine });
    let nothing = (0, machine);
    let cases = [
        (0o100000, mode(0, 3)),
        (0o102400, mode(0, 1)),
        (0o104000, mode(1, 3)),
        (0o106000, mode(1, 0)),
        (0o106400, mode(1, 1)),
        (0o110000, mode(2, 3)),
        (0o113000, mode(2, 2)),
        (0o114000, mode(3, 3)),
        (0o120000, mode(4, 3)),
        (0o124000, mode(5, 3)),
        (0o127777, mode(5, 3)),
        (0o130000, mode(6, 3)),
        (0o134000, refused(24)),
        (0o157777, refused(24)),
        (0o160000, jump),
        (0o160001, jump),
        (0o162000, jump),
        (0o164000, nothing),
        (0o165000, nothing),
        (0o167777, nothing),
        (0o170000, nothing),
        (0o171000, latch(0)),
        (0o171400, latch(1)),
        (0o172000, stop(1, 0)),
        (0o173000, stop(1, 0)),
        (0o173400, stop(2, 1)),
        (0o174000, nothing),
        (0o174100, increment(0)),
        (0o174177, increment(63)),
        (0o174200, nothing),
        (0o175000, nothing),
        (0o175100, increment(0)),
        (0o176000, write(0)),
        (0o176020, write(1)),
        (0o176040, write(0)),
        (0o176060, write(1)),
        (0o176400, nothing),
        (0o177777, nothing),
    ];
    for (word, expected) in cases {
        assert_eq!(alone(word), expected, "{:o}", word);
    }
}

#[test]
fn v12_subroutine_words_are_plain_in_the_base() {
    let segment = [0o160001, 0o000010, 0o172000, 0o164000, 0o164000, 0o165000];
    assert_eq!(line(&segment), "23 3 4 0 12 0 0");
}

#[test]
fn v13_status_a_cases() {
    for (segment, printed) in [
        (vec![0o172000], "1 1 1 0 2 0 0"),
        (vec![0o171400], "23 1 1 0 2 0 0"),
        (vec![0o173400], "2 1 1 0 2 0 0"),
        (vec![0o171400, 0o172000], "2 2 2 0 4 0 0"),
        (vec![0o171400, 0o173000], "1 2 2 0 4 0 0"),
    ] {
        assert_eq!(line(&segment), printed);
    }
}
