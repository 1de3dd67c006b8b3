//! Drift and the exact line: positions and pixels over many random cases.

use second::vector::pixels;
use second::{fresh, run, start, Machine, Place, Position, Unit};

use crate::support::*;

/// Holds one coordinate of one pixel against its exact point, in whole numbers.
fn is_within_a_pixel(pixel: i64, start: i64, end: i64, i: i64, n: i64) -> bool {
    let exact = start * (n - i) + end * i;
    (2 * n * pixel - exact).abs() < 2 * n
}

fn check_vector(from: Position, to: Position) {
    let list: Vec<Place> = pixels(from.place(), to.place()).collect();
    let (first, last) = (list[0], list[list.len() - 1]);
    assert_eq!((first, last), (from.place(), to.place()));
    let n = list.len() as i64 - 1;
    let across = (last.x.0 - first.x.0).abs();
    let up = (last.y.0 - first.y.0).abs();
    assert_eq!(n, across.max(up));

    if n == 0 {
        for end in [from, to] {
            assert!((2 * first.x.0 - end.x.0).abs() <= 1);
            assert!((2 * first.y.0 - end.y.0).abs() <= 1);
        }
    }
    for (i, place) in list.iter().enumerate().filter(|_| n > 0) {
        let i = i as i64;
        assert!(
            is_within_a_pixel(place.x.0, from.x.0, to.x.0, i, n),
            "{:?} {:?}",
            from,
            to
        );
        assert!(
            is_within_a_pixel(place.y.0, from.y.0, to.y.0, i, n),
            "{:?} {:?}",
            from,
            to
        );
    }
    for pair in list.windows(2) {
        let dx = (pair[1].x.0 - pair[0].x.0).abs();
        let dy = (pair[1].y.0 - pair[0].y.0).abs();
        assert!(dx <= 1 && dy <= 1);
        assert_eq!(if across >= up { dx } else { dy }, 1);
    }
    let mut back: Vec<Place> = pixels(to.place(), from.place()).collect();
    back.reverse();
    assert_eq!(list, back, "{:?} {:?}", from, to);
}

#[test]
fn pixels_keep_to_the_exact_line_and_to_the_reverse() {
    let mut random = Random::new(0x5eed_1001);
    for round in 0..30_000 {
        let reach = [3, 63, 1_023][round % 3];
        let (x, y) = (random.between(-4_096, 4_095), random.between(-4_096, 4_095));
        let (dx, dy) = (random.between(-reach, reach), random.between(-reach, reach));
        check_vector(unit_point(x, y), unit_point(x + dx, y + dy));
    }
}

#[test]
fn every_small_vector_from_every_half_pixel() {
    for x in -2..=1 {
        for y in -2..=1 {
            for dx in -14..=14 {
                for dy in -14..=14 {
                    check_vector(unit_point(x, y), unit_point(x + dx, y + dy));
                }
            }
        }
    }
}

/// A long vector's two words.
fn long_words(lit: bool, dx: i64, dy: i64) -> [u16; 2] {
    let word = |size: i64| size.unsigned_abs() as u16 + if size < 0 { 0o020000 } else { 0 };
    [word(dx) + if lit { 0o040000 } else { 0 }, word(dy)]
}

#[test]
fn the_image_holds_the_vector_pixels_that_are_in_the_field() {
    let mut random = Random::new(0x5eed_1002);
    for _ in 0..60 {
        let (x, y) = (random.between(-1_000, 2_000), random.between(-1_000, 2_000));
        let (dx, dy) = (random.between(-1_023, 1_023), random.between(-1_023, 1_023));
        let (outcome, image) = run_on_blank(&long_words(true, dx, dy), machine_at(x, y, 2), 1);
        let end = unit_point(x + dx, y + dy);
        let field = 0..512;
        let mut expected: Vec<_> = pixels(unit_point(x, y).place(), end.place())
            .map(|place| (place.x.0, place.y.0, 3))
            .filter(|(x, y, _)| field.contains(x) && field.contains(y))
            .collect();
        assert_eq!(outcome.stores, expected.len() as u64);
        expected.sort_by_key(|&(x, y, _)| (y, x));
        assert_eq!(shown(&image), expected);
    }
}

#[test]
fn a_vector_drawn_back_changes_no_pixel() {
    let mut random = Random::new(0x5eed_1003);
    for _ in 0..60 {
        let (x, y) = (random.between(-200, 1_200), random.between(-200, 1_200));
        let (dx, dy) = (random.between(-1_023, 1_023), random.between(-1_023, 1_023));
        let there = long_words(true, dx, dy);
        let back = long_words(true, -dx, -dy);
        let (once, image) = run_on_blank(&there, machine_at(x, y, 2), 1);
        let (twice, both) = run_on_blank(&[there, back].concat(), machine_at(x, y, 2), 2);
        assert_eq!(twice.stores, 2 * once.stores);
        assert!(image == both);
    }
}

/// One coordinate's history: where it was last set outright, and the moves since.
struct Account {
    setting: i64,
    moves: Vec<i64>,
}

impl Account {
    fn new(setting: i64) -> Account {
        Account {
            setting,
            moves: Vec::new(),
        }
    }

    fn sum(&self) -> i64 {
        self.setting + self.moves.iter().sum::<i64>()
    }

    fn set(&mut self, setting: i64) {
        *self = Account::new(setting);
    }
}

/// The books of a run, kept from the words as written out in binary digits.
struct Books {
    place: usize,
    mode: String,
    increment: i64,
    x: Account,
    y: Account,
}

/// Bits `high` to `low` of a word's sixteen binary digits.
fn digits(text: &str, high: usize, low: usize) -> i64 {
    i64::from_str_radix(&text[15 - high..16 - low], 2).expect("binary digits")
}

/// A move whose sign stands at one bit and whose size in others.
fn signed(text: &str, sign: usize, high: usize, low: usize) -> i64 {
    let size = digits(text, high, low);
    if digits(text, sign, sign) == 1 {
        -size
    } else {
        size
    }
}

impl Books {
    fn open(machine: &Machine) -> Books {
        Books {
            place: 0,
            mode: match machine.mode {
                255 => String::new(),
                mode => format!("{:04b}", mode),
            },
            increment: i64::from(machine.increment),
            x: Account::new(machine.x.0),
            y: Account::new(machine.y.0),
        }
    }

    /// Enters one completed instruction of a segment without jumps.
    fn enter(&mut self, segment: &[u16]) {
        let first = format!("{:016b}", segment[self.place]);
        self.place += 1;
        if &first[..1] == "1" {
            match &first[1..5] {
                "1101" | "1110" => {}
                "1111" if &first[5..6] == "0" && &first[9..10] == "1" => {
                    self.increment = digits(&first, 5, 0);
                }
                "1111" => {}
                code => self.mode = code.to_string(),
            }
            return;
        }
        match self.mode.as_str() {
            // Each of two characters moves X by 16.
            "0000" => self.x.moves.extend([16, 16]),
            "0001" | "0110" => {
                self.x.moves.push(signed(&first, 13, 12, 7));
                self.y.moves.push(signed(&first, 6, 5, 0));
            }
            "0010" | "0011" => {
                let second = format!("{:016b}", segment[self.place]);
                self.place += 1;
                if self.mode == "0010" {
                    self.x.moves.push(signed(&first, 13, 9, 0));
                    self.y.moves.push(signed(&second, 13, 9, 0));
                } else {
                    self.x.set(digits(&first, 9, 0));
                    self.y.set(digits(&second, 9, 0));
                }
            }
            "0100" => {
                self.x.set(digits(&first, 9, 0));
                self.y.moves.push(self.increment);
            }
            "0101" => {
                self.y.set(digits(&first, 9, 0));
                self.x.moves.push(self.increment);
            }
            other => panic!("no books for mode {:?}", other),
        }
    }

    fn in_range(&self) -> bool {
        let range = -4_096..=4_095;
        range.contains(&self.x.sum()) && range.contains(&self.y.sum())
    }
}

/// Words of every kind but jumps and stops. Data words are the most frequent.
fn wandering_segment(random: &mut Random, length: usize) -> Vec<u16> {
    (0..length)
        .map(|_| match random.between(0, 19) {
            0 | 1 => 0o100000 + random.between(0, 6) as u16 * 0o4000 + (random.word() & 0o3777),
            2 => 0o164000 | random.word() & 0o3777,
            3 => 0o170000 | random.word() & 0o1777,
            4 => 0o174000 | random.word() & 0o3777,
            _ => random.word() & 0o77777,
        })
        .collect()
}

#[test]
fn the_position_is_its_last_setting_and_the_moves_since() {
    let mut random = Random::new(0x5eed_1004);
    let (mut completed, mut range_refusals) = (0, 0);
    for _ in 0..60 {
        let segment = wandering_segment(&mut random, 2_000);
        let words = file(&segment);
        let mut machine = random.machine();
        let mut books = Books::open(&machine);
        let mut image = blank();
        while usize::from(machine.counter) < 2 * segment.len() {
            let budget = random.between(0, 40) as u64;
            let outcome = run(&words, machine, &mut image, budget, &[]);
            for _ in 0..outcome.steps {
                books.enter(&segment);
                assert!(books.in_range());
            }
            completed += outcome.steps;
            machine = outcome.machine;
            let position = (machine.x.0, machine.y.0);
            assert_eq!(position, (books.x.sum(), books.y.sum()));
            assert_eq!(usize::from(machine.counter), 2 * books.place);
            assert_eq!(i64::from(machine.increment), books.increment);
            if outcome.answer.number() == 27 {
                range_refusals += 1;
                let mut next = Books::open(&machine);
                next.place = books.place;
                next.enter(&segment);
                assert!(!next.in_range());
            }
            if outcome.answer.number() != 0 {
                // Past the refused word, with books that go on as they were.
                machine = start(machine, machine.counter + 2).1;
                books.place += 1;
            }
        }
    }
    assert!(completed > 50_000);
    assert!(range_refusals > 20);
}

#[test]
fn a_million_steps_round_a_closed_figure_do_not_drift() {
    let mut random = Random::new(0x5eed_1005);
    for _ in 0..3 {
        let mut moves: Vec<(i64, i64)> = (0..6)
            .map(|_| (random.between(-63, 63), random.between(-63, 63)))
            .collect();
        let back: Vec<_> = moves.iter().map(|&(dx, dy)| (-dx, -dy)).collect();
        moves.extend(back);
        let mut segment = vec![0o110000];
        for &(dx, dy) in &moves {
            segment.extend(long_words(true, dx, dy));
        }
        segment.extend([0o160000, 0]);
        let start = Machine {
            x: Unit(301),
            y: Unit(-7),
            ..fresh()
        };
        let budget = random.between(999_000, 1_000_000);
        let outcome = run_on_blank(&segment, start, budget as u64).0;
        assert_eq!((outcome.answer.number(), outcome.steps), (0, budget as u64));
        // Each round is the mode, twelve moves and the jump.
        let partial = (budget % 14 - 1).max(0) as usize;
        let (mut x, mut y) = (301, -7);
        for &(dx, dy) in &moves[..partial] {
            x += dx;
            y += dy;
        }
        assert_eq!((outcome.machine.x.0, outcome.machine.y.0), (x, y));
    }
}

#[test]
fn unlit_and_dark_items_move_like_lit_ones() {
    let mut random = Random::new(0x5eed_1006);
    for _ in 0..200 {
        // Every character is lit, so that mode 1 stands in for mode 0.
        let segment: Vec<u16> = wandering_segment(&mut random, 60)
            .into_iter()
            .map(|word| match word {
                0o100000..=0o103777 => word | 0o004000,
                _ => word,
            })
            .collect();
        let dark: Vec<u16> = segment
            .iter()
            .map(|&word| {
                if word < 0o100000 {
                    word & 0o37777
                } else {
                    word
                }
            })
            .collect();
        let mut machine = random.machine();
        machine.mode = machine.mode.max(1);
        let (lit_run, _) = run_on_blank(&segment, machine, 100);
        let (dark_run, image) = run_on_blank(&dark, machine, 100);
        assert_eq!(
            (lit_run.machine, lit_run.steps),
            (dark_run.machine, dark_run.steps)
        );
        assert_eq!(dark_run.stores, 0);
        assert!(image == blank());
    }
}
