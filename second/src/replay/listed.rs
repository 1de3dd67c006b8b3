//! The cases that every list begins with: each instruction, each refusal, both sides of each edge.
//! Chance decides what may be anything, as the image, the rest of the machine, and bits that are
//! not read.

use super::{
    bordered, everywhere, grown, one_segment, ranged, usual, Call, Case, LIT, MOST_SET_BYTES,
    SEGMENT,
};
use crate::cases::{control, Random, DATA, JUMP};
use crate::{Machine, Unit, NO_MODE, SET_BYTES};

const BIT_15: u16 = 1 << 15;
/// Not read between the two codes of a character word.
const BIT_7: u16 = 1 << 7;
const MINUS: u16 = 1 << 13;
const STOP: u16 = BIT_15 | 14 << 11 | 1 << 10;
const NO_OP: u16 = BIT_15 | 13 << 11;

pub(super) fn listed(random: &mut Random) -> Vec<Case> {
    let mut list = List {
        random,
        cases: Vec::new(),
    };
    list.orders();
    list.items();
    list.vectors();
    list.codes();
    list.cells();
    list.text();
    list.sets();
    list.ends_of_the_range();
    list.fields();
    list.starts();
    list.budgets();
    list.images();
    list.headers();
    list.two_doors();
    list.second_words();
    list.borders();
    list.counters();
    list.segments();
    list.later_refusals();
    list.cases
}

struct List<'a> {
    random: &'a mut Random,
    cases: Vec<Case>,
}

impl List<'_> {
    /// A call as usual but for a change, on a machine of chance.
    fn add(&mut self, call: Call, change: impl FnOnce(&mut Case)) {
        let mut case = usual(self.random, call);
        case.machine = ranged(self.random);
        change(&mut case);
        self.cases.push(case);
    }

    /// The same for the calls that take a machine.
    fn add_machine(&mut self, change: impl Fn(&mut Machine)) {
        for call in [Call::Start, Call::Step, Call::Run] {
            self.add(call, |case| change(&mut case.machine));
        }
    }

    /// One step of a machine on words at address 0.
    fn step(&mut self, words: Vec<u16>, change: impl FnOnce(&mut Machine)) {
        self.add(Call::Step, |case| {
            change(&mut case.machine);
            case.file = one_segment(words);
        });
    }

    /// One step of a machine in mode 0, with write on.
    fn characters(&mut self, word: u16, x: i64, y: i64, change: impl FnOnce(&mut Case)) {
        self.add(Call::Step, |case| {
            case.machine.mode = 0;
            case.machine.write = 1;
            case.machine.x = Unit(x);
            case.machine.y = Unit(y);
            case.file = one_segment(vec![word, STOP]);
            change(case);
        });
    }

    /// A word of two good codes.
    fn good(&mut self) -> u16 {
        let (first, second) = (self.random.between(33, 126), self.random.between(33, 126));
        pair(first, second) | self.bits(BIT_7)
    }

    /// A seed of a set in which the space has ink.
    fn inked(&mut self) -> u32 {
        loop {
            let seed = self.random.next() as u32 | 1;
            if grown(8, seed).iter().any(|&row| row != 0) {
                return seed;
            }
        }
    }

    fn run(&mut self, file: Vec<u16>, change: impl FnOnce(&mut Machine)) {
        self.add(Call::Run, |case| {
            change(&mut case.machine);
            case.file = file;
        });
    }

    /// Bits of chance.
    fn bits(&mut self, mask: u16) -> u16 {
        self.random.word() & mask
    }

    // ---- instructions

    fn orders(&mut self) {
        for code in 0..16 {
            for set in [0, 1 << 10] {
                for others in [0, 0x03FF, self.bits(0x03FF)] {
                    let second = self.random.word();
                    self.step(vec![control(code) | set | others, second], |_| ());
                }
            }
        }
        for target in [0, 1, 2, 0x7FFF, 0x8000, 0xFFFE, 0xFFFF] {
            let others = self.bits(0x07FF);
            self.step(vec![control(JUMP) | others, target], |_| ());
        }
        for size in [0, 1, 62, 63] {
            for set in [0, 1 << 6] {
                let others = self.bits(0x0380);
                self.step(vec![control(15) | set | size | others], |_| ());
            }
        }
        for named in 0..8 {
            for flag in [0, 1] {
                // Status A: bits 10, 9, 8. Status C: bits 9, 8 and 4.
                let a = named << 8 | self.bits(0x00FF);
                let c = 1 << 10 | (named >> 1) << 8 | (named & 1) << 4 | self.bits(0x00EF);
                self.step(vec![control(14) | a], |machine| machine.latch = flag);
                self.step(vec![control(15) | c], |machine| machine.write = flag);
            }
        }
    }

    /// Every mode but that of characters, lit or not, with write on or off, in the field, about its edges and beyond it.
    fn items(&mut self) {
        for mode in 1..=6 {
            for lit in [0, LIT] {
                for write in [0, 1] {
                    self.items_of(mode, lit, write);
                }
            }
            let word = self.bits(DATA);
            self.step(vec![word, word], |machine| machine.mode = NO_MODE);
        }
    }

    fn items_of(&mut self, mode: u8, lit: u16, write: u8) {
        let edges = [(0, 1_023), (1_023, 0), (-1, 600), (600, 1_024)];
        let others = [(500, 500), (-200, -200), (2_000, -3_000)];
        for (x, y) in edges.into_iter().chain(others) {
            // No long move is so long that it would come to the field from far off.
            let first = self.bits(DATA & !LIT & !0x0200) | lit;
            let second = self.bits(DATA & !0x0200);
            self.step(vec![first, second], |machine| {
                machine.x = Unit(x);
                machine.y = Unit(y);
                machine.mode = mode;
                machine.write = write;
            });
        }
    }

    /// One lit vector, from units to units.
    fn vector(&mut self, from: (i64, i64), to: (i64, i64)) {
        let (dx, dy) = (to.0 - from.0, to.1 - from.1);
        let mode = if dx.abs().max(dy.abs()) < 64 { 1 } else { 2 };
        let mut words = moves(mode, dx, dy);
        words[0] |= LIT;
        if mode == 2 {
            words[0] |= self.bits(0x1C00);
            words[1] |= self.bits(0x5C00);
        }
        self.step(words, |machine| {
            machine.x = Unit(from.0);
            machine.y = Unit(from.1);
            machine.mode = mode;
            machine.write = 1;
        });
    }

    fn vectors(&mut self) {
        // Pixels (0,0) to (2,1) and back, units (1,1) to (4,2), and over the right edge.
        self.vector((0, 0), (4, 2));
        self.vector((4, 2), (0, 0));
        self.vector((1, 1), (4, 2));
        self.vector((1_020, 0), (1_028, 0));
        for (long, short) in [(40, 14), (40, 20), (60, 60), (700, 300), (1_023, 1_022)] {
            for (dx, dy) in [(long, short), (short, long)] {
                for (dx, dy) in [(dx, dy), (dx, -dy), (-dx, dy), (-dx, -dy)] {
                    // In the field, then on from there, and from beyond up to it.
                    let (x, y) = (512 - dx / 2, 512 - dy / 2);
                    self.vector((x, y), (x + dx, y + dy));
                    self.vector((x + dx, y + dy), (x + 2 * dx, y + 2 * dy));
                    self.vector((x - dx, y - dy), (x, y));
                }
            }
        }
        for size in [0, 1, 2, 30, 63, 64, 500, 1_023] {
            for (sx, sy) in [(1, 0), (-1, 0), (0, 1), (0, -1), (1, 1), (-1, 1)] {
                let at = (i64::from(self.random.below(1_024)), 511);
                self.vector(at, (at.0 + sx * size, at.1 + sy * size));
            }
        }
        // 513 pixels, along each axis and both ways.
        self.vector((1, 400), (1_024, 500));
        self.vector((1_024, 400), (1, 500));
        self.vector((400, 1), (500, 1_024));
        self.vector((400, 1_024), (500, 1));
        // Across a corner, beside it, and along the outside.
        self.vector((-100, 100), (100, -100));
        self.vector((-100, 98), (100, -102));
        self.vector((900, 1_100), (1_100, 900));
        self.vector((900, 1_200), (1_200, 900));
        self.vector((-1, 0), (-1, 500));
        self.vector((0, 1_024), (500, 1_024));
    }

    /// Good codes and bad ones in either half, with room for the advance and without.
    fn codes(&mut self) {
        for first in [0, 31, 32, 57, 126, 127] {
            for second in [0, 31, 32, 57, 126, 127] {
                let word = pair(first, second) | self.bits(BIT_7);
                let x = i64::from(self.random.below(900));
                self.characters(word, x, 500, |_| ());
            }
        }
        // Nothing but bit 7 differs.
        let (word, seed) = (self.good() & !BIT_7, self.inked());
        for set_length in [0, SET_BYTES] {
            for bit in [0, BIT_7] {
                self.characters(word | bit, 77, 99, |case| {
                    case.image_seed = seed;
                    case.set_length = set_length;
                    case.set_seed = seed;
                });
            }
        }
        // To the right end, past it with room for one character, and with room for none.
        for x in [-4_096, 4_062, 4_063, 4_064, 4_079, 4_080, 4_095] {
            let word = self.good();
            self.characters(word, x, 500, |_| ());
        }
        // A bad code speaks before the range.
        for x in [4_064, 4_095] {
            for word in [pair(31, 50), pair(50, 127), pair(0, 0)] {
                self.characters(word, x, 500, |_| ());
            }
        }
        // The mode, with and without a value, and what is drawn with it.
        for order in [
            control(0),
            control(0) | 1 << 10,
            control(0) | 1 << 10 | 2 << 8,
        ] {
            let words = vec![order | self.bits(0x00FF), self.good(), self.good(), STOP];
            self.run(one_segment(words), |machine| {
                machine.x = Unit(300);
                machine.y = Unit(301);
                machine.write = 1;
            });
        }
        // From another mode to characters and back.
        for mode in 1..=6 {
            let item = LIT | self.bits(0x03FF);
            let words = [
                vec![control(0), self.good(), control(mode), item, item & !LIT],
                vec![control(0), self.good(), STOP],
            ];
            self.run(one_segment(words.concat()), |machine| {
                machine.x = Unit(500);
                machine.y = Unit(500);
                machine.write = 1;
            });
        }
        // Over and over in one place.
        let words = vec![
            control(3),
            500,
            77,
            control(0),
            self.good(),
            control(JUMP),
            0,
        ];
        self.run(one_segment(words), |machine| machine.write = 1);
    }

    /// Cells in the field, at each edge and corner of it, and wholly beyond.
    fn cells(&mut self) {
        let mut places = vec![(0, 0), (1, 1), (333, 444), (992, 1_008), (993, 1_009)];
        // Left and right, of either character, then bottom and top.
        for x in [-1, -2, -8, -14, -15, -16, -17, -24, -30, -32, -33] {
            places.push((x, 600));
        }
        for x in [994, 1_000, 1_006, 1_008, 1_010, 1_016, 1_022, 1_023, 1_024] {
            places.push((x, 600));
        }
        for y in [
            -1, -2, -8, -14, -15, -16, -17, 1_010, 1_016, 1_022, 1_023, 1_024,
        ] {
            places.push((600, y));
        }
        places.extend([(-8, -8), (-8, 1_016), (1_016, -8), (1_016, 1_016)]);
        places.extend([(-24, -6), (-24, 1_014), (1_000, -6), (1_000, 1_014)]);
        places.extend([(-200, -200), (2_000, -3_000), (3_000, 600), (-4_096, 4_095)]);
        for (x, y) in places {
            for set_length in [0, SET_BYTES] {
                let (word, set_seed) = (self.good(), self.inked());
                self.characters(word, x, y, |case| {
                    case.set_length = set_length;
                    case.set_seed = set_seed;
                });
            }
        }
        for (x, y) in [(333, 444), (-8, -8), (2_000, 600)] {
            let word = self.good();
            self.characters(word, x, y, |case| case.machine.write = 0);
        }
        // Two spaces, blank and with ink, and a set of blanks.
        for set_length in [0, SET_BYTES] {
            let set_seed = self.inked();
            self.characters(pair(32, 32), 100, 100, |case| {
                case.set_length = set_length;
                case.set_seed = set_seed;
            });
        }
        let word = self.good();
        self.characters(word, 100, 100, |case| {
            case.set_length = SET_BYTES;
            case.set_seed = 0;
        });
    }

    /// Every code in either half, in lines of 16 words, as wide as the field.
    fn text(&mut self) {
        let codes: Vec<u16> = (32..=126).collect();
        for set_length in [0, SET_BYTES] {
            for line in codes.chunks(16) {
                let mut words = vec![control(3), 0, self.random.below(1_009), control(0)];
                for &code in line {
                    let other = 32 + (code - 32 + 47) % 95;
                    words.push(pair(code, other) | self.bits(BIT_7));
                }
                words.push(STOP);
                let set_seed = self.inked();
                self.add(Call::Run, |case| {
                    case.machine.write = 1;
                    case.set_length = set_length;
                    case.set_seed = set_seed;
                    case.file = one_segment(words);
                });
            }
        }
    }

    /// Moves to the highest and the lowest unit of either axis, and one past it.
    fn ends_of_the_range(&mut self) {
        for (end, way) in [(-4_096, -1), (-4_097, -1), (4_095, 1), (4_096, 1)] {
            for (mode, size) in [(1, 1), (1, 63), (2, 1), (2, 1_023), (6, 1), (6, 63)] {
                for lit in [0, LIT] {
                    let (from, by) = (end - way * size, way * size);
                    let mut words = moves(mode, by, 0);
                    words[0] |= lit;
                    self.step(words, |machine| {
                        machine.mode = mode;
                        machine.x = Unit(from);
                    });
                    let mut words = moves(mode, 0, by);
                    words[0] |= lit;
                    self.step(words, |machine| {
                        machine.mode = mode;
                        machine.y = Unit(from);
                    });
                }
            }
        }
        for (end, increment) in [(4_095, 4), (4_096, 4), (4_095, 63), (4_096, 63), (4_095, 0)] {
            let from = Unit(end - i64::from(increment));
            let (x, y) = (self.bits(DATA), self.bits(DATA));
            self.step(vec![x], |machine| {
                machine.mode = 4;
                machine.increment = increment;
                machine.y = from;
            });
            self.step(vec![y], |machine| {
                machine.mode = 5;
                machine.increment = increment;
                machine.x = from;
            });
        }
    }

    // ---- what a call is given

    /// Each field of the machine at both ends of its range, in it and beyond.
    fn fields(&mut self) {
        let ends: [i64; 4] = [-4_097, -4_096, 4_095, 4_096];
        let far: [i64; 2] = [i32::MIN.into(), i32::MAX.into()];
        for unit in ends.into_iter().chain(far) {
            self.add_machine(|machine| machine.x = Unit(unit));
            self.add_machine(|machine| machine.y = Unit(unit));
        }
        for mode in [0, 1, 6, 7, 254, 255] {
            self.add_machine(|machine| machine.mode = mode);
        }
        for value in [0, 3, 4, 255] {
            self.add_machine(|machine| machine.value = value);
        }
        for flag in [0, 1, 2, 255] {
            self.add_machine(|machine| machine.write = flag);
            self.add_machine(|machine| machine.latch = flag);
        }
        for increment in [0, 63, 64, 255] {
            self.add_machine(|machine| machine.increment = increment);
        }
        for status in [0, 1, 2, 3, 20, 21, 27, 28, 31, 32, 33, 255] {
            self.add_machine(|machine| machine.status = status);
        }
    }

    fn starts(&mut self) {
        for status in [0, 1, 2, 21, 22, 23, 24, 25, 26, 27, 32] {
            for address in [0, 1, 2, 8_191, 65_534, 65_535] {
                let counter = self.random.word();
                self.add(Call::Start, |case| {
                    case.machine.counter = counter;
                    case.machine.status = status;
                    case.address = address;
                    case.image_length = 0;
                });
            }
        }
        for _ in 0..3 {
            self.add(Call::Fresh, |_| ());
        }
    }

    fn budgets(&mut self) {
        for budget in [0, 1, 2, 3, 4, 1_000_000, 1_000_001, u32::MAX] {
            self.add(Call::Run, |case| {
                case.file = one_segment(vec![NO_OP, NO_OP, STOP]);
                case.budget = budget;
            });
        }
        // Loops of no-ops, of jumps alone, of points, and of a graph that stays where it is.
        let loops = [
            vec![NO_OP, NO_OP, NO_OP, control(JUMP), 0],
            vec![control(JUMP), 0],
            vec![control(3), LIT | 511, 77, LIT | 3, 1_023, control(JUMP), 2],
            vec![control(15) | 1 << 6, control(4), LIT | 9, control(JUMP), 2],
        ];
        for words in loops {
            self.add(Call::Run, |case| {
                case.machine.write = 1;
                case.file = one_segment(words);
                case.budget = 1_000_000;
            });
        }
    }

    fn images(&mut self) {
        for length in [0, 1, 65_535, 65_536, 65_537] {
            for call in [Call::Step, Call::Run, Call::Clear, Call::ReadPixel] {
                self.add(call, |case| case.image_length = length);
            }
        }
        let columns = [i32::MIN, -1, 0, 1, 2, 3, 4, 510, 511, 512, i32::MAX];
        for x in columns {
            for y in columns {
                self.add(Call::ReadPixel, |case| case.pixel = (x, y));
            }
        }
    }

    /// Sets of each length, with a step and a run that draw from them; other calls take none.
    fn sets(&mut self) {
        for length in [0, 1, 8, 759, SET_BYTES, 761, MOST_SET_BYTES] {
            for call in [Call::Step, Call::Run] {
                let (word, seed) = (self.good(), self.inked());
                self.add(call, |case| {
                    case.machine.mode = 0;
                    case.machine.write = 1;
                    case.machine.x = Unit(400);
                    case.machine.y = Unit(200);
                    case.set_length = length;
                    case.set_seed = seed;
                    case.file = one_segment(vec![word, STOP]);
                });
                // Nor is it taken where no character is drawn, or nothing is done at all.
                self.add(call, |case| {
                    case.set_length = length;
                    case.budget = 0;
                });
            }
        }
        for call in [Call::Check, Call::Start, Call::Clear, Call::ReadPixel] {
            for length in [1, 759] {
                self.add(call, |case| case.set_length = length);
            }
        }
    }

    fn headers(&mut self) {
        for file in files() {
            for call in [Call::Check, Call::Step, Call::Run] {
                self.add(call, |case| case.file = file.clone());
            }
        }
    }

    /// Neighbours in the order of the doors, both shut; then many of them.
    fn two_doors(&mut self) {
        let sound = vec![1, 1, 4, 1, STOP];
        let doors = [
            (65_535, vec![1], 1, 1, 0, 0),
            (65_536, vec![2], 1, 1, 0, 760),
            (65_536, vec![2, 0, 4, 0], 1, 1, 0, 0),
            (65_536, vec![1, 9, 2], 1, 1, 0, 760),
            (65_536, vec![1, 2, 5, 1], 1, 1, 0, 0),
            (65_536, vec![1, 1, 3, 0], 7, 1, 0, 760),
            (65_536, sound.clone(), 7, 1_000_001, 0, 0),
            (65_536, sound.clone(), 7, 1, 0, 759),
            (65_536, sound.clone(), 7, 1, 2, 0),
            (65_536, sound.clone(), 1, 1_000_001, 2, 760),
            (65_536, sound.clone(), 1, 1_000_001, 0, 761),
            (65_536, sound.clone(), 1, 1, 1, 1),
            (65_536, sound.clone(), 0, 0, 32, 1_024),
            (65_536, sound.clone(), 0, 1_000_001, 32, 8),
            (65_536, sound, 7, 1_000_001, 2, 8),
            (65_536, vec![2, 1, 4, 0], 7, 1_000_001, 2, 759),
            (65_537, vec![2], 8, u32::MAX, 28, 1),
            (0, vec![1, 1, 3, 0], 8, u32::MAX, 27, 761),
        ];
        for (image_length, file, mode, budget, status, set_length) in doors {
            for call in [Call::Run, Call::Step] {
                self.add(call, |case| {
                    case.machine.mode = mode;
                    case.machine.status = status;
                    case.image_length = image_length;
                    case.file = file.clone();
                    case.budget = budget;
                    case.set_length = set_length;
                });
            }
        }
        for pixel in [(-1, 0), (0, 512), (0, 0)] {
            self.add(Call::ReadPixel, |case| {
                case.image_length -= 1;
                case.pixel = pixel;
            });
        }
    }

    // ---- where words come from

    /// Items of two words whose second one is missing, has bit 15 set, or is sound; some would
    /// leave the range besides.
    fn second_words(&mut self) {
        let odd = self.bits(DATA) | BIT_15;
        for mode in [2, 3] {
            for second in [None, Some(BIT_15), Some(odd), Some(LIT)] {
                for (x, way) in [(0, 0), (4_095, 0), (-4_096, MINUS)] {
                    let mut words = vec![LIT | way | 1_023];
                    words.extend(second);
                    self.step(words, |machine| {
                        machine.mode = mode;
                        machine.x = Unit(x);
                    });
                }
            }
        }
        self.step(vec![control(JUMP)], |_| ());
    }

    /// Instructions at the last address and at the end of a segment, of one word and of two.
    fn borders(&mut self) {
        let item = LIT | self.bits(0x03FF);
        let words = [
            (1, NO_OP, vec![STOP]),
            (0, pair(49, 50), vec![pair(51, 52), STOP]),
            (5, item, vec![item, STOP]),
            (2, item, vec![LIT | MINUS | 99, STOP]),
            (3, item, vec![LIT | 99, STOP]),
            (6, control(JUMP), vec![8, NO_OP, NO_OP, NO_OP, STOP]),
            (2, item, vec![BIT_15, STOP]),
            (3, item, vec![]),
            (4, control(JUMP), vec![]),
        ];
        for segment in [0, 3, 7] {
            for (mode, last, next) in &words {
                self.run(bordered(segment, *last, next), |machine| {
                    machine.mode = *mode;
                    machine.counter = segment * 8_192 + 8_190;
                });
            }
        }
        // After the last segment comes none.
        for (mode, last) in [(1, NO_OP), (2, item), (3, item), (1, control(JUMP))] {
            let mut words = vec![NO_OP; SEGMENT];
            words[SEGMENT - 1] = last;
            self.run(one_segment(words), |machine| {
                machine.mode = mode;
                machine.counter = 8_190;
            });
        }
    }

    /// Counters of any kind.
    fn counters(&mut self) {
        for counter in [1, 2, 8_191, 8_192, 8_193, 65_533, 65_534, 65_535] {
            for count in [1, 8] {
                let file = everywhere(count, vec![STOP]);
                self.run(file.clone(), |machine| machine.counter = counter);
                self.add(Call::Step, |case| {
                    case.machine.counter = counter;
                    case.file = file;
                });
            }
        }
        // To an odd address, into no segment, to a segment's end, and past it.
        for target in [1, 3, 8_192, 16_386, 65_534, 6, 4, 8] {
            self.run(one_segment(vec![control(JUMP), target, NO_OP]), |_| ());
        }
    }

    /// Runs through several segments, drawing in each.
    fn segments(&mut self) {
        // From 0 to 5 and to 2, or from 0 to one that is empty.
        for first in [5, 1, 3, 4] {
            let mut file = vec![1, 6];
            file.extend([14, 4, 18, 0, 18, 4, 18, 0, 18, 0, 22, 4]);
            file.extend([control(1), LIT | 0x0505, control(JUMP), first * 8_192]);
            file.extend([control(3), LIT | 9, 11, STOP]);
            file.extend([LIT | 0x2143, NO_OP, control(JUMP), 2 * 8_192]);
            self.run(file, |_| ());
        }
        // Two segments of the same words: on in the second where the jump in the first stands.
        let words = vec![
            control(6),
            LIT | 0x0102,
            control(JUMP),
            8_192 + 8,
            LIT,
            STOP,
        ];
        self.run(everywhere(2, words), |_| ());
        // One segment in another, of which the run comes to the end.
        let mut file = vec![1, 3, 8, 5, 9, 4, 10, 2];
        file.extend([control(1), NO_OP, control(JUMP), 8_192, LIT | 0x0101]);
        self.run(file, |_| ());
        // Round and round through two segments of eight, until the budget is used.
        for segment in 1..8 {
            let jump = [control(JUMP), segment * 8_192 + 4];
            let words = [jump, [LIT | 0x0842, control(JUMP)], [0, STOP]].concat();
            self.add(Call::Run, |case| {
                case.machine.mode = 6;
                case.machine.x = Unit(0);
                case.machine.y = Unit(0);
                case.file = everywhere(8, words);
                case.budget = 20 + u32::from(segment);
            });
        }
    }

    /// Each refusal of a step after others of the same run, which keep their effect.
    fn later_refusals(&mut self) {
        let ends = [
            vec![control(JUMP), 7],
            vec![control(JUMP), 8_192],
            vec![NO_OP],
            vec![control(7)],
            vec![control(11) | 0x07FF],
            vec![control(0), pair(49, 31)],
            vec![control(0), pair(127, 49)],
            vec![control(0), pair(49, 50), pair(51, 52), pair(0, 0)],
            [vec![control(0)], vec![pair(49, 50); 110]].concat(),
            vec![control(2), LIT | 5],
            vec![control(2), LIT | 5, BIT_15],
            vec![control(3), LIT | 5, 0xFFFF],
            [vec![control(2)], [LIT | 1_023, 0].repeat(5)].concat(),
            [vec![control(2)], [0, MINUS | 1_023].repeat(6)].concat(),
        ];
        for end in ends {
            let mut words = vec![control(3) | 1 << 10 | 2 << 8, LIT | 700, 3];
            words.extend([control(1), LIT | 0x0A4A, LIT | 0x2A0A]);
            words.extend(end);
            self.run(one_segment(words), |machine| machine.write = 1);
        }
        let words = vec![NO_OP, control(15) | 1 << 6 | 9, LIT];
        self.run(one_segment(words), |machine| machine.mode = NO_MODE);
    }
}

/// Both sides of each rule of the header.
fn files() -> Vec<Vec<u16>> {
    let mut cut = everywhere(8, vec![]);
    cut.pop();
    let full = one_segment(vec![STOP; SEGMENT]);
    let over = one_segment(vec![STOP; SEGMENT + 1]);
    vec![
        vec![],
        vec![1],
        vec![2],
        vec![1, 0],
        vec![1, 1],
        vec![1, 9],
        vec![0, 1, 4, 0],
        vec![2, 1, 4, 0],
        vec![0x8001, 1, 4, 0],
        vec![1, 0x8001, 4, 0],
        vec![1, 0, 4, 0, STOP],
        vec![1, 1, 4],
        vec![1, 1, 4, 0],
        vec![1, 1, 4, 1],
        vec![1, 1, 3, 1, STOP],
        vec![1, 1, 4, 1, STOP],
        vec![1, 1, 4, 2, STOP],
        vec![1, 1, 5, 0, STOP],
        vec![1, 1, 5, 1, STOP],
        vec![1, 1, 6, 0, STOP],
        vec![1, 1, 0xFFFF, 2, STOP],
        vec![1, 2, 6, 1, 5, 1, STOP],
        vec![1, 2, 6, 1, 6, 2, STOP],
        vec![1, 2, 6, 0, 6, 1, STOP],
        everywhere(8, vec![STOP]),
        everywhere(9, vec![STOP]),
        cut,
        full,
        over,
    ]
}

/// The word of two characters.
fn pair(first: u16, second: u16) -> u16 {
    second << 8 | first
}

/// The words of a move in modes 1 and 6, or in mode 2, unlit.
fn moves(mode: u8, dx: i64, dy: i64) -> Vec<u16> {
    let minus = |by: i64| u16::from(by < 0);
    let size = |by: i64| by.unsigned_abs() as u16;
    if mode == 2 {
        vec![minus(dx) << 13 | size(dx), minus(dy) << 13 | size(dy)]
    } else {
        vec![minus(dx) << 13 | size(dx) << 7 | minus(dy) << 6 | size(dy)]
    }
}
