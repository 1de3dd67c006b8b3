//! How often each thing occurs in the cases. Of a run the first steps are looked at, one by one.

use std::collections::BTreeMap;
use std::fmt;

use super::{Call, Case, Told, LIT, SEGMENT};
use crate::{
    start, step, Machine, Outcome, Unit, BUDGET_LIMIT, BUILT_IN, IMAGE_BYTES, NO_MODE, SET_BYTES,
};

/// The steps of a run that are looked at.
const STEPS: u32 = 300;

const LOWEST: i64 = -4_096;
const HIGHEST: i64 = 4_095;

/// What is counted: the rows of the table, and in each what must occur.
const ROWS: [(&str, &[&str]); 61] = [
    (
        "call",
        &[
            "check",
            "fresh",
            "start",
            "step",
            "run",
            "clear",
            "read_pixel",
        ],
    ),
    (
        "answer of run",
        &[
            "0", "1", "2", "11", "12", "13", "14", "15", "16", "17", "18", "21", "22", "23", "24",
            "25", "26", "27", "28", "32",
        ],
    ),
    (
        "answer of step",
        &[
            "0", "1", "2", "11", "12", "13", "14", "15", "16", "18", "21", "22", "23", "24", "25",
            "26", "27", "28", "32",
        ],
    ),
    ("answer of check", &["0", "12", "13", "14", "15"]),
    ("answer of start", &["0", "16"]),
    ("answer of clear", &["0", "11"]),
    ("answer of read_pixel", &["0", "11", "31"]),
    ("digit read", &["0", "1", "2", "3"]),
    (
        "two doors shut",
        &[
            "11 and 12",
            "12 and 13",
            "13 and 14",
            "14 and 12 (header)",
            "12 (header) and 15",
            "15 and 16",
            "16 and 17",
            "16 and 18",
            "16 and 28",
            "17 and 18",
            "17 and 28",
            "18 and 28",
            "11 and 31",
        ],
    ),
    (
        "order, bit 10 clear",
        &["0", "1", "2", "3", "4", "5", "6", "12", "13", "14", "15"],
    ),
    (
        "order, bit 10 set",
        &["0", "1", "2", "3", "4", "5", "6", "12", "13", "14", "15"],
    ),
    ("code not built", &["7", "8", "9", "10", "11"]),
    (
        "status A, bits 10, 9, 8",
        &["000", "001", "010", "011", "100", "101", "110", "111"],
    ),
    ("increment, bit 6", &["clear", "set, to 0", "set, to 63"]),
    (
        "status C, bits 9, 8, 4",
        &["000", "001", "010", "011", "100", "101", "110", "111"],
    ),
    ("item stored", &["0", "1", "2", "3", "4", "5", "6"]),
    (
        "item lit beyond the field (one of mode 3 is in it)",
        &["0", "1", "2", "4", "5", "6"],
    ),
    ("item lit, write off", &["0", "1", "2", "3", "4", "5", "6"]),
    (
        "item unlit (none of mode 0 is)",
        &["1", "2", "3", "4", "5", "6"],
    ),
    (
        "halves of a character word",
        &["both good", "first bad", "second bad", "both bad"],
    ),
    ("first code, second good", &["0", "31", "32", "126", "127"]),
    ("second code, first good", &["0", "31", "32", "126", "127"]),
    ("bit 7 of a character word", &["clear", "set"]),
    (
        "refused characters (32)",
        &[
            "a good first half in the field",
            "the range would be left too",
        ],
    ),
    (
        "X after two characters",
        &[
            "-4,064",
            "4,094",
            "4,095",
            "4,096, refused (27)",
            "refused (27), room for one",
            "refused (27), room for none",
        ],
    ),
    (
        "character stored",
        &[
            "built-in set, first",
            "built-in set, second",
            "lent set, first",
            "lent set, second",
            "lent set, space",
        ],
    ),
    (
        "digit stored from the built-in set",
        &["0", "1", "2", "3", "4", "5", "6", "7", "8", "9"],
    ),
    (
        "cell's place, first character",
        &[
            "inside",
            "inside, in the lower left corner",
            "cut left",
            "cut right",
            "cut top",
            "cut bottom",
            "cut at two sides",
            "beyond, left",
            "beyond, right",
            "beyond, above",
            "beyond, below",
        ],
    ),
    (
        "cell's place, second character",
        &[
            "inside",
            "inside, in the upper right corner",
            "cut left",
            "cut right",
            "cut top",
            "cut bottom",
            "cut at two sides",
            "beyond, left",
            "beyond, right",
            "beyond, above",
            "beyond, below",
        ],
    ),
    (
        "cell in the field without ink",
        &["built-in set", "lent set"],
    ),
    (
        "vector stored, signs of X and Y, longer axis",
        &["++X", "++Y", "+-X", "+-Y", "-+X", "-+Y", "--X", "--Y"],
    ),
    (
        "vector lit",
        &[
            "one pixel",
            "along X",
            "along Y",
            "diagonal",
            "513 pixels",
            "a half rounded, longer X",
            "a half rounded, longer Y",
        ],
    ),
    (
        "vector lit, its ends",
        &[
            "in and in",
            "in and out",
            "out and in",
            "out and out, crossing",
            "out and out, none stored",
        ],
    ),
    (
        "refused by its first word",
        &["21", "22", "23", "24", "25", "32"],
    ),
    ("refused by its second word", &["22", "23", "26"]),
    (
        "refused after steps of the run",
        &["21", "22", "23", "24", "25", "26", "27", "32"],
    ),
    (
        "moved to an end",
        &["X -4,096", "X 4,095", "Y -4,096", "Y 4,095"],
    ),
    (
        "refused one past it (27)",
        &["X -4,097", "X 4,096", "Y -4,097", "Y 4,096"],
    ),
    (
        "counter from 65,534",
        &["one word", "two words", "second word refused"],
    ),
    (
        "counter over a border of segments",
        &["one word", "two words", "second word refused"],
    ),
    (
        "run fetches from",
        &[
            "one segment",
            "two segments",
            "three or more",
            "two that overlap",
        ],
    ),
    (
        "run comes to",
        &[
            "an odd address",
            "no segment",
            "a segment of length 0",
            "a segment's end",
        ],
    ),
    ("machine's X", &["-4,097", "-4,096", "4,095", "4,096"]),
    ("machine's Y", &["-4,097", "-4,096", "4,095", "4,096"]),
    ("machine's mode", &["0", "1", "6", "7", "254", "255"]),
    ("machine's value", &["0", "3", "4", "255"]),
    ("machine's write", &["0", "1", "2", "255"]),
    ("machine's latch", &["0", "1", "2", "255"]),
    ("machine's increment", &["0", "63", "64", "255"]),
    (
        "machine's status",
        &[
            "0", "1", "2", "3", "20", "21", "27", "28", "31", "32", "33", "255",
        ],
    ),
    (
        "started from status",
        &[
            "0", "1", "2", "21", "22", "23", "24", "25", "26", "27", "32",
        ],
    ),
    ("started at", &["even", "odd"]),
    (
        "budget",
        &[
            "0",
            "1",
            "1,000,000, stopped",
            "1,000,000, used up",
            "1,000,001",
        ],
    ),
    ("image", &["0", "65,535", "65,536", "65,537"]),
    (
        "lent set of a run",
        &["0", "1", "8", "759", "760", "761", "1,024"],
    ),
    (
        "lent set of a step",
        &["0", "1", "8", "759", "760", "761", "1,024"],
    ),
    (
        "a set that no run takes, given beside",
        &["check", "start", "clear", "read_pixel"],
    ),
    ("file of words", &["0", "1", "2"]),
    ("number of segments", &["0", "1", "8", "9"]),
    (
        "file taken",
        &[
            "header alone",
            "segment of length 0",
            "segment of 4,096",
            "segment to the file's end",
            "eight segments",
        ],
    ),
    (
        "file refused",
        &[
            "header cut by 1",
            "segment of 4,097",
            "begins 1 early",
            "ends 1 late",
        ],
    ),
];

#[derive(Default)]
pub(super) struct Table {
    counts: BTreeMap<(&'static str, String), usize>,
}

impl Table {
    pub(super) fn add(&mut self, case: &Case, told: &Told) {
        self.answer(case, told);
        match case.call {
            Call::Check => self.file(&case.file, told.answer),
            Call::Fresh => {}
            Call::Start => {
                self.fields(&case.machine, told.answer);
                self.started(case, told);
            }
            Call::Step | Call::Run => self.ran(case, told),
            Call::Clear => self.image(case),
            Call::ReadPixel => {
                self.image(case);
                self.read(case, told);
            }
        }
    }

    /// The table, unless something does not occur.
    pub(super) fn text(mut self) -> Result<String, String> {
        let mut text = String::from("| What | How often |\n|---|---|\n");
        for (row, names) in ROWS {
            let mut cells = Vec::new();
            for name in names {
                let key = (row, name.to_string());
                match self.counts.remove(&key) {
                    Some(times) => cells.push(format!("{}: {}", name, times)),
                    None => return Err(format!("no case has: {}, {}", row, name)),
                }
            }
            text += &format!("| {} | {} |\n", row, cells.join("; "));
        }
        match self.counts.keys().next() {
            Some((row, name)) => Err(format!("the table has no place for: {}, {}", row, name)),
            None => Ok(text),
        }
    }

    fn saw(&mut self, row: &'static str, name: impl fmt::Display) {
        *self.counts.entry((row, name.to_string())).or_default() += 1;
    }

    fn saw_if(&mut self, row: &'static str, holds: bool, name: &str) {
        if holds {
            self.saw(row, name);
        }
    }

    /// Counts a value only where the row has a place for it.
    fn saw_listed(&mut self, row: &'static str, name: String) {
        let listed = ROWS.iter().any(|(other, names)| {
            *other == row && names.iter().any(|&candidate| candidate == name)
        });
        if listed {
            self.saw(row, name);
        }
    }

    // ---- calls and doors

    fn answer(&mut self, case: &Case, told: &Told) {
        let (name, row) = match case.call {
            Call::Check => ("check", "answer of check"),
            Call::Fresh => return self.saw("call", "fresh"),
            Call::Start => ("start", "answer of start"),
            Call::Step => ("step", "answer of step"),
            Call::Run => ("run", "answer of run"),
            Call::Clear => ("clear", "answer of clear"),
            Call::ReadPixel => ("read_pixel", "answer of read_pixel"),
        };
        self.saw("call", name);
        self.saw(row, told.answer);
        let beside = !matches!(case.call, Call::Step | Call::Run);
        if beside && !matches!(case.set_length, 0 | SET_BYTES) {
            self.saw("a set that no run takes, given beside", name);
        }
    }

    fn image(&mut self, case: &Case) {
        self.saw_listed("image", grouped(case.image_length as i64));
    }

    fn read(&mut self, case: &Case, told: &Told) {
        let (x, y) = case.pixel;
        let outside = !(0..512).contains(&x) || !(0..512).contains(&y);
        let both = told.answer == 11 && outside;
        self.saw_if("two doors shut", both, "11 and 31");
        if told.answer == 0 {
            self.saw("digit read", told.digit);
        }
    }

    fn ran(&mut self, case: &Case, told: &Told) {
        self.image(case);
        self.fields(&case.machine, told.answer);
        self.two_doors(case);
        if told.answer != 11 {
            self.file(&case.file, told.answer);
        }
        if case.call == Call::Run {
            self.budget(case, told);
        }
        self.lent_set(case, told);
        if !matches!(told.answer, 11..=18 | 28) {
            self.steps(case);
        }
    }

    /// The length of a set counts where no door before it is shut.
    fn lent_set(&mut self, case: &Case, told: &Told) {
        let row = match case.call {
            Call::Run => "lent set of a run",
            _ => "lent set of a step",
        };
        if !matches!(told.answer, 11..=17) {
            self.saw_listed(row, grouped(case.set_length as i64));
        }
    }

    /// Each door of a run is looked at by itself; two that are shut make a pair where those between
    /// them are open.
    fn two_doors(&mut self, case: &Case) {
        let file = &case.file;
        let over = case.call == Call::Run && u64::from(case.budget) > BUDGET_LIMIT;
        let shut = [
            ("11", case.image_length != IMAGE_BYTES),
            ("12", file.len() < 2),
            ("13", file.first().map_or(false, |&tag| tag != 1)),
            ("14", file.len() > 1 && !(1..=8).contains(&file[1])),
            ("12 (header)", file.len() > 1 && file.len() < header(file)),
            ("15", pairs(file).any(|pair| breaks(file, pair))),
            ("16", start(case.machine, 0).0.number() == 16),
            ("17", over),
            ("18", !matches!(case.set_length, 0 | SET_BYTES)),
            ("28", case.machine.status != 0),
        ];
        let shut: Vec<_> = shut.iter().filter(|door| door.1).collect();
        for pair in shut.windows(2) {
            self.saw_listed("two doors shut", format!("{} and {}", pair[0].0, pair[1].0));
        }
    }

    /// Where the file is what decides, or is taken.
    fn file(&mut self, file: &[u16], answer: u8) {
        self.saw_listed("file of words", file.len().to_string());
        if file.first() != Some(&1) || file.len() < 2 {
            return;
        }
        self.saw_listed("number of segments", file[1].to_string());
        if answer == 12 {
            let short = file.len() + 1 == header(file);
            self.saw_if("file refused", short, "header cut by 1");
        }
        if answer == 15 {
            let row = "file refused";
            let broken: Vec<_> = pairs(file).filter(|&pair| breaks(file, pair)).collect();
            if let [(offset, length)] = broken[..] {
                let (early, end) = (offset + 1 == header(file), offset + length);
                let long = length == SEGMENT + 1 && !early && end <= file.len();
                self.saw_if(row, long, "segment of 4,097");
                self.saw_if(row, early && end <= file.len(), "begins 1 early");
                let late = end == file.len() + 1 && !early && length <= SEGMENT;
                self.saw_if(row, late, "ends 1 late");
            }
        }
        if !(12..=15).contains(&answer) {
            self.taken(file);
        }
    }

    fn taken(&mut self, file: &[u16]) {
        let row = "file taken";
        let spans: Vec<_> = pairs(file).collect();
        self.saw_if(row, file.len() == header(file), "header alone");
        let empty = spans.iter().any(|&(_, length)| length == 0);
        self.saw_if(row, empty, "segment of length 0");
        let full = spans.iter().any(|&(_, length)| length == SEGMENT);
        self.saw_if(row, full, "segment of 4,096");
        let to_end = |&(offset, length): &(usize, usize)| offset + length == file.len();
        let last = spans.iter().any(|span| span.1 > 0 && to_end(span));
        self.saw_if(row, last, "segment to the file's end");
        self.saw_if(row, spans.len() == 8, "eight segments");
    }

    /// A field counts where it decides: in its range where no door up to 16 is shut, and beyond
    /// it, as the only one, where the answer is 16.
    fn fields(&mut self, given: &Machine, answer: u8) {
        let mut beyond = Vec::new();
        for (row, number, ranged) in fields(given) {
            if !ranged {
                beyond.push((row, number));
            } else if !(11..=16).contains(&answer) {
                self.saw_listed(row, grouped(number));
            }
        }
        if let [(row, number)] = beyond[..] {
            if answer == 16 {
                self.saw_listed(row, grouped(number));
            }
        }
    }

    fn started(&mut self, case: &Case, told: &Told) {
        if told.answer == 0 {
            self.saw("started from status", case.machine.status);
            let odd = case.address % 2 == 1;
            self.saw("started at", if odd { "odd" } else { "even" });
        }
    }

    fn budget(&mut self, case: &Case, told: &Told) {
        match (case.budget, told.answer) {
            (1_000_001, 17) => self.saw("budget", "1,000,001"),
            (1_000_000, 1) | (1_000_000, 2) => self.saw("budget", "1,000,000, stopped"),
            (1_000_000, 0) => self.saw("budget", "1,000,000, used up"),
            (budget @ 0..=1, 0) => self.saw("budget", budget),
            _ => {}
        }
    }

    // ---- steps

    fn steps(&mut self, case: &Case) {
        let most = match case.call {
            Call::Run => case.budget.min(STEPS),
            _ => 1,
        };
        let (mut image, set) = (case.image(), case.set());
        let mut machine = case.machine;
        let mut fetched = Vec::new();
        for number in 0..most {
            let outcome = step(&case.file, machine, &mut image, &set);
            self.one(case, &machine, &outcome, number > 0);
            if outcome.steps == 1 {
                let segment = usize::from(machine.counter / 8_192);
                if !fetched.contains(&segment) {
                    fetched.push(segment);
                }
            }
            machine = outcome.machine;
            if machine.status != 0 {
                break;
            }
        }
        if case.call == Call::Run {
            self.fetched(&case.file, &fetched);
        }
    }

    fn fetched(&mut self, file: &[u16], segments: &[usize]) {
        let row = "run fetches from";
        match segments.len() {
            0 => return,
            1 => self.saw(row, "one segment"),
            2 => self.saw(row, "two segments"),
            _ => self.saw(row, "three or more"),
        }
        let pairs: Vec<_> = pairs(file).collect();
        let spans: Vec<_> = segments.iter().map(|&number| pairs[number]).collect();
        let meets = |(a, n): (usize, usize), (b, m): (usize, usize)| a < b + m && b < a + n;
        let overlap = (1..spans.len()).any(|i| spans[..i].iter().any(|&one| meets(one, spans[i])));
        self.saw_if(row, overlap, "two that overlap");
    }

    /// One step, of which the machine before and the outcome are known.
    fn one(&mut self, case: &Case, before: &Machine, outcome: &Outcome, later: bool) {
        let file = &case.file;
        let answer = outcome.answer.number();
        let first = word_at(file, before.counter);
        let second = word_at(file, before.counter.wrapping_add(2));
        self.counter(before.counter, outcome, first.is_some());
        if answer >= 21 {
            let row = match (answer, first) {
                (26, _) | (22, Some(_)) | (23, Some(_)) => Some("refused by its second word"),
                (27, _) => None,
                _ => Some("refused by its first word"),
            };
            if let Some(row) = row {
                self.saw(row, answer);
            }
            if later {
                self.saw("refused after steps of the run", answer);
            }
        }
        let word = match first {
            Some(word) => word,
            None if later => return self.no_word(file, before.counter, answer),
            None => return,
        };
        if answer == 24 {
            self.saw("code not built", word >> 11 & 15);
        }
        if word >> 15 == 1 && outcome.steps == 1 {
            self.order(word);
        }
        if word >> 15 == 0 && before.mode != NO_MODE {
            self.item(word, second.unwrap_or(0), before, outcome);
        }
        if word >> 15 == 0 && before.mode == 0 {
            self.halves(word, before, outcome);
            self.cells(case, word, before, outcome);
        }
    }

    /// Where a run ends for want of a word.
    fn no_word(&mut self, file: &[u16], counter: u16, answer: u8) {
        let row = "run comes to";
        let (segment, place) = (counter / 8_192, usize::from(counter % 8_192 / 2));
        match (answer, pairs(file).nth(usize::from(segment))) {
            (21, _) => self.saw(row, "an odd address"),
            (22, _) => self.saw(row, "no segment"),
            (_, Some((_, 0))) => self.saw(row, "a segment of length 0"),
            (_, Some((_, length))) if length == place => self.saw(row, "a segment's end"),
            _ => {}
        }
    }

    fn counter(&mut self, counter: u16, outcome: &Outcome, first: bool) {
        let row = match counter {
            65_534 => "counter from 65,534",
            _ if counter % 8_192 == 8_190 => "counter over a border of segments",
            _ => return,
        };
        match (outcome.words, outcome.answer.number()) {
            (1, _) => self.saw(row, "one word"),
            (2, _) => self.saw(row, "two words"),
            (_, 22) | (_, 23) | (_, 26) if first => self.saw(row, "second word refused"),
            _ => {}
        }
    }

    fn order(&mut self, word: u16) {
        let code = word >> 11 & 15;
        let bit = |number: u16| word >> number & 1;
        if bit(10) == 1 {
            self.saw("order, bit 10 set", code);
        } else {
            self.saw("order, bit 10 clear", code);
        }
        match (code, bit(10)) {
            (14, _) => self.saw(
                "status A, bits 10, 9, 8",
                format!("{}{}{}", bit(10), bit(9), bit(8)),
            ),
            (15, 0) if bit(6) == 0 => self.saw("increment, bit 6", "clear"),
            (15, 0) => self.saw_listed("increment, bit 6", format!("set, to {}", word & 63)),
            (15, _) => self.saw(
                "status C, bits 9, 8, 4",
                format!("{}{}{}", bit(9), bit(8), bit(4)),
            ),
            _ => {}
        }
    }

    fn item(&mut self, first: u16, second: u16, before: &Machine, outcome: &Outcome) {
        let (x, y) = aimed(first, second, before);
        if outcome.answer.number() == 27 {
            let row = "refused one past it (27)";
            self.saw_listed(row, format!("X {}", grouped(x)));
            self.saw_listed(row, format!("Y {}", grouped(y)));
        }
        if outcome.steps == 0 {
            return;
        }
        let row = "moved to an end";
        if x != before.x.0 {
            self.saw_listed(row, format!("X {}", grouped(x)));
        }
        if y != before.y.0 {
            self.saw_listed(row, format!("Y {}", grouped(y)));
        }
        let lit = first & LIT != 0 || before.mode == 0;
        let row = match (lit, before.write) {
            (false, _) => "item unlit (none of mode 0 is)",
            (true, 0) => "item lit, write off",
            _ if outcome.stores > 0 => "item stored",
            // In the field, of blank cells.
            _ if before.mode == 0 && corners(before).iter().any(meets_field) => return,
            _ => "item lit beyond the field (one of mode 3 is in it)",
        };
        self.saw(row, before.mode);
        if lit && before.write == 1 && matches!(before.mode, 1 | 2) {
            self.vector(before, outcome);
        }
    }

    /// The two codes of a word, and what became of it.
    fn halves(&mut self, word: u16, before: &Machine, outcome: &Outcome) {
        let (first, second) = (word & 127, word >> 8 & 127);
        let good = |code: u16| (32..=126).contains(&code);
        let row = "halves of a character word";
        match (good(first), good(second)) {
            (true, true) => self.saw(row, "both good"),
            (false, true) => self.saw(row, "first bad"),
            (true, false) => self.saw(row, "second bad"),
            (false, false) => self.saw(row, "both bad"),
        }
        if good(second) {
            self.saw_listed("first code, second good", first.to_string());
        }
        if good(first) {
            self.saw_listed("second code, first good", second.to_string());
        }
        let bit_7 = if word >> 7 & 1 == 1 { "set" } else { "clear" };
        self.saw("bit 7 of a character word", bit_7);

        let (answer, after) = (outcome.answer.number(), before.x.0 + 32);
        if answer == 32 {
            let row = "refused characters (32)";
            let inside = cut(corners(before)[0]) == [false; 4];
            let drawable = good(first) && inside && before.write == 1;
            self.saw_if(row, drawable, "a good first half in the field");
            self.saw_if(row, after > HIGHEST, "the range would be left too");
            return;
        }
        let row = "X after two characters";
        if answer == 27 {
            self.saw_if(row, after == HIGHEST + 1, "4,096, refused (27)");
            let room = if after - 16 <= HIGHEST { "one" } else { "none" };
            self.saw(row, format!("refused (27), room for {}", room));
        } else {
            self.saw_listed(row, grouped(after));
        }
    }

    /// Where the cells of a word lie that was drawn, and what set they are from.
    fn cells(&mut self, case: &Case, word: u16, before: &Machine, outcome: &Outcome) {
        if outcome.steps == 0 || before.write == 0 {
            return;
        }
        let lent = case.set();
        let (name, set) = match lent.len() {
            0 => ("built-in set", &BUILT_IN[..]),
            _ => ("lent set", &lent[..]),
        };
        let codes = [word & 127, word >> 8 & 127];
        let halves = ["first", "second"];
        for (half, (code, corner)) in halves.iter().zip(codes.iter().zip(corners(before))) {
            let from = 8 * usize::from(code - 32);
            let ink = ink(corner, &set[from..from + 8]);
            let stored = ink.iter().filter(|&&place| in_field(place)).count();
            if stored > 0 {
                self.saw("character stored", format!("{}, {}", name, half));
                let space = *code == 32 && !lent.is_empty();
                self.saw_if("character stored", space, "lent set, space");
                if lent.is_empty() && (48..=57).contains(code) {
                    self.saw("digit stored from the built-in set", code - 48);
                }
            }
            let row = match *half {
                "first" => "cell's place, first character",
                _ => "cell's place, second character",
            };
            let place = place(corner, stored, ink.len());
            self.saw_if(row, !place.is_empty(), place);
            let (left, right) = (corner == (0, 0), corner == (504, 504));
            let inside = place == "inside";
            if *half == "first" {
                self.saw_if(row, inside && left, "inside, in the lower left corner");
            } else {
                self.saw_if(row, inside && right, "inside, in the upper right corner");
            }
            if ink.is_empty() && meets_field(&corner) {
                self.saw("cell in the field without ink", name);
            }
        }
    }

    fn vector(&mut self, before: &Machine, outcome: &Outcome) {
        let pixel = |machine: &Machine| (machine.x.pixel().0, machine.y.pixel().0);
        let (from, to) = (pixel(before), pixel(&outcome.machine));
        let (dx, dy) = (to.0 - from.0, to.1 - from.1);
        let (long, short) = (dx.abs().max(dy.abs()), dx.abs().min(dy.abs()));
        let axis = if dx.abs() == long { "X" } else { "Y" };
        let sign = |way: i64| if way < 0 { "-" } else { "+" };
        if short > 0 && outcome.stores > 1 {
            let row = "vector stored, signs of X and Y, longer axis";
            self.saw(row, format!("{}{}{}", sign(dx), sign(dy), axis));
        }
        let row = "vector lit";
        self.saw_if(row, long == 0, "one pixel");
        self.saw_if(row, long > 0 && dy == 0, "along X");
        self.saw_if(row, long > 0 && dx == 0, "along Y");
        self.saw_if(row, long > 0 && short == long, "diagonal");
        self.saw_if(row, long == 512, "513 pixels");
        let half = |i: i64| 2 * i * short % (2 * long) == long;
        let rounded = short > 0 && (1..long).any(half);
        self.saw_if(row, rounded, &format!("a half rounded, longer {}", axis));

        let inside = |(x, y): (i64, i64)| (0..512).contains(&x) && (0..512).contains(&y);
        let ends = match (inside(from), inside(to)) {
            (true, true) => "in and in",
            (true, false) => "in and out",
            (false, true) => "out and in",
            (false, false) if outcome.stores > 0 => "out and out, crossing",
            (false, false) => "out and out, none stored",
        };
        self.saw("vector lit, its ends", ends);
    }
}

/// Each field of a machine: its row, its number, and whether that is in its range.
fn fields(machine: &Machine) -> [(&'static str, i64, bool); 8] {
    let units = LOWEST..=HIGHEST;
    let (mode, status) = (machine.mode, machine.status);
    [
        ("machine's X", machine.x.0, units.contains(&machine.x.0)),
        ("machine's Y", machine.y.0, units.contains(&machine.y.0)),
        ("machine's mode", mode.into(), mode <= 6 || mode == 255),
        ("machine's value", machine.value.into(), machine.value < 4),
        ("machine's write", machine.write.into(), machine.write < 2),
        ("machine's latch", machine.latch.into(), machine.latch < 2),
        (
            "machine's increment",
            machine.increment.into(),
            machine.increment < 64,
        ),
        (
            "machine's status",
            status.into(),
            status < 3 || (21..=27).contains(&status) || status == 32,
        ),
    ]
}

/// The words of the header, of a file that has a count of segments.
fn header(file: &[u16]) -> usize {
    2 + 2 * usize::from(file[1])
}

/// Offset and length of each segment whose pair is there, where the count is one that may be.
fn pairs(file: &[u16]) -> impl Iterator<Item = (usize, usize)> + '_ {
    let count = file.get(1).copied().filter(|count| (1..=8).contains(count));
    let end = file.len().min(2 + 2 * usize::from(count.unwrap_or(0)));
    file[end.min(2)..end]
        .chunks_exact(2)
        .map(|pair| (usize::from(pair[0]), usize::from(pair[1])))
}

fn breaks(file: &[u16], (offset, length): (usize, usize)) -> bool {
    offset < header(file) || length > SEGMENT || offset + length > file.len()
}

/// The word at an address of a file that was taken, if there is one.
fn word_at(file: &[u16], address: u16) -> Option<u16> {
    let (offset, length) = pairs(file).nth(usize::from(address / 8_192))?;
    let place = usize::from(address % 8_192 / 2);
    if address % 2 == 0 && place < length {
        Some(file[offset + place])
    } else {
        None
    }
}

/// The lower left pixels of the two cells of a character word.
fn corners(before: &Machine) -> [(i64, i64); 2] {
    let (x, y) = (before.x.pixel().0, before.y.pixel().0);
    [(x, y), (x + 8, y)]
}

/// The pixels of a cell that are stored if the field has them.
fn ink((x, y): (i64, i64), rows: &[u8]) -> Vec<(i64, i64)> {
    let mut places = Vec::new();
    for (row, bits) in (0..8).zip(rows) {
        for column in 0..8 {
            if bits >> (7 - column) & 1 == 1 {
                places.push((x + column, y + 7 - row));
            }
        }
    }
    places
}

fn in_field((x, y): (i64, i64)) -> bool {
    (0..512).contains(&x) && (0..512).contains(&y)
}

/// Whether some pixel of the cell at a corner is in the field.
fn meets_field(&(x, y): &(i64, i64)) -> bool {
    (-7..512).contains(&x) && (-7..512).contains(&y)
}

/// Whether the cell at a corner goes over the left edge, the right, the upper and the lower one.
fn cut((x, y): (i64, i64)) -> [bool; 4] {
    [x < 0, x > 504, y > 504, y < 0]
}

/// The name of a cell's place, where its ink tells it: some of it stored, and where the cell is cut
/// some of it not.
fn place(corner: (i64, i64), stored: usize, ink: usize) -> &'static str {
    if ink == 0 {
        return "";
    }
    let sides = cut(corner);
    if !meets_field(&corner) {
        return match sides {
            [true, _, false, false] => "beyond, left",
            [_, true, false, false] => "beyond, right",
            [false, false, true, _] => "beyond, above",
            [false, false, _, true] => "beyond, below",
            _ => "",
        };
    }
    match sides {
        [false, false, false, false] => "inside",
        _ if stored == 0 || stored == ink => "",
        [true, false, false, false] => "cut left",
        [false, true, false, false] => "cut right",
        [false, false, true, false] => "cut top",
        [false, false, false, true] => "cut bottom",
        _ => "cut at two sides",
    }
}

/// Where an item takes the position, or would take it.
fn aimed(first: u16, second: u16, machine: &Machine) -> (i64, i64) {
    let (Unit(x), Unit(y)) = (machine.x, machine.y);
    let growth = i64::from(machine.increment);
    let size = |word: u16, low: u16, mask: u16| i64::from(word >> low & mask);
    let way = |word: u16, sign: u16| if word >> sign & 1 == 1 { -1 } else { 1 };
    match machine.mode {
        0 => (x + 32, y),
        1 | 6 => (
            x + way(first, 13) * size(first, 7, 63),
            y + way(first, 6) * size(first, 0, 63),
        ),
        2 => (
            x + way(first, 13) * size(first, 0, 1_023),
            y + way(second, 13) * size(second, 0, 1_023),
        ),
        3 => (size(first, 0, 1_023), size(second, 0, 1_023)),
        4 => (size(first, 0, 1_023), y + growth),
        _ => (x + growth, size(first, 0, 1_023)),
    }
}

/// A number with a comma between thousands.
fn grouped(number: i64) -> String {
    if number.abs() < 1_000 {
        return number.to_string();
    }
    format!("{},{:03}", grouped(number / 1_000), number.abs() % 1_000)
}
