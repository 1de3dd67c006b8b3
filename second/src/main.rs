//! The command: `second plot` reads a display file and prints its line,
//! `second picture [BUDGET [SET]]` and `second fault [BUDGET]` write its screen as a PGM, right and
//! with the old fault; SET is a file that holds a set of characters to lend,
//! `second set` writes the built-in set of characters,
//! `second cases SEED COUNT` prints random files with theirs and the pixels that they store,
//! `second files SEED COUNT DIR` writes random files and a list of their lines,
//! `second parts SEED DIR [COUNT]` writes cases for the parts of an implementation, and
//! `second replay SEED DIR [COUNT]` writes cases for its calls, and a table of what occurs.

use std::env;
use std::fs;
use std::io::{self, BufWriter, Read, Write};
use std::path::{Path, PathBuf};
use std::process::ExitCode;

use second::cases::cases;
use second::fault::fault;
use second::files::files;
use second::parts::{parts, USUAL_COUNT};
use second::picture::{picture, USUAL_BUDGET};
use second::plot::{plot, INPUT_LIMIT};
use second::replay::{self, replay};
use second::{BUDGET_LIMIT, BUILT_IN, SET_BYTES};

/// What the arguments ask for.
enum Task {
    Plot,
    Picture {
        budget: u64,
        /// The file of the lent set.
        set: Option<PathBuf>,
    },
    Fault {
        budget: u64,
    },
    Set,
    Cases {
        seed: u64,
        count: usize,
    },
    Files {
        seed: u64,
        count: usize,
        folder: PathBuf,
    },
    Parts {
        seed: u64,
        folder: PathBuf,
        count: usize,
    },
    Replay {
        seed: u64,
        folder: PathBuf,
        count: usize,
    },
}

fn main() -> ExitCode {
    let task = match task() {
        Some(task) => task,
        None => {
            eprintln!(
                "Call it as `second plot`, `second picture [BUDGET [SET]]` or \
                 `second fault [BUDGET]`, with a display file on standard input, a budget of at \
                 most {} steps and the path of a character set, \
                 as `second set`, which writes the built-in set, \
                 as `second cases SEED COUNT`, with two whole numbers, \
                 as `second files SEED COUNT DIR`, with a folder to write to, \
                 or as `second parts SEED DIR [COUNT]` or `second replay SEED DIR [COUNT]`, \
                 with such a folder too.",
                BUDGET_LIMIT
            );
            return ExitCode::from(2);
        }
    };
    let done = match task {
        Task::Plot => plot_standard_input(),
        Task::Picture { budget, set } => draw_picture(budget, set.as_deref()),
        Task::Fault { budget } => draw_fault(budget),
        Task::Set => io::stdout().write_all(&BUILT_IN),
        Task::Cases { seed, count } => print_cases(seed, count),
        Task::Files {
            seed,
            count,
            folder,
        } => write_files(seed, count, &folder),
        Task::Parts {
            seed,
            folder,
            count,
        } => write_parts(seed, &folder, count),
        Task::Replay {
            seed,
            folder,
            count,
        } => write_replay(seed, &folder, count),
    };
    match done {
        Ok(()) => ExitCode::SUCCESS,
        Err(error) => {
            eprintln!("The program failed: {}.", error);
            ExitCode::FAILURE
        }
    }
}

fn task() -> Option<Task> {
    let arguments: Vec<_> = env::args_os().skip(1).collect();
    let arguments: Option<Vec<_>> = arguments.iter().map(|word| word.to_str()).collect();
    match arguments?.as_slice() {
        ["plot"] => Some(Task::Plot),
        ["picture"] => Some(Task::Picture {
            budget: USUAL_BUDGET,
            set: None,
        }),
        ["picture", steps] => Some(Task::Picture {
            budget: budget(steps)?,
            set: None,
        }),
        ["picture", steps, set] => Some(Task::Picture {
            budget: budget(steps)?,
            set: Some(PathBuf::from(set)),
        }),
        ["fault"] => Some(Task::Fault {
            budget: USUAL_BUDGET,
        }),
        ["fault", steps] => Some(Task::Fault {
            budget: budget(steps)?,
        }),
        ["set"] => Some(Task::Set),
        ["cases", seed, count] => Some(Task::Cases {
            seed: seed.parse().ok()?,
            count: count.parse().ok()?,
        }),
        ["files", seed, count, folder] => Some(Task::Files {
            seed: seed.parse().ok()?,
            count: count.parse().ok()?,
            folder: PathBuf::from(folder),
        }),
        ["parts", seed, folder] => Some(Task::Parts {
            seed: seed.parse().ok()?,
            folder: PathBuf::from(folder),
            count: USUAL_COUNT,
        }),
        ["parts", seed, folder, count] => Some(Task::Parts {
            seed: seed.parse().ok()?,
            folder: PathBuf::from(folder),
            count: count.parse().ok()?,
        }),
        ["replay", seed, folder] => Some(Task::Replay {
            seed: seed.parse().ok()?,
            folder: PathBuf::from(folder),
            count: replay::USUAL_COUNT,
        }),
        ["replay", seed, folder, count] => Some(Task::Replay {
            seed: seed.parse().ok()?,
            folder: PathBuf::from(folder),
            count: count.parse().ok()?,
        }),
        _ => None,
    }
}

/// The largest is that of a run.
fn budget(steps: &str) -> Option<u64> {
    let steps = steps.parse().ok()?;
    if steps <= BUDGET_LIMIT {
        Some(steps)
    } else {
        None
    }
}

fn plot_standard_input() -> io::Result<()> {
    writeln!(io::stdout(), "{}", plot(&standard_input()?))
}

fn draw_picture(budget: u64, set: Option<&Path>) -> io::Result<()> {
    let set = match set {
        Some(path) => at_most(SET_BYTES, fs::File::open(path)?)?,
        None => Vec::new(),
    };
    io::stdout().write_all(&picture(&standard_input()?, budget, &set))
}

fn draw_fault(budget: u64) -> io::Result<()> {
    io::stdout().write_all(&fault(&standard_input()?, budget))
}

fn standard_input() -> io::Result<Vec<u8>> {
    at_most(INPUT_LIMIT, io::stdin().lock())
}

/// All bytes of an input, or one more than the limit, which is enough to see that it is too long.
fn at_most(limit: usize, input: impl Read) -> io::Result<Vec<u8>> {
    let mut bytes = Vec::new();
    input.take(limit as u64 + 1).read_to_end(&mut bytes)?;
    Ok(bytes)
}

fn print_cases(seed: u64, count: usize) -> io::Result<()> {
    let mut output = BufWriter::new(io::stdout().lock());
    for case in cases(seed).take(count) {
        writeln!(output, "{}", case)?;
    }
    output.flush()
}

/// Files 00001.df and so on, and their lines in that order.
fn write_files(seed: u64, count: usize, folder: &Path) -> io::Result<()> {
    let mut expected = String::new();
    for (number, file) in (1..=count).zip(files(seed)) {
        fs::write(folder.join(format!("{:05}.df", number)), &file.bytes)?;
        expected += &format!("{}\n", file.line);
    }
    fs::write(folder.join("expected"), expected)
}

fn write_parts(seed: u64, folder: &Path, count: usize) -> io::Result<()> {
    let parts = parts(seed, count);
    fs::write(folder.join("cases"), &parts.cases)?;
    fs::write(folder.join("expected"), &parts.expected)?;
    fs::write(folder.join("index"), &parts.index)?;
    write!(io::stdout(), "{}", parts)
}

fn write_replay(seed: u64, folder: &Path, count: usize) -> io::Result<()> {
    let replay = replay(seed, count).map_err(|what| io::Error::new(io::ErrorKind::Other, what))?;
    fs::write(folder.join("cases"), &replay.cases)?;
    fs::write(folder.join("expected"), &replay.expected)?;
    fs::write(folder.join("table"), &replay.table)
}
