//! Makes the same calls on the port and on the Rust crate, and compares the answers.
//!
//! `wasmi_replay_driver PORT FOLDER CALLS SEED..` runs the port's program PORT on so many calls of each container and
//! seed, keeps what differs in FOLDER, and prints a table. `wasmi_replay_driver` alone answers standard input.

mod answers;
mod compare;
mod containers;
mod generate;
mod public_calls;
mod random;

use answers::BAD;
use compare::{compare, Comparison, Order};
use containers::{Kind, KINDS};
use generate::{generate, NO_CALLS};
use public_calls::Counts;
use std::env;
use std::error::Error;
use std::fs::{self, File};
use std::io::{self, Read, Write};
use std::path::{Path, PathBuf};
use std::process::{Command, ExitCode};

type Outcome<T> = Result<T, Box<dyn Error>>;

fn main() -> Outcome<ExitCode> {
    let words: Vec<String> = env::args().skip(1).collect();
    match words.as_slice() {
        [] => {
            answer_stdin()?;
            Ok(ExitCode::SUCCESS)
        }
        [port, folder, calls, seeds @ ..] => {
            let run = Run {
                port: port.into(),
                folder: folder.into(),
                calls: calls.parse()?,
            };
            let seeds = seeds.iter().map(|seed| seed.parse());
            let equal = run.all(&seeds.collect::<Result<Vec<u64>, _>>()?)?;
            Ok(if equal {
                ExitCode::SUCCESS
            } else {
                ExitCode::FAILURE
            })
        }
        _ => Err("give the port's program, a folder, a number of calls, and seeds".into()),
    }
}

fn answer_stdin() -> Outcome<()> {
    let mut input = String::new();
    io::stdin().read_to_string(&mut input)?;
    io::stdout().write_all(containers::answer(&input).as_bytes())?;
    Ok(())
}

struct Run {
    port: PathBuf,
    folder: PathBuf,
    calls: usize,
}

impl Run {
    /// Compares each container at each seed, and prints the tables. True if nothing differs.
    fn all(&self, seeds: &[u64]) -> Outcome<bool> {
        let mut counts: Vec<_> = KINDS.iter().map(|_| Counts::default()).collect();
        let mut equal = true;
        println!("| Container | Seed | Calls | Answers compared | Differences | The first |");
        println!("|---|---|---|---|---|---|");
        let mut left = KINDS.iter().flat_map(Kind::names).count() * seeds.len();
        let mut place = 0;
        for (kind, counts) in KINDS.iter().zip(&mut counts) {
            for name in kind.names() {
                for seed in seeds {
                    // Another run for each container.
                    let drawn = seed.wrapping_mul(1000).wrapping_add(place);
                    let input = generate(kind, &name, drawn, self.calls);
                    counts.add(&input);
                    let comparison = self.one(&name, *seed, &input)?;
                    equal &= comparison.differences == 0;
                    print_row(&name, *seed, self.calls, &comparison);
                    left -= 1;
                    eprintln!("{name} at seed {seed} compared, {left} left");
                }
                place += 1;
            }
        }
        let mut all_made = true;
        for (kind, counts) in KINDS.iter().zip(&counts) {
            all_made &= public_calls::print(kind, counts);
        }
        if !all_made {
            eprintln!("A call in the tables was never made: give more calls.");
        }
        Ok(equal && all_made)
    }

    /// Answers the input on both sides. What differs is kept.
    fn one(&self, container: &str, seed: u64, input: &str) -> Outcome<Comparison> {
        let name = format!("{}-{seed}", container.replace(' ', "-"));
        let (calls, answers) = (self.file(&name, "calls"), self.file(&name, "port"));
        fs::write(&calls, input)?;
        let status = Command::new(&self.port)
            .stdin(File::open(&calls)?)
            .stdout(File::create(&answers)?)
            .status()?;
        if !status.success() {
            return Err(format!("{} on {}: {status}", self.port.display(), calls.display()).into());
        }
        let port = fs::read(&answers)?;
        let rust_crate = containers::answer(input);
        if let Some(line) = misspelt(input, &rust_crate) {
            return Err(format!("{container}: `{line}` is drawn as a call, and is none").into());
        }
        let comparison = compare(input, &port, rust_crate.as_bytes(), Order::of(container));
        if comparison.differences == 0 {
            fs::remove_file(&calls)?;
            fs::remove_file(&answers)?;
        } else {
            fs::write(self.file(&name, "rust"), rust_crate)?;
        }
        Ok(comparison)
    }

    fn file(&self, name: &str, kind: &str) -> PathBuf {
        Path::new(&self.folder).join(format!("{name}.{kind}"))
    }
}

/// A line that is answered as none that is a call, and that isn't drawn for it.
fn misspelt<'a>(input: &'a str, answers: &str) -> Option<&'a str> {
    let mut answered = input.split_terminator('\n').zip(answers.lines());
    let (line, _) = answered.find(|(line, answer)| *answer == BAD && !NO_CALLS.contains(line))?;
    Some(line)
}

fn print_row(container: &str, seed: u64, calls: usize, comparison: &Comparison) {
    let first = match &comparison.first {
        Some(first) => format!(
            "line {}, `{}`: port `{}`, Rust crate `{}`",
            first.line, first.call, first.port, first.rust_crate
        ),
        None => "none".to_owned(),
    };
    println!(
        "| `{container}` | {seed} | {calls} | {} | {} | {first} |",
        comparison.compared, comparison.differences
    );
}
