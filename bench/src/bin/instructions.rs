//! How many instructions an operation takes, port and Rust crate, by valgrind's callgrind: they don't depend on where a
//! loop lies, nor on the machine's mood. `instructions WORD` prints a line for each row whose name has that word.
//! `instructions SIDE ROW ROUNDS` does a row's work once, for callgrind to count.

use std::process::{Command, ExitCode};
use std::{env, hint::black_box};
use wasmi_bench_driver::progress::{each, Outcome};
use wasmi_bench_driver::row::Row;
use wasmi_bench_driver::rows::ROWS;

/// How many items a row has here, and how many rounds are counted after the first.
const ITEMS: u64 = 1 << 12;
const ROUNDS: u64 = 16;

fn main() -> ExitCode {
    let arguments: Vec<String> = env::args().skip(1).collect();
    let outcome = match arguments.as_slice() {
        [side, row, rounds] => work(side, row, rounds),
        [word] => print_rows(word),
        _ => Err("give a word of the rows to count".into()),
    };
    match outcome {
        Ok(()) => ExitCode::SUCCESS,
        Err(error) => {
            eprintln!("{error}");
            ExitCode::FAILURE
        }
    }
}

fn work(side: &str, name: &str, rounds: &str) -> Outcome<()> {
    let row = ROWS
        .iter()
        .find(|row| row.name == name)
        .ok_or("no such row")?;
    let rounds = black_box(rounds.parse()?);
    let checksum = match side {
        "ours" => (row.ours)(black_box(ITEMS), rounds),
        _ => (row.theirs)(black_box(ITEMS), rounds),
    };
    println!("{checksum}");
    Ok(())
}

fn print_rows(word: &str) -> Outcome<()> {
    println!("| Row | Port | Rust crate |\n|---|---|---|");
    each(ROWS, word, |row| {
        let (ours, theirs) = (of_operation("ours", row)?, of_operation("theirs", row)?);
        println!("| {} | {ours:.1} | {theirs:.1} |", row.name);
        Ok(())
    })
}

// What more rounds take, divided among their operations: so what comes before them falls out.
fn of_operation(side: &str, row: &Row) -> Outcome<f64> {
    let few = counted(side, row.name, 1)?;
    let many = counted(side, row.name, 1 + ROUNDS)?;
    Ok((many - few) / (ROUNDS * ITEMS) as f64)
}

// The instructions of a process.
fn counted(side: &str, name: &str, rounds: u64) -> Outcome<f64> {
    let output = Command::new("valgrind")
        .args(["--tool=callgrind", "--callgrind-out-file=/dev/null"])
        .arg(env::current_exe()?)
        .args([side, name, &rounds.to_string()])
        .output()?;
    let text = String::from_utf8_lossy(&output.stderr);
    let count = text
        .lines()
        .find_map(|line| line.split("Collected :").nth(1))
        .ok_or_else(|| format!("valgrind counted nothing: {text}"))?;
    Ok(count.trim().parse()?)
}
