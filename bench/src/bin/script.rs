//! Times the program `wasmi_script` beside one on the Rust crate, as processes that read a file and write another.
//! `script FOLDER PORT` gives both the same lines, kept in FOLDER, compares what they write, and prints a table;
//! `script FOLDER PORT WORD` does so for the scripts whose names have that word. `script` alone answers standard input.

use std::env;
use std::fs::{self, File};
use std::io::{self, Read, Write};
use std::path::Path;
use std::process::{Command, ExitCode};
use std::time::Instant;
use wasmi_bench_driver::progress::{each, Named, Outcome};
use wasmi_bench_driver::script::answer;
use wasmi_bench_driver::scripts::{scripts, Script, LINES};

/// How often each program is timed. The least time counts.
const TURNS: usize = 7;

fn main() -> Outcome<ExitCode> {
    let words: Vec<String> = env::args().skip(1).collect();
    match words.as_slice() {
        [] => {
            let mut input = String::new();
            io::stdin().read_to_string(&mut input)?;
            io::stdout().write_all(answer(&input).as_bytes())?;
        }
        [folder, port, word @ ..] if word.len() <= 1 => {
            let (folder, port) = (Path::new(folder), Path::new(port));
            refuses(port, &folder.join("script"))?;
            print_table(folder, port, word.first().map_or("", String::as_str))?;
        }
        _ => return Err("give a folder, the port's program, and a word or none".into()),
    }
    Ok(ExitCode::SUCCESS)
}

fn print_table(folder: &Path, port: &Path, word: &str) -> Outcome<()> {
    println!(
        "| Lines of a script | Port, ns a line | Rust program, ns a line | Port / Rust program |"
    );
    println!("|---|---|---|---|");
    each(&scripts(), word, |script| {
        let (ours, theirs) = time(script, folder, port)?;
        let (name, ratio) = (script.name(), ours / theirs);
        println!("| {name} | {ours:.0} | {theirs:.0} | {ratio:.2} |");
        Ok(())
    })
}

/// The least times of both programs.
fn time(script: &Script, folder: &Path, port: &Path) -> Outcome<(f64, f64)> {
    let rust = env::current_exe()?;
    let (input, ours, theirs) = (
        folder.join("script"),
        folder.join("script.port"),
        folder.join("script.rust"),
    );
    fs::write(&input, script.text())?;
    let (mut port_time, mut rust_time) = (f64::INFINITY, f64::INFINITY);
    for turn in 0..=TURNS {
        let (one, other) = (timed(port, &input, &ours)?, timed(&rust, &input, &theirs)?);
        // The first turn only warms up.
        if turn > 0 {
            (port_time, rust_time) = (port_time.min(one), rust_time.min(other));
        }
    }
    if fs::read(&ours)? != fs::read(&theirs)? {
        let (name, folder) = (script.name(), folder.display());
        return Err(format!("the replies to {name} differ: see {folder}").into());
    }
    Ok((port_time, rust_time))
}

/// Gives a program what is no text, kept in a file. Its status is to be 2, and it writes nothing on standard output.
fn refuses(program: &Path, input: &Path) -> Outcome<()> {
    fs::write(input, b"\xff\n")?;
    let ended = Command::new(program).stdin(File::open(input)?).output()?;
    if ended.status.code() != Some(2) || !ended.stdout.is_empty() {
        return Err(format!("{}: what is no text: {ended:?}", program.display()).into());
    }
    Ok(())
}

/// Runs a program once. Nanoseconds a line.
fn timed(program: &Path, input: &Path, output: &Path) -> Outcome<f64> {
    let (input, output) = (File::open(input)?, File::create(output)?);
    let start = Instant::now();
    let status = Command::new(program).stdin(input).stdout(output).status()?;
    let taken = start.elapsed().as_nanos() as f64;
    if !status.success() {
        return Err(format!("{}: {status}", program.display()).into());
    }
    Ok(taken / LINES as f64)
}
