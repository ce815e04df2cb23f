//! Times the rows and prints the table; writes the chart to the file that its first argument names. With a second
//! argument it times only the rows whose names have that word. A third names the same program of another build, which
//! times them too: the lesser time counts. `time --lines` WORD prints the times alone. Standard error has each time as it is
//! taken.

use std::process::{Command, ExitCode, Stdio};
use std::{env, fs};
use wasmi_bench_driver::chart::chart;
use wasmi_bench_driver::progress::{each, Outcome};
use wasmi_bench_driver::row::Fourth;
use wasmi_bench_driver::rows::ROWS;
use wasmi_bench_driver::timing::{settle_heap, Entry};

/// A ratio above this is more than noise.
const NOISE: f64 = 1.05;

fn main() -> ExitCode {
    let arguments: Vec<String> = env::args().skip(1).collect();
    let word = arguments.get(1).map_or("", String::as_str);
    let outcome = match arguments.first().map(String::as_str) {
        None => Err("give the file to write the chart to".into()),
        Some("--lines") => print_lines(word),
        Some(file) => print_tables(file, word, arguments.get(2)),
    };
    match outcome {
        Ok(()) => ExitCode::SUCCESS,
        Err(error) => {
            eprintln!("{error}");
            ExitCode::FAILURE
        }
    }
}

fn measure(word: &str) -> Outcome<Vec<Entry>> {
    settle_heap();
    let mut entries = Vec::new();
    each(ROWS, word, |row| {
        for n in row.sizes {
            let entry = Entry::new(row, *n);
            eprintln!("{entry}: {}", entry.times);
            entries.push(entry);
        }
        Ok(())
    })?;
    Ok(entries)
}

fn print_lines(word: &str) -> Outcome<()> {
    for entry in measure(word)? {
        println!("{}", entry.times);
    }
    Ok(())
}

fn print_tables(file: &str, word: &str, other: Option<&String>) -> Outcome<()> {
    let mut entries = measure(word)?;
    if let Some(program) = other {
        let output = Command::new(program)
            .args(["--lines", word])
            .stderr(Stdio::inherit())
            .output()?;
        let lines = String::from_utf8(output.stdout)?;
        if lines.lines().count() != entries.len() {
            return Err(format!("{program} timed other rows").into());
        }
        for (entry, line) in entries.iter_mut().zip(lines.lines()) {
            entry.times = entry.times.least(line.parse()?);
        }
    }
    print_rows(&entries);
    print_mean(&entries);
    for title in [Fourth::KIT, Fourth::UNBOUNDED] {
        print_beside(&entries, title);
    }
    fs::write(file, chart(&entries)).map_err(|error| format!("{file}: {error}"))?;
    Ok(())
}

fn print_rows(entries: &[Entry]) {
    println!("| Row | Items | Port, ns | Rust crate, ns | Plain, ns | Port / Rust crate | Port / plain |");
    println!("|---|---|---|---|---|---|---|");
    for entry in entries {
        let times = entry.times;
        println!(
            "| {entry} | {:.2} | {:.2} | {:.2} | {:.2} | {:.2} |",
            times.ours,
            times.theirs,
            times.plain,
            times.to_theirs(),
            times.to_plain(),
        );
    }
}

// How all rows together stand to the Rust crate's.
fn print_mean(entries: &[Entry]) {
    let ratios: Vec<f64> = entries
        .iter()
        .map(|entry| entry.times.to_theirs())
        .collect();
    let logarithms: f64 = ratios.iter().map(|ratio| ratio.ln()).sum();
    println!(
        "\nGeometric mean of the {} ratios to the Rust crate: {:.2}; above {NOISE} are {}.",
        ratios.len(),
        (logarithms / ratios.len() as f64).exp(),
        ratios.iter().filter(|ratio| **ratio > NOISE).count(),
    );
}

// The rows that have a fourth side of this title, beside it.
fn print_beside(entries: &[Entry], title: &str) {
    let beside: Vec<(&Entry, f64)> = entries
        .iter()
        .filter_map(|entry| Some((entry, entry.fourth(title)?)))
        .collect();
    if beside.is_empty() {
        return;
    }
    println!("\n| Row | Items | Port, ns | {title}, ns | Port / that |");
    println!("|---|---|---|---|---|");
    for (entry, time) in beside {
        let ours = entry.times.ours;
        println!("| {entry} | {ours:.2} | {time:.2} | {:.2} |", ours / time);
    }
}
