//! Times the program `wasmi_link` beside one on the Rust crate's containers and one on Rust's own, as processes that read
//! the same files. `link FOLDER PORT MODULE..` keeps copies of the modules in FOLDER under made-up names, compares what
//! the programs write, and prints a line. `link theirs FILE..` and `link plain FILE..` are the programs beside it.

use std::env;
use std::fs::{self, File};
use std::io::{self, Write};
use std::path::{Path, PathBuf};
use std::process::{Command, ExitCode};
use std::time::Instant;
use wasmi_bench_driver::linking::{decode_all, link, module_name, Plain, Tables, Theirs};
use wasmi_bench_driver::progress::Outcome;
use wasmi_bench_driver::tables::{MadeUp, Names};

/// How many copies of modules are linked.
const COPIES: usize = 1000;

/// How often each program is timed. The least time counts.
const TURNS: usize = 21;

fn main() -> Outcome<ExitCode> {
    let words: Vec<String> = env::args().skip(1).collect();
    match words.as_slice() {
        [side, files @ ..] if side == "theirs" || side == "plain" => report(side, files),
        [folder, port, modules @ ..] if !modules.is_empty() => {
            print_line(Path::new(folder), Path::new(port), modules)?;
            Ok(ExitCode::SUCCESS)
        }
        _ => Err("give a folder, the port's program, and modules".into()),
    }
}

/// What the port's program does.
fn report(side: &str, paths: &[String]) -> Outcome<ExitCode> {
    let files = paths.iter().map(fs::read).collect::<io::Result<Vec<_>>>()?;
    let modules = decode_all(&files).ok_or("a file is no module")?;
    let names: Vec<&str> = paths.iter().map(|path| module_name(path)).collect();
    let (text, complete) = if side == "theirs" {
        link(&mut Theirs::new(), &names, &modules)
    } else {
        link(&mut Plain::new(), &names, &modules)
    };
    io::stdout().write_all(text.as_bytes())?;
    Ok(if complete {
        ExitCode::SUCCESS
    } else {
        ExitCode::from(1)
    })
}

fn print_line(folder: &Path, port: &Path, modules: &[String]) -> Outcome<()> {
    let files = copied(&folder.join("modules"), modules)?;
    let rust = env::current_exe()?;
    let programs: [(&Path, &[&str], &str); 3] = [
        (port, &[], "link.port"),
        (&rust, &["theirs"], "link.theirs"),
        (&rust, &["plain"], "link.plain"),
    ];
    let mut least = [f64::INFINITY; 3];
    for turn in 0..=TURNS {
        for (time, (program, words, output)) in least.iter_mut().zip(programs) {
            let taken = timed(program, words, &files, &folder.join(output))?;
            // The first turn only warms up.
            if turn > 0 {
                *time = time.min(taken);
            }
        }
    }
    let texts = programs.map(|(_, _, output)| fs::read(folder.join(output)));
    let [ours, theirs, plain] = texts;
    let ours = ours?;
    if ours != theirs? || ours != plain? {
        return Err(format!("the reports differ: see {}", folder.display()).into());
    }
    let [port, theirs, plain] = least;
    println!("| Files | Port, ms | Rust crate, ms | `HashMap`s, ms | Port / Rust crate |");
    println!("|---|---|---|---|---|");
    println!(
        "| {COPIES} | {port:.2} | {theirs:.2} | {plain:.2} | {:.2} |",
        port / theirs
    );
    Ok(())
}

/// The modules under their own names, and copies of them under others.
fn copied(folder: &Path, modules: &[String]) -> Outcome<Vec<PathBuf>> {
    fs::create_dir_all(folder)?;
    let mut files = Vec::new();
    for (number, module) in modules.iter().cycle().take(COPIES).enumerate() {
        let name = if number < modules.len() {
            module_name(module).to_owned()
        } else {
            MadeUp::name(number as u64)
        };
        let file = folder.join(format!("{name}.wasm"));
        fs::copy(module, &file)?;
        files.push(file);
    }
    Ok(files)
}

/// Runs a program once. Milliseconds.
fn timed(program: &Path, words: &[&str], files: &[PathBuf], output: &Path) -> Outcome<f64> {
    let mut command = Command::new(program);
    command
        .args(words)
        .args(files)
        .stdout(File::create(output)?);
    let start = Instant::now();
    let status = command.status()?;
    let taken = start.elapsed().as_secs_f64() * 1e3;
    if !matches!(status.code(), Some(0 | 1)) {
        return Err(format!("{}: {status}", program.display()).into());
    }
    Ok(taken)
}
