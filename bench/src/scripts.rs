//! The scripts that are timed.

use crate::progress::Named;
use crate::tables::{few_often, key_of, scattered, Identifiers, Mangled, Names, Paths};
use std::fmt::Write;

/// How many lines a script has.
pub const LINES: u64 = 200_000;

/// How many texts there are before the lines of a script that reads some.
const TEXTS: u64 = 1000;

/// How many kinds there are of entities.
const KINDS: u64 = 16;

/// Of how many names new ones are taken, a power of two, and of how many where few come often.
const NAMES: u64 = 1 << 20;
const NAMES_OF_STREAM: u64 = 1 << 14;

/// What is made of a number.
type Line = fn(u64) -> String;

/// What its lines do, the line that is made of a number, and the line before of a number, if there are lines before.
pub struct Script {
    name: String,
    line: Box<dyn Fn(u64) -> String>,
    before: Option<Line>,
}

impl Named for Script {
    fn name(&self) -> &str {
        &self.name
    }
}

impl Script {
    fn new(name: impl Into<String>, line: impl Fn(u64) -> String + 'static) -> Script {
        Script {
            name: name.into(),
            line: Box::new(line),
            before: None,
        }
    }

    pub fn text(&self) -> String {
        let mut text = String::new();
        if let Some(before) = self.before {
            for number in 0..TEXTS {
                // A `String` takes whatever is written.
                let _ = writeln!(text, "{}", before(number));
            }
        }
        for number in 0..LINES {
            let _ = writeln!(text, "{}", (self.line)(number));
        }
        text
    }
}

/// Scripts of short texts.
type OfTexts = (&'static str, Line, Option<Line>);

const OF_TEXTS: [OfTexts; 14] = [
    (
        "`a`, a text of its own",
        |i| format!("a local_{}", mixed(i)),
        None,
    ),
    (
        "`g`",
        |i| format!("g {}", mixed(i) % TEXTS),
        Some(|i| format!("a text_{i}")),
    ),
    ("`p`", |i| format!("p {}", mixed(i)), None),
    ("`n`", |_| "n".to_owned(), Some(|i| format!("a text_{i}"))),
    ("`d`, new texts", |i| format!("d local_{}", mixed(i)), None),
    (
        "`d`, texts that are there",
        |i| format!("d text_{}", mixed(i) % TEXTS),
        Some(|i| format!("d text_{i}")),
    ),
    ("`i`, new texts", |i| format!("i local_{}", mixed(i)), None),
    (
        "`i`, texts that are there",
        |i| format!("i text_{}", mixed(i) % TEXTS),
        Some(|i| format!("i text_{i}")),
    ),
    (
        "`r`",
        |i| format!("r {}", mixed(i) % TEXTS),
        Some(|i| format!("i text_{i}")),
    ),
    (
        "`e`, new names",
        |i| put("e", format!("local_{}", mixed(i)), i),
        None,
    ),
    (
        "`e`, names that are there",
        |i| put("e", format!("text_{}", mixed(i) % TEXTS), i),
        Some(entity),
    ),
    (
        "`v`",
        |i| format!("v {} {}", mixed(i) % TEXTS, mixed(i)),
        Some(entity),
    ),
    (
        "`k`, new kinds",
        |i| format!("k {} other {}", mixed(i) % TEXTS, mixed(i)),
        Some(entity),
    ),
    ("`q`", |i| format!("q {}", mixed(i) % TEXTS), Some(entity)),
];

/// The kinds of names, with the name of a number.
const OF_NAMES: [(&str, Line); 3] = [
    ("paths", Paths::name),
    ("mangled names", Mangled::name),
    ("identifiers", Identifiers::name),
];

fn entity(number: u64) -> String {
    put("e", format!("text_{number}"), number)
}

/// The line of a command that puts a name in.
fn put(command: &str, name: String, number: u64) -> String {
    match command {
        "e" => format!("e {name} kind {}", number % KINDS),
        _ => format!("{command} {name}"),
    }
}

/// A number of eight digits or fewer, another one for each number below 2^26, in no order.
fn mixed(number: u64) -> u64 {
    number.wrapping_mul(0x2f0_b4c5) & ((1 << 26) - 1)
}

pub fn scripts() -> Vec<Script> {
    let of_texts = OF_TEXTS.map(|(name, line, before)| Script {
        before,
        ..Script::new(name, line)
    });
    let of_names = ["d", "i", "e"].into_iter().flat_map(|command| {
        OF_NAMES.map(|(kind, name)| {
            let line = move |i| put(command, name(scattered(i, NAMES)), i);
            Script::new(format!("`{command}`, new {kind}"), line)
        })
    });
    let stream = Script::new("`i`, identifiers, few often", |i| {
        let number = few_often(&mut key_of(i), NAMES_OF_STREAM);
        put("i", Identifiers::name(number as u64), i)
    });
    of_texts
        .into_iter()
        .chain(of_names)
        .chain([stream])
        .collect()
}
