//! The public calls of the Rust crate's types and of the port's, each with the lines that make it.

use crate::containers::Kind;
use std::collections::BTreeMap;

/// Calls of a type, and of its iterators. The names of lines have a space between two.
pub struct Calls {
    /// Made by lines of the same names.
    pub named: &'static str,
    /// The port alone has them. Made likewise.
    pub ports: &'static str,
    /// Each made by lines of some names, of which one that is `on` names a container.
    pub others: &'static [(&'static str, &'static str)],
    /// Each never made, for a reason.
    pub never: &'static [(&'static str, &'static str)],
}

impl Calls {
    pub const NONE: Calls = Calls {
        named: "",
        ports: "",
        others: &[],
        never: &[],
    };

    /// The calls that are made, each with the names of the lines.
    fn made(&self) -> Vec<(String, Vec<&'static str>)> {
        let named = self.named.split_whitespace();
        let ports = self.ports.split_whitespace();
        let named = named.map(|name| (format!("`{name}`"), vec![name]));
        let ports = ports.map(|name| (format!("the port's `{name}`"), vec![name]));
        let others = self.others.iter();
        let others = others.map(|(call, names)| (call.to_string(), names.split(' ').collect()));
        named.chain(others).chain(ports).collect()
    }
}

pub const CUT: &str = "the port has none (docs/DIFFERENCES.md, 'What was cut')";

/// How many lines there were of each name.
#[derive(Default)]
pub struct Counts {
    lines: BTreeMap<String, usize>,
}

impl Counts {
    pub fn add(&mut self, input: &str) {
        for line in input.lines() {
            let name = line.split(' ').next().unwrap_or("");
            match self.lines.get_mut(name) {
                Some(count) => *count += 1,
                None => {
                    self.lines.insert(name.to_owned(), 1);
                }
            }
        }
    }

    fn of(&self, names: &[&str]) -> usize {
        names.iter().filter_map(|name| self.lines.get(*name)).sum()
    }
}

/// Prints how often each call was made, and which ones never. False if one of the first kind never was.
pub fn print(kind: &Kind, counts: &Counts) -> bool {
    let Kind { title, calls, .. } = kind;
    println!("\n| Call of {title} | Lines that make it | How many |");
    println!("|---|---|---|");
    let mut all_made = true;
    for (call, names) in calls.iter().flat_map(Calls::made) {
        let times = counts.of(&names);
        all_made &= times > 0;
        println!("| {call} | `{}` | {times} |", names.join("`, `"));
    }
    println!("\n| Never made on {title} | Why |");
    println!("|---|---|");
    for (call, why) in calls.iter().flat_map(|calls| calls.never) {
        println!("| {call} | {why} |");
    }
    all_made
}
