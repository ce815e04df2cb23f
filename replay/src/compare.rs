//! Compares two outputs, line by line.

use std::borrow::Cow;

/// The order in which a walk goes.
#[derive(Clone, Copy, PartialEq)]
pub enum Order {
    /// The same on both sides: answers are compared byte by byte.
    Given,
    /// Open, as of what is hashed: the words of an answer are compared sorted.
    Open,
}

impl Order {
    /// The order in a container, by the name that a line `on ..` has.
    pub fn of(container: &str) -> Order {
        if container.starts_with("hashed_") {
            Order::Open
        } else {
            Order::Given
        }
    }
}

/// What a comparison found.
pub struct Comparison {
    /// How many lines both outputs have.
    pub compared: usize,
    pub differences: usize,
    pub first: Option<Difference>,
}

/// A line at which two outputs differ.
pub struct Difference {
    /// From 1.
    pub line: usize,
    pub call: String,
    pub port: String,
    pub rust_crate: String,
}

/// Compares the answers to a run. A line that one output lacks is a difference.
pub fn compare(input: &str, port: &[u8], rust_crate: &[u8], order: Order) -> Comparison {
    let calls = input.split_terminator('\n').count();
    let mut port = lines(port);
    let mut rust_crate = lines(rust_crate);
    let mut call_lines = input.split_terminator('\n');
    let mut comparison = Comparison {
        compared: 0,
        differences: 0,
        first: None,
    };
    for line in 1.. {
        let call = call_lines.next();
        let ours = port.next().map(|line| ordered(line, order));
        let theirs = rust_crate.next().map(|line| ordered(line, order));
        if ours.is_none() && theirs.is_none() && line > calls {
            break;
        }
        if ours.is_some() && theirs.is_some() {
            comparison.compared += 1;
        }
        if ours.is_some() && theirs.is_some() && ours == theirs {
            continue;
        }
        comparison.differences += 1;
        comparison.first.get_or_insert_with(|| Difference {
            line,
            call: call.unwrap_or("no call").to_owned(),
            port: text(ours),
            rust_crate: text(theirs),
        });
    }
    comparison
}

/// The lines of an output, with their line feeds.
fn lines(output: &[u8]) -> impl Iterator<Item = &[u8]> {
    output.split_inclusive(|byte| *byte == b'\n')
}

/// An answer as it is compared. In an open order its words are sorted, and those of a text in braces the ones between
/// its commas.
fn ordered(line: &[u8], order: Order) -> Cow<'_, [u8]> {
    let text = match str::from_utf8(line) {
        Ok(text) if order == Order::Open => text,
        _ => return Cow::Borrowed(line),
    };
    let text = text.trim_end_matches('\n');
    let (words, space) = match text
        .strip_prefix('{')
        .and_then(|text| text.strip_suffix('}'))
    {
        Some(inner) => (inner, ", "),
        None => (text, " "),
    };
    let mut words: Vec<_> = words.split(space).collect();
    words.sort_unstable();
    Cow::Owned(words.join(space).into_bytes())
}

fn text(line: Option<Cow<'_, [u8]>>) -> String {
    let Some(line) = line else {
        return "no line".to_owned();
    };
    let text = String::from_utf8_lossy(&line);
    text.trim_end_matches('\n').chars().take(80).collect()
}
