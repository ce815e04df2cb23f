//! `StringInterner`, which finds a text by an ordered map as the Rust crate is built here. A line names a symbol by its
//! number.

use super::Container;
use crate::answers::{done, option, read, steps_of, take_steps, Answer, BAD};
use crate::generate::{Generator, LONG, SHORT};
use crate::public_calls::{Calls, CUT};
use std::hash::{DefaultHasher, Hash, Hasher};
use wasmi_collections::string_interner::{InternHint, Sym};
use wasmi_collections::StringInterner;

pub const CALLS: Calls = Calls {
    named: "len is_empty get_or_intern resolve clone",
    ports: "contains extend iter clear",
    others: &[
        ("`default`, as the port's `new`", "on"),
        ("`get`", "get get_counted"),
        ("`get_or_intern_with_hint`, `Debug` of a hint", "get_or_intern_with_hint"),
        ("`==`", "eq"),
        ("`from_u32` and `into_u32` of a symbol", "resolve get"),
        ("`from_usize` of a symbol", "symbols"),
        ("`into_usize` of a symbol", "get_counted"),
        ("`==`, `partial_cmp`, `cmp`, `hash` and `Debug` of symbols", "symbols"),
    ],
    never: &[
        (
            "a text by `AsRef<str>`",
            "the port takes a `&str` (docs/DIFFERENCES.md, '`StringInterner::get`, `get_or_intern`, \
            `get_or_intern_with_hint`')",
        ),
        (
            "`Debug`",
            "the port's text is another (docs/DIFFERENCES.md, '`Debug` of `StringInterner`'); the driver makes that \
            from what `resolve` gives",
        ),
        ("`Send`, `Sync`", CUT),
    ],
};

const HINTS: [(&str, InternHint); 3] = [
    ("none", InternHint::None),
    ("likely_exists", InternHint::LikelyExists),
    ("likely_new", InternHint::LikelyNew),
];

impl Generator {
    /// The texts are mostly of half as many again as the target.
    pub fn interner_call(&mut self, target: usize) -> String {
        let times = if self.len < target { 2 } else { 40 };
        if self.random.once_in(times) {
            return self.interned(target);
        }
        match self.random.below(24) {
            0 => "len".into(),
            1 => "is_empty".into(),
            2..=4 => format!("get {}", self.text(target)),
            5..=7 => format!("get_counted {}", self.text(target)),
            8..=11 => format!("resolve {}", self.symbol()),
            12 => format!("symbols {} {}", self.symbol(), self.symbol()),
            13..=14 => self.interner_beside(),
            15 if self.len.min(self.other_len) <= LONG => "eq".into(),
            16 if self.len <= SHORT || self.seldom() => "debug".into(),
            17..=18 => format!("contains {}", self.text(target)),
            19 if self.len <= LONG => format!("iter {}", self.steps()),
            20 if self.len < target => self.several_interned(target),
            21 if self.len <= LONG && self.random.once_in(8) => {
                self.len = 0;
                "clear".into()
            }
            _ => self.interned(target),
        }
    }

    fn several_interned(&mut self, target: usize) -> String {
        let count = 1 + self.random.below(5);
        self.len += count;
        let texts: Vec<_> = (0..count).map(|_| self.text(target)).collect();
        format!("extend {}", texts.join(","))
    }

    fn interned(&mut self, target: usize) -> String {
        self.len += 1;
        let text = self.text(target);
        match HINTS.get(self.random.below(6)) {
            Some((hint, _)) => format!("get_or_intern_with_hint {hint} {text}"),
            None => format!("get_or_intern {text}"),
        }
    }

    /// A clone takes the place of the other interner, or that one goes on.
    fn interner_beside(&mut self) -> String {
        if self.len.max(self.other_len) > LONG {
            return "len".into();
        }
        if !self.random.once_in(2) {
            return self.exchanged();
        }
        self.other_len = self.len;
        "clone".into()
    }

    fn symbol(&mut self) -> u32 {
        u32::try_from(self.index()).unwrap_or(u32::MAX)
    }

    /// A text without spaces: mostly of few letters, or with a number that may have been there, after a front that
    /// makes it short or long, or as a name of one of three kinds. Lengths about 8 are frequent, where the Rust crate
    /// compares texts in another way.
    fn text(&mut self, target: usize) -> String {
        let count = match self.random.below(4) {
            0 => self.random.below(3),
            1 => 6 + self.random.below(4),
            _ => {
                let number = self.random.below((target + target / 2).max(6));
                return match self.random.below(8) {
                    0 => path(number),
                    1 => mangled(number),
                    2 => format!("value{}_{}", number % 7, number / 7),
                    _ => format!(
                        "{}{number}",
                        self.random.one_of(&["", "f", "local_", "näme"])
                    ),
                };
            }
        };
        (0..count)
            .map(|_| self.random.one_of(&["a", "b", "B", "\u{e9}", "\u{1f980}"]))
            .collect()
    }
}

// The path of a file. Neighbours have one folder and one length.
fn path(number: usize) -> String {
    let (project, folder, file) = (number / 1024, number / 32 % 32, number % 32);
    format!("/opt/build/src/project{project:03}/lib/folder{folder:02}/include/file{file:02}.hpp")
}

// The symbol of a linker, of one of four lengths.
fn mangled(number: usize) -> String {
    let parts = "6module8function".repeat(number % 4);
    let hash = (number as u64).wrapping_mul(0x9e37_79b9_7f4a_7c15);
    format!("_ZN4wasm{parts}17h{hash:016x}E")
}

impl Container for StringInterner {
    fn empty() -> Self {
        StringInterner::default()
    }

    /// By docs/DIFFERENCES.md, '`Debug` of `StringInterner`', the Rust crate's text shows the private fields, and the
    /// port's the texts.
    fn debug(&self) -> String {
        format!("{:?}", texts(self))
    }

    fn answer(&mut self, other: &mut Self, words: &[&str]) -> Answer {
        Ok(match *words {
            ["len"] => self.len().to_string(),
            ["is_empty"] => self.is_empty().to_string(),
            // By docs/DIFFERENCES.md, '`StringInterner`, further calls', the Rust crate has neither `clear`, `contains`,
            // `extend` nor `iter`.
            ["clear"] => done(*self = StringInterner::new()),
            ["contains", text] => self.get(text).is_some().to_string(),
            ["extend", texts] => {
                for text in texts.split(',') {
                    self.get_or_intern(text);
                }
                done(())
            }
            ["iter", steps] => {
                let text = |(number, text): (usize, &str)| format!("{number}=\"{text}\"");
                take_steps(texts(self).into_iter().enumerate(), steps_of(steps)?, text)
            }
            ["get", text] => option(self.get(text).map(Sym::into_u32)),
            // By docs/DIFFERENCES.md, `StringInterner`, the Rust crate counts nothing. The port says whether it
            // compared no more texts than it may.
            ["get_counted", text] => option(self.get(text).map(Sym::into_usize)) + " true",
            // By docs/DIFFERENCES.md, `StringInterner::get`, `get_or_intern`, `get_or_intern_with_hint`: no error
            // here.
            ["get_or_intern", text] => self.get_or_intern(text).into_u32().to_string(),
            ["get_or_intern_with_hint", hint, text] => {
                let hint = hint_of(hint)?;
                let symbol = self.get_or_intern_with_hint(text, hint);
                format!("{hint:?} {}", symbol.into_u32())
            }
            ["resolve", number] => {
                let text = self.resolve(Sym::from_u32(read(number)?));
                option(text.map(|text| format!("\"{text}\"")))
            }
            ["symbols", first, second] => symbols(read(first)?, read(second)?),
            ["clone"] => done(*other = self.clone()),
            _ => return Err(BAD),
        })
    }
}

/// The hint that a word is.
fn hint_of(word: &str) -> Result<InternHint, &'static str> {
    let mut hints = HINTS.into_iter();
    let found = hints.find_map(|(name, hint)| (name == word).then_some(hint));
    found.ok_or(BAD)
}

/// Two symbols, how they compare, and the hash of the first.
fn symbols(first: u32, second: u32) -> String {
    let (first, second) = (Sym::from_u32(first), Sym::from_usize(second as usize));
    let mut hasher = DefaultHasher::new();
    first.hash(&mut hasher);
    format!(
        "{first:?} {second:?} {} {:?} {:?} {}",
        first == second,
        first.cmp(&second),
        first.partial_cmp(&second),
        hasher.finish()
    )
}

/// The texts, in the order of their symbols.
fn texts(interner: &StringInterner) -> Vec<&str> {
    (0..interner.len())
        .filter_map(|number| interner.resolve(Sym::from_usize(number)))
        .collect()
}
