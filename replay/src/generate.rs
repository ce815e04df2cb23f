//! The calls of a run: drawn so that repeats, bounds, edges of buckets, empty containers and writes under a key come
//! often. Here are the draws that several containers have.

use crate::containers::Kind;
use crate::random::Random;

/// Lengths about the edges of buckets, and about the 100 keys of `few`.
pub const EDGES: [usize; 15] = [0, 1, 2, 31, 32, 33, 95, 96, 97, 99, 100, 101, 223, 224, 225];

/// Numbers about the ends of the keys' types and of a vector.
const FAR: [usize; 10] = [
    255,
    256,
    4_294_967_263,
    4_294_967_264,
    4_294_967_294,
    4_294_967_295,
    4_294_967_296,
    usize::MAX / 2,
    usize::MAX - 1,
    usize::MAX,
];

/// Lines that name no call, or not with its numbers.
pub const NO_CALLS: [&str; 12] = [
    "",
    " ",
    "Len",
    "len 0",
    " len",
    "get",
    "get -1",
    "get 1 2",
    "get 18446744073709551616",
    "get_mut 0 9223372036854775808",
    "iter fxb",
    "for ",
];

/// The most items of which all are written often.
pub const SHORT: usize = 40;

/// The most items at which a call that goes over all of them is made.
pub const LONG: usize = 1000;

/// After so many calls all items are written, however many there are.
const CONTENT_EVERY: usize = 10_000;

pub struct Generator {
    pub random: Random,
    kind: &'static Kind,
    /// How many items there can be.
    pub most: usize,
    /// How many items there are; of components, the extent; where equal ones are kept once, no fewer than there are.
    pub len: usize,
    /// How many items the other container has.
    pub other_len: usize,
    /// The calls that come before another one is drawn, the last one first.
    pub pending: Vec<String>,
    /// Some keys that were put in, of a map or a set.
    pub recent: Vec<i64>,
    input: String,
}

/// So many lines of calls on a container of this name, the first of which names it.
pub fn generate(kind: &'static Kind, name: &str, seed: u64, calls: usize) -> String {
    let mut generator = Generator {
        random: Random::new(seed),
        kind,
        most: if name.ends_with(" few") {
            100
        } else {
            usize::MAX
        },
        len: 0,
        other_len: 0,
        pending: Vec::new(),
        recent: Vec::new(),
        input: String::new(),
    };
    let mut left = calls;
    while left > 0 {
        // One container grows long, in the middle of the run.
        let is_long = left <= calls / 2 && left > calls / 2 - calls / 8;
        let phase = if is_long {
            left.min(calls / 4)
        } else {
            left.min(10 + generator.random.below(1000))
        };
        generator.phase(name, phase, is_long);
        left -= phase;
    }
    generator.input
}

impl Generator {
    /// Writes so many lines: one that begins with an empty container, and calls that fill it up to a length.
    fn phase(&mut self, name: &str, calls: usize, is_long: bool) {
        let target = match self.random.below(8) {
            _ if is_long => calls,
            0 => self.random.below(1000),
            _ => self.random.one_of(&EDGES),
        };
        let target = target.min(self.most);
        (self.len, self.other_len) = (0, 0);
        self.pending.clear();
        self.recent.clear();
        self.line(&format!("on {name}"));
        for done in 1..calls {
            if done % CONTENT_EVERY == 0 {
                self.line(self.kind.all);
            } else if self.random.once_in(500) {
                let bad = self.random.one_of(&NO_CALLS);
                self.line(bad);
            } else {
                let call = self.pending.pop();
                let call = call.unwrap_or_else(|| (self.kind.draw)(self, target));
                self.line(&call);
            }
        }
    }

    fn line(&mut self, line: &str) {
        self.input += line;
        self.input += "\n";
    }

    pub fn is_ordered(&self) -> bool {
        self.kind.name.starts_with("ordered_")
    }

    /// A call that adds an item.
    pub fn add(&mut self, name: &str) -> String {
        self.len = (self.len + 1).min(self.most);
        format!("{name} {}", self.value())
    }

    /// A call on the item at an index or under a key. It is given a number where ` N` stands after its name.
    pub fn item(&mut self, calls: &[&str]) -> String {
        let new = self.value();
        let call = self.random.one_of(calls);
        let index = self.index();
        match call.strip_suffix(" N") {
            Some(name) => format!("{name} {index} {new}"),
            None => format!("{call} {index}"),
        }
    }

    pub fn item_written(&mut self) -> String {
        format!("get_mut {} {}", self.index(), self.value())
    }

    /// Seldom, as many calls as take out all items and one more. Never of many.
    pub fn emptied(&mut self) -> String {
        if self.len > SHORT || !self.random.once_in(4) {
            return self.popped();
        }
        self.pending.extend(["last", "is_empty"].map(String::from));
        self.pending.extend(vec!["pop".to_owned(); self.len]);
        self.len = 0;
        "pop".into()
    }

    pub fn popped(&mut self) -> String {
        self.len = self.len.saturating_sub(1);
        "pop".into()
    }

    pub fn swap(&mut self) -> String {
        let (first, second) = self.two_indices();
        format!("swap {first} {second}")
    }

    pub fn two_indices(&mut self) -> (usize, usize) {
        let first = self.index();
        let second = if self.random.once_in(8) {
            first
        } else {
            self.index()
        };
        (first, second)
    }

    /// A call that adds several items, or that begins anew with them. Rarely many, and few add any after the target.
    pub fn several(&mut self, target: usize, added: impl Fn(i64, usize) -> String) -> String {
        let (first, count) = (self.value(), self.count());
        let is_new = self.random.once_in(4);
        let grows = self.len < target || self.random.once_in(10);
        if (is_new && self.len > LONG) || !(is_new || grows) {
            return "len".into();
        }
        if is_new {
            // After an error the items are as before.
            if count <= self.most {
                self.len = count;
            }
            return format!("from_iter {first} {count}");
        }
        // The key after the last item must be one, too.
        if self.len + count < self.most {
            self.len += count;
        }
        added(first, count)
    }

    /// How many items a call takes: mostly few, or about the edge of a bucket.
    pub fn count(&mut self) -> usize {
        match self.random.below(4) {
            0 => self.random.one_of(&EDGES),
            _ => self.random.below(9),
        }
    }

    /// A call that changes the other container, or goes on with it. A clone is compared by one of some calls, as it is or
    /// after a write.
    pub fn beside(&mut self, compare: &[&str]) -> String {
        if self.len.max(self.other_len) > LONG {
            return "len".into();
        }
        if !self.random.once_in(2) {
            return self.exchanged();
        }
        self.other_len = self.len;
        let compared = self.compared(compare);
        self.pending.push(compared);
        if self.random.once_in(2) {
            let write = self.item_written();
            self.pending.push(write);
        }
        self.random.one_of(&["clone", "clone_in"]).into()
    }

    pub fn exchanged(&mut self) -> String {
        (self.len, self.other_len) = (self.other_len, self.len);
        "exchange".into()
    }

    /// A call that compares this container with the other one, or goes over all its items.
    pub fn compared(&mut self, compare: &[&str]) -> String {
        if self.len > LONG {
            return "eq".into();
        }
        self.random.one_of(compare).into()
    }

    /// All items, or those of a bucket. Mostly something shorter where there are many.
    pub fn content(&mut self) -> String {
        if self.len > SHORT && !self.seldom() {
            return "len".into();
        }
        match self.random.below(4) {
            0 => "for".into(),
            1 => "debug".into(),
            2 => format!("slices {}", self.steps()),
            _ => format!("bucket {}", self.bucket()),
        }
    }

    /// All items. Mostly their number where there are many.
    pub fn shown(&mut self) -> String {
        if self.len > SHORT && !self.seldom() {
            return "len".into();
        }
        self.random.one_of(&["for", "debug"]).into()
    }

    /// All items where there are few.
    pub fn all_if_short(&mut self) -> String {
        if self.len > SHORT {
            return "eq".into();
        }
        self.kind.all.into()
    }

    /// Seldom, a call that empties the container; never a long one.
    pub fn cleared(&mut self) -> String {
        if self.len > LONG || !self.random.once_in(8) {
            return self.all_if_short();
        }
        self.len = 0;
        "clear".into()
    }

    /// Both containers begin anew with the same items and are compared, mostly with another item in one. Never a long
    /// one.
    pub fn rebuilt(&mut self) -> String {
        let (first, count) = (self.value(), self.count());
        if self.len.max(self.other_len) > LONG || count > self.most {
            return "eq".into();
        }
        (self.len, self.other_len) = (count, count);
        let anew = format!("from_iter {first} {count}");
        self.pending.push("eq".into());
        if self.random.once_in(2) {
            let write = self.item_written();
            self.pending.push(write);
        }
        self.pending.push(anew.clone());
        self.pending.push("exchange".into());
        anew
    }

    /// A walk that writes the items that it comes to. The next call reads them.
    pub fn some_written(&mut self) -> String {
        let (steps, first) = (self.steps(), self.value());
        self.written_by_steps(&steps, first)
    }

    pub fn written_by_steps(&mut self, steps: &str, first: i64) -> String {
        let read = self.read_by_steps(steps);
        self.pending.push(read);
        format!("iter_mut {steps} {first}")
    }

    pub fn read_by_steps(&self, steps: &str) -> String {
        match self.len {
            0..=SHORT => "for".into(),
            _ => format!("iter {steps}"),
        }
    }

    /// A walk that writes all items, which the next call reads.
    pub fn whole_written(&mut self) -> String {
        self.pending.push("for".into());
        let first = self.value();
        let name = if self.random.once_in(2) {
            "for_mut"
        } else {
            "rev_mut"
        };
        format!("{name} {first}")
    }

    /// Few steps, or about as many as there are items.
    pub fn steps(&mut self) -> String {
        let many = self.len <= LONG && self.seldom();
        let count = if many {
            self.len + self.random.below(3)
        } else {
            self.random.below(9)
        };
        match self.random.below(4) {
            0 => "f".repeat(count),
            1 => "b".repeat(count),
            _ => (0..count)
                .map(|_| self.random.one_of(&['f', 'b']))
                .collect(),
        }
    }

    /// True once in four times, and less often the more items there are past a few.
    pub fn seldom(&mut self) -> bool {
        self.random.once_in((self.len / SHORT).max(1) * 4)
    }

    pub fn bucket(&mut self) -> usize {
        match self.random.below(16) {
            0 => usize::MAX,
            1..=5 => self.random.below(30),
            _ => self.random.below(4),
        }
    }

    /// An index or the number of a key: mostly of an item.
    pub fn index(&mut self) -> usize {
        match self.random.below(16) {
            0 => self.random.one_of(&FAR),
            1 => self.random.next() as usize,
            2 => self.random.below(1 << 33),
            3 => self.random.one_of(&EDGES),
            4 => 0,
            5 => self.len,
            6 => self.len + 1,
            7 | 8 => self.len.saturating_sub(1),
            _ => self.random.below(self.len.max(1)),
        }
    }

    /// An item: mostly of few values.
    pub fn value(&mut self) -> i64 {
        match self.random.below(16) {
            0 => i64::MIN,
            1 => i64::MAX,
            2 => self.random.next() as i64,
            3..=9 => self.random.below(1000) as i64,
            _ => self.random.below(5) as i64 - 2,
        }
    }
}
