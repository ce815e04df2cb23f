//! `HeadVec`.

use super::Container;
use crate::answers::{done, option, read, written, Answer, BAD};
use crate::generate::{Generator, LONG};
use crate::public_calls::{Calls, CUT};
use std::iter;
use wasmi_collections::HeadVec;

pub const CALLS: Calls = Calls {
    named: "clear len is_empty last last_mut push pop clone partial_cmp cmp",
    others: &[
        ("`default`", "on"),
        ("`==`", "eq"),
    ],
    never: &[
        (
            "`Debug`",
            "the port's text is another (docs/DIFFERENCES.md, '`Debug` of `HeadVec`'); the driver makes that \
            from what a clone's `pop` gives",
        ),
        ("`Send`, `Sync`", CUT),
    ],
    ..Calls::NONE
};

impl Generator {
    pub fn head_call(&mut self, target: usize) -> String {
        let times = if self.len < target { 2 } else { 8 };
        if self.random.once_in(times) {
            return self.add("push");
        }
        match self.random.below(20) {
            0 => "len".into(),
            1 => "is_empty".into(),
            2..=4 => self.popped(),
            5..=7 => "last".into(),
            8..=11 => format!("last_mut {}", self.value()),
            12..=13 => self.all_if_short(),
            14 => self.cleared(),
            15 => self.emptied(),
            16..=17 => self.head_cloned(),
            _ => self.order(),
        }
    }

    /// A call that compares the two lists. The equal ones of long lists take long.
    fn order(&mut self) -> String {
        if self.len.min(self.other_len) > LONG {
            return "len".into();
        }
        self.random.one_of(&["eq", "partial_cmp", "cmp"]).into()
    }

    /// A clone takes the place of the other list and is compared, mostly after a change; or the other list goes on.
    fn head_cloned(&mut self) -> String {
        if self.len.max(self.other_len) > LONG {
            return "len".into();
        }
        if self.random.once_in(3) {
            return self.exchanged();
        }
        self.other_len = self.len;
        let compared = ["cmp", "partial_cmp", "eq"].map(String::from);
        self.pending.extend(compared.clone());
        match self.random.below(4) {
            0 => {
                let push = self.add("push");
                self.pending.push(push);
            }
            1 => {
                let pop = self.popped();
                self.pending.push(pop);
            }
            2 => {
                // The item before the last is another.
                let last = format!("push {}", self.value());
                let write = format!("last_mut {}", self.value());
                self.len += 1;
                self.other_len += 1;
                self.pending.extend(compared);
                self.pending
                    .extend([last.clone(), "exchange".into(), last, write]);
            }
            _ => (),
        }
        "clone".into()
    }
}

impl Container for HeadVec<i64> {
    fn empty() -> Self {
        HeadVec::default()
    }

    /// The items, in order. By docs/DIFFERENCES.md, '`Debug` of `HeadVec`', the Rust crate's text shows the private
    /// fields, and the port's these.
    fn debug(&self) -> String {
        let mut list = self.clone();
        let mut items: Vec<_> = iter::from_fn(|| list.pop()).collect();
        items.reverse();
        format!("{items:?}")
    }

    fn answer(&mut self, other: &mut Self, words: &[&str]) -> Answer {
        Ok(match *words {
            ["len"] => self.len().to_string(),
            ["is_empty"] => self.is_empty().to_string(),
            ["clear"] => done(self.clear()),
            // By docs/DIFFERENCES.md, `HeadVec::push`: no error here.
            ["push", item] => done(self.push(read(item)?)),
            ["pop"] => option(self.pop()),
            ["last"] => option(self.last()),
            ["last_mut", new] => written(self.last_mut(), read(new)?),
            ["clone"] => done(*other = self.clone()),
            ["partial_cmp"] => format!("{:?}", (*self).partial_cmp(other)),
            ["cmp"] => format!("{:?}", (*self).cmp(other)),
            _ => return Err(BAD),
        })
    }
}
