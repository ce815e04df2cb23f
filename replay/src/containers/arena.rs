//! `Arena`.

use super::arenas::any_arena;
use super::Container;
use crate::answers::{
    counted, done, index_written, indexed, key_of, keyed, keyed_renewed, numbered, overwritten,
    read, result, steps_of, take_steps, write_all, Answer, BAD,
};
use crate::generate::{Generator, LONG};
use crate::public_calls::{Calls, CUT};
use std::fmt::Debug;
use std::mem;
use wasmi_collections::arena::{Arena, ArenaError, ArenaKey};

pub const CALLS: Calls = Calls {
    named: "len is_empty clear alloc alloc_many from_iter get",
    ports: "into_iter",
    others: &[
        ("`new`", "on"),
        ("`get_mut`", "get_mut put"),
        ("`get_disjoint_mut`", "get_disjoint_mut swap"),
        ("`arena[key]`", "index"),
        ("`arena[key] = item`", "index_mut"),
        ("`iter`, its `next`, `next_back` and `len`", "iter"),
        ("`for` over `&`", "for"),
        ("`iter_mut`, its `next`, `next_back` and `len`", "iter_mut rev_mut"),
        ("`for` over `&mut`", "for_mut"),
        ("`==`", "eq"),
    ],
    never: &[
        ("`default`", CUT),
        (
            "`Debug`",
            "the port's text is another (docs/DIFFERENCES.md, '`Debug` of `Arena`'); the driver makes that \
            from the keys and the items",
        ),
        ("`size_hint` and `Debug` of an iterator", CUT),
        ("`Send`, `Sync`", CUT),
    ],
};

impl Generator {
    pub fn arena_call(&mut self, target: usize) -> String {
        let times = if self.len < target { 2 } else { 40 };
        if self.random.once_in(times) {
            return self.add("alloc");
        }
        match self.random.below(25) {
            0 => "len".into(),
            1 => "is_empty".into(),
            2..=8 => self.arena_item(),
            9..=10 => self.swap(),
            11..=12 => self.both_written(),
            13..=14 => format!("iter {}", self.steps()),
            15 => self.shown(),
            16 => "next_key".into(),
            17 => self.reserved(),
            18 => self.several_allocated(target),
            19 => self.cleared(),
            20 => self.rebuilt(),
            21 => "eq".into(),
            22 => self.some_written(),
            23 => self.items_taken_out(),
            _ => self.all_written(),
        }
    }

    fn both_written(&mut self) -> String {
        let new = self.value();
        let (first, second) = self.two_indices();
        format!("get_disjoint_mut {first} {second} {new}")
    }

    fn reserved(&mut self) -> String {
        let many = self.random.once_in(8);
        let additional = self.random.below(if many { 1 << 16 } else { 100 });
        format!("reserve {additional}")
    }

    /// Seldom, a walk over the items that are taken out; never over many.
    fn items_taken_out(&mut self) -> String {
        if self.len > LONG || !self.random.once_in(4) {
            return "len".into();
        }
        let steps = self.steps();
        self.len = 0;
        format!("into_iter {steps}")
    }
}

any_arena!(Arena);

fn answer_own<Key: ArenaKey>(
    arena: &mut Arena<Key, i64>,
    _: &mut Arena<Key, i64>,
    words: &[&str],
) -> Answer {
    Ok(match *words {
        ["clear"] => done(arena.clear()),
        // The port alone takes items out; here the arena is emptied after a walk.
        ["into_iter", steps] => {
            let line = take_steps(arena.iter(), steps_of(steps)?, keyed);
            arena.clear();
            line
        }
        // By docs/DIFFERENCES.md, `Arena`: no `reserve` and no `room` here. There is room after it.
        ["reserve", additional] => read::<u16>(additional).map(|_| "true".into())?,
        ["get_disjoint_mut", first, second, new] => {
            let (keys, new) = ([key_of(first)?, key_of(second)?], read(new)?);
            result(write_both(arena, keys, new))
        }
        _ => return Err(BAD),
    })
}

/// The items under two keys, which become `new` and the number after it. By docs/DIFFERENCES.md,
/// `Arena::get_disjoint_mut`, it is an array here and a pair in the port.
fn write_both<Key: ArenaKey>(
    arena: &mut Arena<Key, i64>,
    keys: [Key; 2],
    new: i64,
) -> Result<String, ArenaError> {
    let [one, other] = arena.get_disjoint_mut(keys)?;
    let one = mem::replace(one, new);
    let other = mem::replace(other, new.wrapping_add(1));
    Ok(format!("{one} {other}"))
}
