//! The program `wasmi_script` on the Rust crate's containers: the same lines, the same replies.

use std::fmt::Write;
use wasmi_collections::arena::{ArenaError, ArenaKey, ComponentVec, DedupArena, StableArena};
use wasmi_collections::string_interner::Sym;
use wasmi_collections::{Map, StringInterner};

/// The most items of a vector in buckets, of which the first has 32 slots and each further one twice as many as the
/// one before.
const MAX_LEN: u64 = (1 << 32) - 32;

/// The replies to all lines of a script, each ended by a line feed.
pub fn answer(text: &str) -> String {
    let mut session = Session {
        arena: StableArena::new(),
        dedup: DedupArena::new(),
        interner: StringInterner::new(),
        store: EntityStore::new(),
        replies: String::new(),
    };
    for (before, line) in text.split_terminator('\n').enumerate() {
        if session.serve(line).is_none() {
            session.reply(format_args!("bad line {}", before + 1));
        }
    }
    session.replies
}

struct Session {
    arena: StableArena<usize, String>,
    dedup: DedupArena<usize, String>,
    interner: StringInterner,
    store: EntityStore,
    replies: String,
}

impl Session {
    /// Does what a line asks for, and adds the reply. `None` if it asks for nothing.
    fn serve(&mut self, line: &str) -> Option<()> {
        if line == "n" {
            self.count();
            return Some(());
        }
        let (head, argument) = line.split_at_checked(2)?;
        match head {
            "a " => {
                let key = self.arena.alloc(argument.to_owned());
                self.reply_key(key);
            }
            "g " => {
                let key = number(argument)? as usize;
                match self.arena.get(key) {
                    Ok(text) => add(&mut self.replies, format_args!("text {text}")),
                    Err(error) => self.reply(format_args!("error {error}")),
                }
            }
            "p " => match place(number(argument)?) {
                Some((bucket, slot)) => self.reply(format_args!("place {bucket} {slot}")),
                None => self.reply(format_args!("none")),
            },
            "d " => {
                let key = self.dedup.alloc(argument.to_owned());
                self.reply_key(key);
            }
            "i " => {
                let symbol = self.interner.get_or_intern(argument);
                self.reply(format_args!("sym {}", symbol.into_u32()));
            }
            "r " => {
                let symbol = u32::try_from(number(argument)?).map(Sym::from_u32);
                match symbol.ok().and_then(|symbol| self.interner.resolve(symbol)) {
                    Some(text) => add(&mut self.replies, format_args!("text {text}")),
                    None => self.reply(format_args!("none")),
                }
            }
            "e " => {
                let (name, kind) = argument
                    .split_once(' ')
                    .filter(|parts| !parts.0.is_empty())?;
                match self.store.add(name, kind) {
                    Ok(key) => self.reply(format_args!("entity {}", key.into_usize())),
                    Err(error) => self.reply(format_args!("error {error}")),
                }
            }
            "v " => {
                let (key, property) = argument.split_once(' ')?;
                let (key, property) = (number(key)? as usize, number(property)?);
                match entity_key(key).and_then(|key| self.store.set(key, property)) {
                    Some(Some(old)) => self.reply(format_args!("was {old}")),
                    Some(None) => self.reply(format_args!("was none")),
                    None => self.reply(format_args!("error {}", ArenaError::KeyOutOfBounds)),
                }
            }
            "k " => {
                let (key, kind) = argument.split_once(' ')?;
                match entity_key(number(key)? as usize)
                    .and_then(|key| self.store.rename_kind(key, kind))
                {
                    Some(true) => self.reply(format_args!("done")),
                    Some(false) => self.reply(format_args!("error item is already in the arena")),
                    None => self.reply(format_args!("error {}", ArenaError::KeyOutOfBounds)),
                }
            }
            "q " => {
                let replies = &mut self.replies;
                match entity_key(number(argument)? as usize).and_then(|key| self.store.get(key)) {
                    Some((name, kind, Some(property))) => {
                        add(replies, format_args!("is {property} {name} {kind}"));
                    }
                    Some((name, kind, None)) => add(replies, format_args!("is none {name} {kind}")),
                    None => self.reply(format_args!("error {}", ArenaError::KeyOutOfBounds)),
                }
            }
            _ => return None,
        }
        Some(())
    }

    fn count(&mut self) {
        let kept = self.arena.len();
        // The fewest buckets whose slots are no fewer than the texts.
        let (mut slots, mut size) = (0, 32);
        while slots < kept {
            slots += size;
            size *= 2;
        }
        let (deduped, interned) = (self.dedup.len(), self.interner.len());
        self.reply(format_args!("counts {kept} {deduped} {interned} {slots}"));
    }

    fn reply_key(&mut self, key: Result<usize, ArenaError>) {
        match key {
            Ok(key) => self.reply(format_args!("key {key}")),
            Err(error) => self.reply(format_args!("error {error}")),
        }
    }

    fn reply(&mut self, reply: std::fmt::Arguments<'_>) {
        add(&mut self.replies, reply);
    }
}

fn add(replies: &mut String, reply: std::fmt::Arguments<'_>) {
    // A `String` takes whatever is written.
    let _ = writeln!(replies, "{reply}");
}

/// The number that one or more ASCII digits name.
fn number(digits: &str) -> Option<u64> {
    if digits.starts_with('+') {
        return None;
    }
    digits.parse().ok()
}

/// The bucket and the slot of an index.
fn place(index: u64) -> Option<(u32, u64)> {
    if index >= MAX_LEN {
        return None;
    }
    let power = (index + 32).ilog2();
    Some((power - 5, index + 32 - (1 << power)))
}

#[derive(Clone, Copy)]
struct EntityKey(u32);

impl ArenaKey for EntityKey {
    fn into_usize(self) -> usize {
        self.0 as usize
    }

    fn from_usize(value: usize) -> Option<Self> {
        u32::try_from(value).ok().map(EntityKey)
    }
}

fn entity_key(number: usize) -> Option<EntityKey> {
    EntityKey::from_usize(number)
}

/// Entities with a name, a kind and perhaps a property. A deduplicating arena of the Rust crate can't rename a kind, so
/// the kinds and their index are kept apart.
struct EntityStore {
    names: StringInterner,
    kinds: Vec<String>,
    kind_index: Map<String, usize>,
    entities: StableArena<EntityKey, (Sym, usize)>,
    properties: ComponentVec<EntityKey, u64>,
}

impl EntityStore {
    fn new() -> Self {
        EntityStore {
            names: StringInterner::new(),
            kinds: Vec::new(),
            kind_index: Map::new(),
            entities: StableArena::new(),
            properties: ComponentVec::new(),
        }
    }

    fn add(&mut self, name: &str, kind: &str) -> Result<EntityKey, ArenaError> {
        let name = self.names.get_or_intern(name);
        let kind = match self.kind_index.get(kind) {
            Some(&place) => place,
            None => {
                self.kind_index.insert(kind.to_owned(), self.kinds.len());
                self.kinds.push(kind.to_owned());
                self.kinds.len() - 1
            }
        };
        self.entities.alloc((name, kind))
    }

    /// The name, the kind and the property of an entity. `None` if there is none under the key.
    fn get(&self, key: EntityKey) -> Option<(&str, &str, Option<u64>)> {
        let &(name, kind) = self.entities.get(key).ok()?;
        let name = self.names.resolve(name)?;
        Some((name, &self.kinds[kind], self.properties.get(key).copied()))
    }

    /// The property that an entity had. `None` if there is none under the key.
    fn set(&mut self, key: EntityKey, property: u64) -> Option<Option<u64>> {
        self.entities.get(key).ok()?;
        Some(self.properties.set(key, property))
    }

    /// Whether the kind of an entity got the name, which another kind may have. `None` if there is none under the key.
    fn rename_kind(&mut self, key: EntityKey, name: &str) -> Option<bool> {
        let place = self.entities.get(key).ok()?.1;
        if let Some(&there) = self.kind_index.get(name) {
            return Some(there == place);
        }
        let old = std::mem::replace(&mut self.kinds[place], name.to_owned());
        self.kind_index.remove(&old);
        self.kind_index.insert(name.to_owned(), place);
        Some(true)
    }
}
