//! An interner as a Rust program may have it that trusts its names: a hash table whose probes have no bound.

use super::word_hash::word_hash;
use super::InternerRows;

/// Texts in one block, and slots for them, of which fewer than half are taken.
pub struct HashedInterner {
    joined: String,
    places: Vec<Place>,
    /// The slot of each text. Those from its home up to it are taken.
    slots: Vec<Slot>,
    /// By how many bits a hash is shifted to its home.
    shift: u32,
}

/// Where a text lies, in bytes.
#[derive(Clone, Copy)]
struct Place {
    start: usize,
    end: usize,
}

/// The number of a text, beside the upper half of its hash.
#[derive(Clone, Copy)]
struct Slot {
    hash: u32,
    number: u32,
}

impl Slot {
    const EMPTY: Slot = Slot {
        hash: 0,
        number: u32::MAX,
    };

    #[inline]
    fn is_empty(self) -> bool {
        self.number == Slot::EMPTY.number
    }
}

impl HashedInterner {
    /// # Safety
    ///
    /// There is a text of this number.
    #[inline]
    unsafe fn text(&self, number: u32) -> &str {
        // SAFETY: as the caller has it; and each place is that of a text in the block.
        unsafe {
            let place = self.places.get_unchecked(number as usize);
            self.joined.get_unchecked(place.start..place.end)
        }
    }

    #[inline]
    fn home(&self, hash: u32) -> usize {
        (hash >> self.shift) as usize
    }

    #[inline]
    fn next(&self, slot: usize) -> usize {
        (slot + 1) & (self.slots.len() - 1)
    }

    /// The number of a text, or as an error the slot where it belongs.
    #[inline]
    fn find(&self, hash: u32, text: &str) -> Result<u32, usize> {
        let mut at = self.home(hash);
        loop {
            let slot = self.slots[at];
            if slot.is_empty() {
                return Err(at);
            }
            // SAFETY: a slot that is taken has the number of a text.
            if slot.hash == hash && unsafe { self.text(slot.number) } == text {
                return Ok(slot.number);
            }
            at = self.next(at);
        }
    }

    fn push(&mut self, text: &str) -> u32 {
        let number = self.places.len() as u32;
        let start = self.joined.len();
        self.joined.push_str(text);
        let end = self.joined.len();
        self.places.push(Place { start, end });
        number
    }

    #[cold]
    #[inline(never)]
    fn double(&mut self) {
        let slots = vec![Slot::EMPTY; 2 * self.slots.len()];
        let old = std::mem::replace(&mut self.slots, slots);
        self.shift -= 1;
        for slot in old.into_iter().filter(|slot| !slot.is_empty()) {
            let mut at = self.home(slot.hash);
            while !self.slots[at].is_empty() {
                at = self.next(at);
            }
            self.slots[at] = slot;
        }
    }
}

impl Default for HashedInterner {
    fn default() -> Self {
        const POWER: u32 = 3;
        HashedInterner {
            joined: String::new(),
            places: Vec::new(),
            slots: vec![Slot::EMPTY; 1 << POWER],
            shift: u32::BITS - POWER,
        }
    }
}

impl InternerRows for HashedInterner {
    #[inline]
    fn intern(&mut self, text: &str) -> u64 {
        let hash = (word_hash(text.as_bytes()) >> 32) as u32;
        let at = match self.find(hash, text) {
            Ok(number) => return u64::from(number),
            Err(at) => at,
        };
        let number = self.push(text);
        self.slots[at] = Slot { hash, number };
        if self.slots.len() <= 2 * self.places.len() {
            self.double();
        }
        u64::from(number)
    }

    #[inline]
    fn resolve(&self, number: u32) -> &str {
        let place = self.places.get(number as usize);
        place.map_or("", |place| &self.joined[place.start..place.end])
    }
}
