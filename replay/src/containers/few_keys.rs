//! A type of few keys, as `crates/wasmi_vectors/src/few_keys.rt` has it.

use wasmi_collections::arena::ArenaKey;

/// A key that is a number from 0 to 99.
#[derive(Clone, Copy, Debug)]
pub struct FewKeys(u8);

impl ArenaKey for FewKeys {
    fn into_usize(self) -> usize {
        self.0.into()
    }

    fn from_usize(value: usize) -> Option<Self> {
        u8::try_from(value)
            .ok()
            .filter(|number| *number < 100)
            .map(FewKeys)
    }
}
