//! A hash of bytes that takes sixteen of them by one multiplication.

const SEED: u64 = 0x9e3779b97f4a7c15;
const OTHER: u64 = 0xe7037ed1a0b4ff8d;

// It has a byte 0xff, which no text has, so no first factor is 0.
const ONE: u64 = 0xa0761d64ff78bd67;

#[inline]
pub fn word_hash(bytes: &[u8]) -> u64 {
    let len = bytes.len();
    let mut hash = SEED;
    let (one, other) = if let Some(last) = bytes.last_chunk() {
        // The last sixteen bytes are taken at the end, and may be in part among those before.
        for block in bytes[..len - 1].as_chunks().0 {
            let (one, other) = words(block);
            hash = fold(one ^ ONE, other ^ hash);
        }
        words(last)
    } else {
        few(bytes)
    };
    let product = u128::from(one ^ ONE) * u128::from(other ^ hash);
    let (low, high) = (product as u64, (product >> 64) as u64);
    fold(low ^ SEED ^ len as u64, high ^ OTHER)
}

/// Both halves of a product, added without carry.
#[inline]
fn fold(one: u64, other: u64) -> u64 {
    let product = u128::from(one) * u128::from(other);
    product as u64 ^ (product >> 64) as u64
}

#[inline]
fn words(block: &[u8; 16]) -> (u64, u64) {
    let both = u128::from_le_bytes(*block);
    (both as u64, (both >> 64) as u64)
}

/// Two words that have all of fewer than sixteen bytes.
#[inline]
fn few(bytes: &[u8]) -> (u64, u64) {
    if let (Some(first), Some(last)) = (bytes.first_chunk(), bytes.last_chunk()) {
        (u64::from_le_bytes(*first), u64::from_le_bytes(*last))
    } else if let (Some(first), Some(last)) = (bytes.first_chunk(), bytes.last_chunk()) {
        let (first, last) = (u32::from_le_bytes(*first), u32::from_le_bytes(*last));
        (u64::from(first), u64::from(last))
    } else {
        // At most three.
        let byte = |at| bytes.get(at).map_or(0, |byte| u64::from(*byte));
        (byte(0) | byte(1) << 8 | byte(2) << 16, 0)
    }
}
