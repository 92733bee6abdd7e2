//! Stands in for the hashers of the sets and maps: their order is chosen by one seed.

use std::hash::{BuildHasher, Hasher};
use std::sync::atomic::{AtomicU64, Ordering::Relaxed};

static SEED: AtomicU64 = AtomicU64::new(0);

/// Chooses the order of every set and map made from now on.
pub fn choose(seed: u64) {
    SEED.store(seed, Relaxed)
}

/// Remembers the seed that held when its set or map was made.
#[derive(Clone)]
pub struct Seeded {
    seed: u64,
}

impl Default for Seeded {
    fn default() -> Self {
        Seeded { seed: SEED.load(Relaxed) }
    }
}

impl BuildHasher for Seeded {
    type Hasher = Mixer;
    fn build_hasher(&self) -> Mixer {
        Mixer { state: self.seed }
    }
}

/// Mixes one number (an index or a content hash) with the seed.
pub struct Mixer {
    state: u64,
}

impl Hasher for Mixer {
    fn finish(&self) -> u64 {
        self.state
    }
    fn write(&mut self, bytes: &[u8]) {
        for byte in bytes {
            self.write_u64(u64::from(*byte))
        }
    }
    fn write_u64(&mut self, number: u64) {
        let mut x = (self.state ^ number).wrapping_add(0x9E37_79B9_7F4A_7C15);
        x = (x ^ (x >> 30)).wrapping_mul(0xBF58_476D_1CE4_E5B9);
        x = (x ^ (x >> 27)).wrapping_mul(0x94D0_49BB_1331_11EB);
        self.state = x ^ (x >> 31)
    }
    fn write_usize(&mut self, number: usize) {
        self.write_u64(number as u64)
    }
}
