//! Stands for `fxhash::FxHashMap`, with a quick hash of one word. Only look-ups depend on it, never an order.

use std::collections::HashMap;
use std::hash::{BuildHasherDefault, Hasher};

pub type FxHashMap<K, V> = HashMap<K, V, BuildHasherDefault<FxHasher>>;

#[derive(Default)]
pub struct FxHasher(u64);
impl Hasher for FxHasher {
    fn write(&mut self, _: &[u8]) {
        unreachable!()
    }
    fn write_u64(&mut self, w: u64) {
        self.0 = w.wrapping_mul(0x517CC1B727220A95);
    }
    fn finish(&self) -> u64 {
        self.0
    }
}
