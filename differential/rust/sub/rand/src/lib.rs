//! Stands for the part of `rand` that the published files name. Document 01 leaves generators and seeds out: every word drawn is 0,
//! and a float drawn is the one that was set, for the pick.

use std::cell::Cell;

pub trait SeedableRng {
    fn seed_from_u64(seed: u64) -> Self;
}
pub trait RngExt {
    fn random<T: Drawn>(&mut self) -> T {
        T::drawn()
    }
}
pub fn make_rng<R: SeedableRng>() -> R {
    R::seed_from_u64(0)
}

pub mod rngs {
    #[derive(Clone, Debug)]
    pub struct SmallRng;
    impl super::SeedableRng for SmallRng {
        fn seed_from_u64(_: u64) -> Self {
            SmallRng
        }
    }
    impl super::RngExt for SmallRng {}
}

// Not in the crate.

thread_local! {
    static DRAW: Cell<f64> = const { Cell::new(0.0) };
}
/// What floats are drawn from now on.
pub fn set_draw(draw: f64) {
    DRAW.set(draw);
}
pub trait Drawn {
    fn drawn() -> Self;
}
impl Drawn for u64 {
    fn drawn() -> u64 {
        0
    }
}
impl Drawn for f64 {
    fn drawn() -> f64 {
        DRAW.get()
    }
}
