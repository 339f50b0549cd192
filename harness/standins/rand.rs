//! Stands in for the crate `rand`. The samples come from the call's list (see `tape.rs`), so the generator has nothing to do.

pub mod rngs {
    pub struct StdRng;
}

use rngs::StdRng;

pub trait SeedableRng {
    fn seed_from_u64(seed: u64) -> Self;
}

impl SeedableRng for StdRng {
    fn seed_from_u64(_seed: u64) -> StdRng {
        StdRng
    }
}

pub trait RngExt {
    fn random_bool(&mut self, chance: f64) -> bool;
}

impl RngExt for StdRng {
    /// Every comparison runs with a goal bias of 0: a sample is never the goal's instead of the list's.
    #[inline]
    fn random_bool(&mut self, chance: f64) -> bool {
        assert!(chance == 0.0, "the stand-in generator knows no chance but 0");
        false
    }
}

pub fn make_rng<R: SeedableRng>() -> R {
    R::seed_from_u64(0)
}
