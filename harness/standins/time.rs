//! Stands in for oxmpl's clock: no time passes while the list has samples, and then more than any timeout.

use crate::tape;

pub use std::time::Duration;

pub struct Instant;

impl Instant {
    #[inline]
    pub fn now() -> Instant {
        Instant
    }

    #[inline]
    pub fn elapsed(&self) -> Duration {
        if tape::used_up() { Duration::MAX } else { Duration::ZERO }
    }
}
