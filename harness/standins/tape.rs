//! The list of samples of the call under way, and how far it is used up. The sampler hands them out from here; the clock looks
//! here whether any is left. Both are reached by the planners without a handle, hence one tape a thread.

use crate::mount::State;
use std::cell::RefCell;

struct Tape {
    samples: Vec<State>,
    taken: usize,
    /// Without a list, as in a query, the clock stands still.
    loaded: bool,
}

thread_local! {
    static TAPE: RefCell<Tape> = const { RefCell::new(Tape { samples: Vec::new(), taken: 0, loaded: false }) };
}

pub fn load(samples: Vec<State>) {
    TAPE.with_borrow_mut(|tape| *tape = Tape { samples, taken: 0, loaded: true });
}

/// The same list from its beginning.
pub fn rewind() {
    TAPE.with_borrow_mut(|tape| tape.taken = 0);
}

pub fn put_away() {
    TAPE.with_borrow_mut(|tape| *tape = Tape { samples: Vec::new(), taken: 0, loaded: false });
}

#[inline]
pub fn next() -> Option<State> {
    TAPE.with_borrow_mut(|tape| {
        let sample = tape.samples.get(tape.taken).copied();
        tape.taken += sample.is_some() as usize;
        sample
    })
}

pub fn taken() -> usize {
    TAPE.with_borrow(|tape| tape.taken)
}

#[inline]
pub fn used_up() -> bool {
    TAPE.with_borrow(|tape| tape.loaded && tape.taken == tape.samples.len())
}
