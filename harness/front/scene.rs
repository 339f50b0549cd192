//! What a planner of oxmpl is set up with: problem and validity checker, such that a keep-out can be added under a grown tree,
//! and such that a motion outside the domain of comparison is noticed.

use crate::accept::Setup;
use oxmpl::base::{
    error::StateSamplingError, problem_definition::ProblemDefinition, space::StateSpace, validity::StateValidityChecker,
};
use oxmpl::mount::{GoalRegion, KeepOut, Mount, MountSpace, State};
use rand::rngs::StdRng;
use std::cell::{Cell, RefCell};
use std::sync::Arc;

pub type Problem = ProblemDefinition<State, WatchedSpace, GoalRegion>;

pub const MOST_STEPS: f64 = 4096.0;

pub struct Scene {
    pub problem: Arc<Problem>,
    pub mount: Arc<ChangingMount>,
}

impl Scene {
    pub fn new(setup: &Setup) -> Scene {
        let inner = MountSpace { segment: setup.segment };
        let space = WatchedSpace { inner, last_distance: Cell::new(0.0), largest_q: Cell::new(0.0) };
        let problem = ProblemDefinition {
            space: Arc::new(space),
            start_states: vec![setup.start],
            goal: Arc::new(setup.goal.clone()),
        };
        Scene { problem: Arc::new(problem), mount: Arc::new(ChangingMount(RefCell::new(setup.mount.clone()))) }
    }

    /// Whether each motion checked so far is one that document 01 compares.
    pub fn comparable(&self) -> bool {
        self.problem.space.largest_q.get() <= MOST_STEPS
    }
}

/// A mount that gets keep-outs while a planner holds it.
pub struct ChangingMount(RefCell<Mount>);

impl ChangingMount {
    pub fn add(&self, keep_out: KeepOut) {
        self.0.borrow_mut().keep_outs.push(keep_out);
    }

    pub fn keep_outs(&self) -> usize {
        self.0.borrow().keep_outs.len()
    }
}

impl StateValidityChecker<State> for ChangingMount {
    fn is_valid(&self, state: &State) -> bool {
        self.0.borrow().is_valid(state)
    }
}

/// The mount's space, which also keeps the largest q. The motion check is what asks for the segment length, and it does so
/// right after the distance that it divides.
pub struct WatchedSpace {
    inner: MountSpace,
    last_distance: Cell<f64>,
    largest_q: Cell<f64>,
}

impl StateSpace for WatchedSpace {
    type StateType = State;

    fn distance(&self, first: &State, second: &State) -> f64 {
        let distance = self.inner.distance(first, second);
        self.last_distance.set(distance);
        distance
    }

    fn interpolate(&self, from: &State, to: &State, t: f64, out: &mut State) {
        self.inner.interpolate(from, to, t, out);
    }

    fn sample_uniform(&self, rng: &mut StdRng) -> Result<State, StateSamplingError> {
        self.inner.sample_uniform(rng)
    }

    fn get_longest_valid_segment_length(&self) -> f64 {
        let segment = self.inner.get_longest_valid_segment_length();
        let q = self.last_distance.get() / (segment * 0.1);
        self.largest_q.set(self.largest_q.get().max(q));
        segment
    }
}
