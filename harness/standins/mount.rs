//! Document 01's mount, as a Rust programmer would write it for oxmpl: state, space, keep-outs, limits and goal.

use crate::base::{
    error::StateSamplingError,
    goal::{Goal, GoalSampleableRegion},
    space::StateSpace,
    state,
    validity::StateValidityChecker,
};
use crate::tape;
use rand::rngs::StdRng;

#[derive(Clone, Copy, Debug)]
pub struct State {
    pub azimuth: f64,
    pub elevation: f64,
    pub feed: f64,
}

impl state::State for State {}

impl State {
    pub fn new(numbers: &[f64]) -> State {
        State { azimuth: numbers[0], elevation: numbers[1], feed: numbers[2] }
    }

    pub fn axes(&self) -> [f64; 3] {
        [self.azimuth, self.elevation, self.feed]
    }
}

/// All axes drive at once at one speed, so the longest way decides.
#[inline]
pub fn distance(first: &State, second: &State) -> f64 {
    let ways =
        [first.azimuth - second.azimuth, first.elevation - second.elevation, first.feed - second.feed].map(f64::abs);
    let mut longest = 0.0;
    for way in ways {
        if way > longest {
            longest = way;
        }
    }
    longest
}

#[inline]
pub fn between(from: &State, to: &State, t: f64) -> State {
    State {
        azimuth: from.azimuth + (to.azimuth - from.azimuth) * t,
        elevation: from.elevation + (to.elevation - from.elevation) * t,
        feed: from.feed + (to.feed - from.feed) * t,
    }
}

/// The space of all states, with the segment length; its samples come from the tape.
pub struct MountSpace {
    pub segment: f64,
}

impl StateSpace for MountSpace {
    type StateType = State;

    #[inline]
    fn distance(&self, first: &State, second: &State) -> f64 {
        distance(first, second)
    }

    #[inline]
    fn interpolate(&self, from: &State, to: &State, t: f64, out: &mut State) {
        *out = between(from, to, t);
    }

    #[inline]
    fn sample_uniform(&self, _rng: &mut StdRng) -> Result<State, StateSamplingError> {
        tape::next().ok_or(StateSamplingError)
    }

    #[inline]
    fn get_longest_valid_segment_length(&self) -> f64 {
        self.segment
    }
}

#[derive(Clone, Debug)]
pub enum KeepOut {
    Box { low: State, high: State },
    Disc { azimuth: f64, elevation: f64, radius: f64 },
    Floor { elevation: f64 },
}

impl KeepOut {
    #[inline]
    pub fn covers(&self, state: &State) -> bool {
        match self {
            KeepOut::Box { low, high } => within(state, low, high),
            KeepOut::Disc { azimuth, elevation, radius } => {
                let dx = state.azimuth - azimuth;
                let dy = state.elevation - elevation;
                dx * dx + dy * dy <= radius * radius
            }
            KeepOut::Floor { elevation } => state.elevation < *elevation,
        }
    }
}

#[inline]
fn within(state: &State, low: &State, high: &State) -> bool {
    low.azimuth <= state.azimuth
        && state.azimuth <= high.azimuth
        && low.elevation <= state.elevation
        && state.elevation <= high.elevation
        && low.feed <= state.feed
        && state.feed <= high.feed
}

#[derive(Clone)]
pub struct Mount {
    pub low: State,
    pub high: State,
    pub keep_outs: Vec<KeepOut>,
}

impl StateValidityChecker<State> for Mount {
    fn is_valid(&self, state: &State) -> bool {
        within(state, &self.low, &self.high) && !self.keep_outs.iter().any(|keep_out| keep_out.covers(state))
    }
}

#[derive(Clone)]
pub struct GoalRegion {
    pub centre: State,
    pub radius: f64,
}

impl Goal<State> for GoalRegion {
    #[inline]
    fn is_satisfied(&self, state: &State) -> bool {
        distance(state, &self.centre) <= self.radius
    }
}

impl GoalSampleableRegion<State> for GoalRegion {
    /// RRT-Connect's goal root: the next sample of the list, as document 01 says.
    #[inline]
    fn sample_goal(&self, _rng: &mut StdRng) -> Result<State, StateSamplingError> {
        tape::next().ok_or(StateSamplingError)
    }
}
