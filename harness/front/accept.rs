//! Which numbers document 01 accepts. The original Rust takes any; these refusals stand before it.

use crate::words::Which;
use oxmpl::mount::{GoalRegion, KeepOut, Mount, State};

pub const MOST_KEEP_OUTS: usize = 32;

/// What an accepted setup hands to the planner.
#[derive(Clone)]
pub struct Setup {
    pub mount: Mount,
    pub segment: f64,
    /// max_distance; or max_distance and search_radius; or connection_radius.
    pub lengths: Vec<f64>,
    pub start: State,
    pub goal: GoalRegion,
}

pub fn coordinate(number: f64) -> bool {
    (-1024.0..=1024.0).contains(&number)
}

/// Segment length, max_distance, search_radius and connection_radius.
pub fn length(number: f64) -> bool {
    (0.001..=4096.0).contains(&number)
}

fn goal_radius(number: f64) -> bool {
    (0.0..=4096.0).contains(&number)
}

fn disc_radius(number: f64) -> bool {
    (0.0..=1024.0).contains(&number)
}

pub fn coordinates(numbers: &[f64]) -> bool {
    numbers.iter().all(|&number| coordinate(number))
}

fn ordered(low: &State, high: &State) -> bool {
    std::iter::zip(low.axes(), high.axes()).all(|(low, high)| low <= high)
}

pub fn keep_out(keep_out: &KeepOut) -> bool {
    match keep_out {
        KeepOut::Box { low, high } => coordinates(&low.axes()) && coordinates(&high.axes()) && ordered(low, high),
        KeepOut::Disc { azimuth, elevation, radius } => {
            coordinate(*azimuth) && coordinate(*elevation) && disc_radius(*radius)
        }
        KeepOut::Floor { elevation } => coordinate(*elevation),
    }
}

/// Limits (low then high, per axis), the segment length and the keep-outs.
pub fn mount(numbers: &[f64], keep_outs: &[KeepOut]) -> Option<(Mount, f64)> {
    let low = State::new(&[numbers[0], numbers[2], numbers[4]]);
    let high = State::new(&[numbers[1], numbers[3], numbers[5]]);
    let accepted = coordinates(&numbers[..6])
        && ordered(&low, &high)
        && length(numbers[6])
        && keep_outs.len() <= MOST_KEEP_OUTS
        && keep_outs.iter().all(keep_out);
    accepted.then(|| (Mount { low, high, keep_outs: keep_outs.to_vec() }, numbers[6]))
}

/// Start, goal centre and goal radius.
pub fn goals(numbers: &[f64]) -> Option<(State, GoalRegion)> {
    let accepted = coordinates(&numbers[..6]) && goal_radius(numbers[6]);
    accepted.then(|| {
        let centre = State::new(&numbers[3..]);
        (State::new(numbers), GoalRegion { centre, radius: numbers[6] })
    })
}

pub fn setup(planner: Which, numbers: &[f64], keep_outs: &[KeepOut]) -> Option<Setup> {
    let lengths = if planner == Which::Star { 2 } else { 1 };
    let (mount_numbers, rest) = numbers.split_at(7);
    let (lengths, goal_numbers) = rest.split_at(lengths);
    if !lengths.iter().all(|&number| length(number)) {
        return None;
    }
    let (mount, segment) = mount(mount_numbers, keep_outs)?;
    let (start, goal) = goals(goal_numbers)?;
    Some(Setup { mount, segment, lengths: lengths.to_vec(), start, goal })
}

pub fn samples(numbers: &[f64]) -> Option<Vec<State>> {
    let accepted = numbers.len() % 3 == 0 && coordinates(numbers);
    accepted.then(|| numbers.chunks(3).map(State::new).collect())
}
