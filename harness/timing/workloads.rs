//! The workloads: scene and samples. In each the goal is out of reach, so that the whole list is worked through.

use crate::original;
use crate::random::Random;
use oxmpl::mount::{GoalRegion, KeepOut, Mount, State};

#[derive(Clone, Copy, PartialEq)]
pub enum Planner {
    Rrt,
    Connect,
    Star { search_radius: f64 },
    /// Its connection radius stands where the others have max_distance.
    Prm,
}

pub struct Workload {
    pub name: &'static str,
    pub planner: Planner,
    pub mount: Mount,
    pub segment: f64,
    pub max_distance: f64,
    pub start: State,
    pub goal: GoalRegion,
    pub samples: Vec<State>,
}

impl Planner {
    /// How many nodes or milestones its table has room for.
    fn room(self) -> usize {
        if self == Planner::Prm { 256 } else { 512 }
    }
}

impl Workload {
    /// The same under more keep-outs.
    pub fn with_keep_outs(&self, added: &[KeepOut]) -> Workload {
        let mut mount = self.mount.clone();
        mount.keep_outs.extend_from_slice(added);
        let (samples, goal) = (self.samples.clone(), self.goal.clone());
        Workload { mount, samples, goal, ..*self }
    }
}

pub fn all() -> Vec<Workload> {
    vec![
        filled(dish("a: 511 nodes, no keep-outs", 3.75, Vec::new())),
        filled(dish("b: 511 nodes, 8 keep-outs", 3.75, eight())),
        dish("c: 2,000 samples, most refused", 3.75, pocket()),
        filled(wide("d: 40 points, 32 keep-outs", 39.5, thirty_two())),
        filled(apart("e: RRT-Connect, both trees to 512, no keep-outs", Vec::new())),
        filled(apart("f: RRT-Connect, both trees to 512, 8 keep-outs", at_both_ends())),
        filled(crowded("g: RRT*, 511 nodes, no keep-outs", Vec::new())),
        filled(crowded("h: RRT*, 511 nodes, 8 keep-outs", eight())),
        roadmap("i: PRM, 256 milestones, 8 keep-outs"),
    ]
}

/// A dish's usual limits, and a segment length of 10, so that points lie at most 1 apart.
fn dish(name: &'static str, max_distance: f64, keep_outs: Vec<KeepOut>) -> Workload {
    let mount = Mount { low: State::new(&[-270.0, 0.0, -90.0]), high: State::new(&[270.0, 90.0, 90.0]), keep_outs };
    workload(name, mount, max_distance, State::new(&[0.0, 45.0, 0.0]))
}

/// Limits so wide that a tree of long motions does not fill them.
fn wide(name: &'static str, max_distance: f64, keep_outs: Vec<KeepOut>) -> Workload {
    let mount = Mount { low: State::new(&[-1000.0; 3]), high: State::new(&[1000.0; 3]), keep_outs };
    workload(name, mount, max_distance, State::new(&[0.0; 3]))
}

/// Two trees for RRT-Connect in opposite corners, whose steps are so short that they do not meet before they are full.
fn apart(name: &'static str, keep_outs: Vec<KeepOut>) -> Workload {
    let mount = Mount { low: State::new(&[-1000.0; 3]), high: State::new(&[1000.0; 3]), keep_outs };
    let mut workload = workload(name, mount, 1.5, State::new(&[-1000.0; 3]));
    workload.planner = Planner::Connect;
    workload.segment = 4.0;
    workload.samples.insert(0, State::new(&[1000.0; 3]));
    workload
}

/// A tree for RRT* in which a new node has about twenty neighbours.
fn crowded(name: &'static str, keep_outs: Vec<KeepOut>) -> Workload {
    let mut workload = dish(name, 3.75, keep_outs);
    workload.planner = Planner::Star { search_radius: 29.0 };
    workload
}

/// A roadmap in which a milestone has about fifteen neighbours. Its query goes from the milestone that lies lowest in azimuth to the one that lies
/// highest, so that most of the roadmap is searched.
pub fn roadmap(name: &'static str) -> Workload {
    let mut workload = dish(name, 46.0, eight());
    workload.planner = Planner::Prm;
    let mut workload = filled(workload);
    let mut states = original::states(&workload);
    states.sort_by(|one, other| one.axes()[0].total_cmp(&other.axes()[0]));
    workload.start = states[0];
    workload.goal = GoalRegion { centre: states[states.len() - 1], radius: 0.0 };
    workload
}

fn workload(name: &'static str, mount: Mount, max_distance: f64, start: State) -> Workload {
    let goal = GoalRegion { centre: State::new(&[1024.0; 3]), radius: 0.0 };
    let mut workload = Workload { name, planner: Planner::Rrt, mount, segment: 10.0, max_distance, start, goal, samples: Vec::new() };
    workload.samples = uniform(&workload.mount, 2000);
    workload
}

/// The shortest beginning of the list that fills the tree.
fn filled(mut workload: Workload) -> Workload {
    let all = workload.samples.clone();
    let mut low = 0;
    let mut high = all.len();
    while low < high {
        let middle = (low + high) / 2;
        workload.samples = all[..middle].to_vec();
        if original::nodes(&workload) < workload.planner.room() {
            low = middle + 1;
        } else {
            high = middle;
        }
    }
    workload.samples = all[..low].to_vec();
    workload
}

fn uniform(mount: &Mount, count: usize) -> Vec<State> {
    let mut random = Random::new(1);
    let (low, high) = (mount.low.axes(), mount.high.axes());
    (0..count).map(|_| State::new(&[0, 1, 2].map(|axis| random.number(low[axis], high[axis])))).collect()
}

fn solid(low: [f64; 3], high: [f64; 3]) -> KeepOut {
    KeepOut::Box { low: State::new(&low), high: State::new(&high) }
}

fn disc(azimuth: f64, elevation: f64, radius: f64) -> KeepOut {
    KeepOut::Disc { azimuth, elevation, radius }
}

/// Eight of the three kinds, about the start, that stop some motions.
fn eight() -> Vec<KeepOut> {
    vec![
        solid([20.0, 20.0, -20.0], [30.0, 40.0, 20.0]),
        disc(-20.0, 60.0, 8.0),
        KeepOut::Floor { elevation: 5.0 },
        solid([-40.0, 30.0, 10.0], [-30.0, 50.0, 40.0]),
        disc(10.0, 75.0, 6.0),
        solid([-10.0, 10.0, -60.0], [10.0, 20.0, -30.0]),
        disc(40.0, 60.0, 5.0),
        KeepOut::Floor { elevation: 2.0 },
    ]
}

/// How many keep-outs there is still room for beside the eight.
const MORE: usize = 24;

/// So small that they cover no milestone of the roadmap and stop few of its legs, or floors under the highest of the eight's: the roadmap stays as large.
pub fn passing_by() -> Vec<KeepOut> {
    strewn(3, 2.0, 1.0, 2.0)
}

/// Large enough that most of them take milestones, and floors above the highest of the eight's.
pub fn in_the_way() -> Vec<KeepOut> {
    strewn(4, 30.0, 6.0, 5.0)
}

/// Boxes of one size, discs and floors in turn, strewn over a dish's limits; each floor is a little higher than the one before.
fn strewn(seed: u64, side: f64, radius: f64, floor: f64) -> Vec<KeepOut> {
    let mut random = Random::new(seed);
    (0..MORE)
        .map(|turn| {
            let corner = [random.number(-260.0, 230.0), random.number(10.0, 60.0), random.number(-85.0, 55.0)];
            match turn % 3 {
                0 => solid(corner, corner.map(|number| number + side)),
                1 => disc(corner[0], corner[1], radius),
                _ => KeepOut::Floor { elevation: floor + turn as f64 / 10.0 },
            }
        })
        .collect()
}

/// Walls about the start, thicker than a motion is long: the tree fills the pocket, and most samples lie outside.
fn pocket() -> Vec<KeepOut> {
    vec![
        solid([-36.0, 0.0, -90.0], [-32.0, 90.0, 90.0]),
        solid([32.0, 0.0, -90.0], [36.0, 90.0, 90.0]),
        solid([-36.0, 0.0, -36.0], [36.0, 90.0, -32.0]),
        solid([-36.0, 0.0, 32.0], [36.0, 90.0, 36.0]),
        solid([-36.0, 70.0, -36.0], [36.0, 74.0, 36.0]),
        KeepOut::Floor { elevation: 20.0 },
        disc(20.0, 60.0, 6.0),
        disc(-20.0, 30.0, 6.0),
    ]
}

/// Four at each of the two corners, of the three kinds, that stop some motions.
fn at_both_ends() -> Vec<KeepOut> {
    vec![
        solid([-990.0, -995.0, -995.0], [-985.0, -985.0, -985.0]),
        disc(-960.0, -970.0, 5.0),
        solid([-980.0, -950.0, -970.0], [-960.0, -940.0, -950.0]),
        KeepOut::Floor { elevation: -1000.5 },
        solid([985.0, 985.0, 985.0], [990.0, 995.0, 995.0]),
        disc(960.0, 970.0, 5.0),
        solid([960.0, 940.0, 950.0], [980.0, 950.0, 970.0]),
        disc(940.0, 980.0, 4.0),
    ]
}

/// Small ones, strewn about the start.
fn thirty_two() -> Vec<KeepOut> {
    let mut random = Random::new(2);
    let mut place = || random.number(-300.0, 300.0);
    (0..32)
        .map(|turn| match turn % 4 {
            0 | 2 => {
                let corner = [place(), place(), place()];
                solid(corner, corner.map(|number| number + 20.0))
            }
            1 => disc(place() + 310.0, place(), 8.0),
            _ => KeepOut::Floor { elevation: -980.0 - turn as f64 / 2.0 },
        })
        .collect()
}
