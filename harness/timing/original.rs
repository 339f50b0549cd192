//! The original Rust's side of a workload.

use crate::workloads::{Planner as Kind, Workload};
use oxmpl::base::error::PlanningError;
use oxmpl::base::planner::{Path, Planner, PlannerConfig};
use oxmpl::base::problem_definition::ProblemDefinition;
use oxmpl::base::validity::StateValidityChecker;
use oxmpl::mount::{GoalRegion, Mount, MountSpace, State, distance};
use oxmpl::{prm::PRM, rrt::RRT, rrt_connect::RRTConnect, rrt_star::RRTStar, tape};
use std::cell::Cell;
use std::sync::Arc;
use std::time::Duration;

/// What both sides must agree on.
#[derive(Debug, PartialEq)]
pub struct Outcome {
    pub answer: u64,
    pub count: u64,
    pub taken: u64,
}

/// Loads the list, which is no part of what is timed.
pub fn prepare(workload: &Workload) {
    tape::load(workload.samples.clone());
}

/// Setup and one solve, or one construction, over the prepared list.
pub fn run(workload: &Workload) -> Outcome {
    tape::rewind();
    let (_planner, result) = solved(workload, Arc::new(workload.mount.clone()));
    let (answer, count) = match result {
        Ok(Path(route)) => (0, route.len()),
        Err(PlanningError::Timeout) => (3, 0),
        Err(error) => panic!("not an answer of a tree planner: {error:?}"),
    };
    Outcome { answer, count: count as u64, taken: tape::taken() as u64 }
}

/// A planner whose trees can be read.
trait Grown: Planner<State, MountSpace, GoalRegion> {
    /// The states of the tree, or of the larger one, in the order of their numbers.
    fn states(&self) -> Vec<State>;

    /// Works through the list.
    fn grow(&mut self) -> Result<Path<State>, PlanningError> {
        self.solve(Duration::from_secs(1))
    }
}

impl Grown for RRT<State, MountSpace, GoalRegion> {
    fn states(&self) -> Vec<State> {
        self.table().into_iter().map(|(state, _)| state).collect()
    }
}

impl Grown for RRTConnect<State, MountSpace, GoalRegion> {
    fn states(&self) -> Vec<State> {
        let (start, goal) = (self.start_table(), self.goal_table());
        let larger = if start.len() < goal.len() { goal } else { start };
        larger.into_iter().map(|(state, _)| state).collect()
    }
}

impl Grown for RRTStar<State, MountSpace, GoalRegion> {
    fn states(&self) -> Vec<State> {
        self.table().into_iter().map(|(state, _, _)| state).collect()
    }
}

type Roadmap = PRM<State, MountSpace, GoalRegion>;

impl Grown for Roadmap {
    fn states(&self) -> Vec<State> {
        self.table().into_iter().map(|(state, _)| state).collect()
    }

    /// Its solve is the query; what takes the list is the construction, which gives no route.
    fn grow(&mut self) -> Result<Path<State>, PlanningError> {
        self.construct_roadmap().map(|()| Path(Vec::new()))
    }
}

fn problem(workload: &Workload) -> Arc<ProblemDefinition<State, MountSpace, GoalRegion>> {
    Arc::new(ProblemDefinition {
        space: Arc::new(MountSpace { segment: workload.segment }),
        start_states: vec![workload.start],
        goal: Arc::new(workload.goal.clone()),
    })
}

/// The planner after a solve or a construction, and what it gave.
fn solved(
    workload: &Workload,
    checker: Arc<dyn StateValidityChecker<State>>,
) -> (Box<dyn Grown>, Result<Path<State>, PlanningError>) {
    let config = PlannerConfig { seed: None };
    let reach = workload.max_distance;
    let mut planner: Box<dyn Grown> = match workload.planner {
        Kind::Rrt => Box::new(RRT::new(reach, 0.0, &config)),
        Kind::Connect => Box::new(RRTConnect::new(reach, 0.0, &config)),
        Kind::Star { search_radius } => Box::new(RRTStar::new(reach, 0.0, search_radius, &config)),
        Kind::Prm => Box::new(Roadmap::new(1.0, reach, &config)),
    };
    planner.setup(problem(workload), checker);
    let result = planner.grow();
    (planner, result)
}

/// The states of the tree, of the larger one, or of the roadmap.
pub fn states(workload: &Workload) -> Vec<State> {
    prepare(workload);
    solved(workload, Arc::new(workload.mount.clone())).0.states()
}

/// The nodes of the tree, or of the larger one, or the milestones.
pub fn nodes(workload: &Workload) -> usize {
    states(workload).len()
}

/// How many nodes, over all new ones, lay strictly inside a radius of the new one when it came.
pub fn neighbours(workload: &Workload, radius: f64) -> usize {
    let states = states(workload);
    let near = |new: usize| states[..new].iter().filter(|node| distance(&states[new], node) < radius).count();
    (0..states.len()).map(near).sum()
}

/// A roadmap that is built, for queries: no list is loaded any more.
pub fn charted(workload: &Workload) -> Roadmap {
    prepare(workload);
    let mut planner = Roadmap::new(1.0, workload.max_distance, &PlannerConfig { seed: None });
    planner.setup(problem(workload), Arc::new(workload.mount.clone()));
    planner.construct_roadmap().expect("a construction that the clock ends");
    tape::put_away();
    planner
}

/// How many neighbours the milestones have, over all.
pub fn joined(planner: &Roadmap) -> usize {
    planner.table().iter().map(|(_, neighbours)| neighbours.len()).sum()
}

/// How many milestones and legs it has; a leg makes two milestones each other's neighbours.
pub fn size(planner: &Roadmap) -> (usize, usize) {
    (planner.table().len(), joined(planner) / 2)
}

/// One query: the number of states of its route.
pub fn query(planner: &mut Roadmap) -> u64 {
    let Path(route) = planner.solve(Duration::from_secs(1)).expect("a route");
    route.len() as u64
}

/// How many points the motion checks of a workload test. Each sample has one motion, with RRT-Connect up to two, and with RRT* up to
/// two more for each neighbour.
pub fn points(workload: &Workload) -> usize {
    prepare(workload);
    let counting = Arc::new(Counting { mount: workload.mount.clone(), points: Cell::new(0) });
    let _ = solved(workload, counting.clone());
    counting.points.get()
}

struct Counting {
    mount: Mount,
    points: Cell<usize>,
}

impl StateValidityChecker<State> for Counting {
    fn is_valid(&self, state: &State) -> bool {
        self.points.set(self.points.get() + 1);
        self.mount.is_valid(state)
    }
}
