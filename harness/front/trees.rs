//! The three tree planners of oxmpl, each behind the same calls.

use crate::accept::{self, Setup};
use crate::answer::{self, Answer, Table};
use crate::scene::{Scene, WatchedSpace};
use crate::words::Which;
use oxmpl::base::planner::{Planner, PlannerConfig};
use oxmpl::mount::{GoalRegion, KeepOut, State};
use oxmpl::{rrt::RRT, rrt_connect::RRTConnect, rrt_star::RRTStar, tape};
use std::time::Duration;

pub const MOST_NODES: usize = 512;
const GOAL_BIAS: f64 = 0.0;
const NO_SEED: PlannerConfig = PlannerConfig { seed: None };
/// Any timeout will do: the stand-in clock shows nothing, or more than all of them.
const TIMEOUT: Duration = Duration::from_secs(1);

pub struct TreePlanner {
    planner: Box<dyn Tabled>,
    scene: Scene,
}

trait Tabled: Planner<State, WatchedSpace, GoalRegion> {
    fn tables(&self) -> Vec<Table>;
}

impl TreePlanner {
    pub fn new(which: Which, setup: &Setup) -> TreePlanner {
        let max_distance = setup.lengths[0];
        let mut planner: Box<dyn Tabled> = match which {
            Which::Rrt => Box::new(RRT::new(max_distance, GOAL_BIAS, &NO_SEED)),
            Which::Connect => Box::new(RRTConnect::new(max_distance, GOAL_BIAS, &NO_SEED)),
            Which::Star => Box::new(RRTStar::new(max_distance, GOAL_BIAS, setup.lengths[1], &NO_SEED)),
            Which::Prm => unreachable!("the roadmap planner has no tree"),
        };
        let scene = Scene::new(setup);
        planner.setup(scene.problem.clone(), scene.mount.clone());
        TreePlanner { planner, scene }
    }

    pub fn solve(&mut self, numbers: &[f64]) -> Answer {
        let Some(samples) = accept::samples(numbers) else { return Answer::refused(answer::BAD_INPUT) };
        tape::load(samples);
        let result = self.planner.solve(TIMEOUT);
        Answer::of(result, tape::taken())
    }

    /// For a tree, a keep-out affects only later motions.
    pub fn add(&mut self, keep_out: KeepOut) -> Answer {
        if !accept::keep_out(&keep_out) {
            return Answer::refused(answer::BAD_INPUT);
        }
        if self.scene.mount.keep_outs() == accept::MOST_KEEP_OUTS {
            return Answer::refused(answer::FULL);
        }
        self.scene.mount.add(keep_out);
        Answer::done()
    }

    pub fn tables(&self) -> Vec<Table> {
        self.planner.tables()
    }

    pub fn comparable(&self) -> bool {
        self.scene.comparable() && self.tables().iter().all(|table| table.rows.len() <= MOST_NODES)
    }
}

/// How many numbers the route buffer must hold.
pub fn room(which: Which) -> usize {
    match which {
        Which::Connect => 3 * (2 * MOST_NODES - 1),
        _ => 3 * MOST_NODES,
    }
}

impl Tabled for RRT<State, WatchedSpace, GoalRegion> {
    fn tables(&self) -> Vec<Table> {
        vec![Table { name: "tree", rows: nodes(self.table()) }]
    }
}

impl Tabled for RRTConnect<State, WatchedSpace, GoalRegion> {
    fn tables(&self) -> Vec<Table> {
        vec![
            Table { name: "start", rows: nodes(self.start_table()) },
            Table { name: "goal", rows: nodes(self.goal_table()) },
        ]
    }
}

impl Tabled for RRTStar<State, WatchedSpace, GoalRegion> {
    fn tables(&self) -> Vec<Table> {
        let row = |(state, parent, cost)| format!("{} {}", node((state, parent)), answer::number(cost));
        vec![Table { name: "tree", rows: self.table().into_iter().map(row).collect() }]
    }
}

fn nodes(table: Vec<(State, Option<usize>)>) -> Vec<String> {
    table.into_iter().map(node).collect()
}

fn node((state, parent): (State, Option<usize>)) -> String {
    format!("{} {}", answer::parent(parent), answer::state(&state))
}
