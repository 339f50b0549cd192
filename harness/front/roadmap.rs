//! oxmpl's roadmap planner. A keep-out that comes later is document 01's addition: it must give what the original construction
//! gives afresh, of the same samples under the longer list. So that is what is done here.

use crate::accept::{self, Setup};
use crate::answer::{self, Answer, Table};
use crate::scene::{Scene, WatchedSpace};
use oxmpl::base::planner::{Path, Planner, PlannerConfig};
use oxmpl::mount::{GoalRegion, KeepOut, State};
use oxmpl::{prm::PRM, tape};
use std::time::Duration;

const MOST_MILESTONES: usize = 256;
pub const ROOM: usize = 3 * (MOST_MILESTONES + 1);
/// In seconds; any will do: the stand-in clock shows nothing, or more than all of them.
const TIMEOUT: f64 = 1.0;

pub struct RoadmapPlanner {
    planner: PRM<State, WatchedSpace, GoalRegion>,
    scene: Scene,
    setup: Setup,
    /// The list of the last construction that found the roadmap empty.
    samples: Vec<State>,
}

impl RoadmapPlanner {
    pub fn new(setup: Setup) -> RoadmapPlanner {
        let mut planner = PRM::new(TIMEOUT, setup.lengths[0], &PlannerConfig { seed: None });
        let scene = Scene::new(&setup);
        planner.setup(scene.problem.clone(), scene.mount.clone());
        RoadmapPlanner { planner, scene, setup, samples: Vec::new() }
    }

    pub fn construct(&mut self, numbers: &[f64]) -> Answer {
        let Some(samples) = accept::samples(numbers) else { return Answer::refused(answer::BAD_INPUT) };
        if self.planner.table().is_empty() {
            self.samples = samples.clone();
        }
        tape::load(samples);
        let result = self.planner.construct_roadmap();
        Answer::of(result.map(|()| Path(Vec::new())), tape::taken())
    }

    pub fn query(&mut self) -> Answer {
        tape::put_away();
        let result = self.planner.solve(Duration::from_secs_f64(TIMEOUT));
        Answer::of(result, 0)
    }

    /// New start and goal. The space and the roadmap stay.
    pub fn replace_goals(&mut self, numbers: &[f64]) -> Answer {
        let Some((start, goal)) = accept::goals(numbers) else { return Answer::refused(answer::BAD_INPUT) };
        self.setup = Setup { start, goal, ..self.setup.clone() };
        self.scene.problem = Scene::new(&self.setup).problem;
        self.planner.set_problem_definition(self.scene.problem.clone());
        Answer::done()
    }

    pub fn add(&mut self, keep_out: KeepOut) -> Answer {
        if !accept::keep_out(&keep_out) {
            return Answer::refused(answer::BAD_INPUT);
        }
        if self.setup.mount.keep_outs.len() == accept::MOST_KEEP_OUTS {
            return Answer::refused(answer::FULL);
        }
        let mut setup = self.setup.clone();
        setup.mount.keep_outs.push(keep_out);
        let samples = std::mem::take(&mut self.samples);
        *self = RoadmapPlanner::new(setup);
        tape::load(samples.clone());
        self.planner.construct_roadmap().expect("a construction that the clock ends");
        self.samples = samples;
        Answer::done()
    }

    pub fn table(&self) -> Table {
        let row = |(state, neighbours): (State, Vec<usize>)| {
            let neighbours: String = neighbours.iter().map(|index| format!(" {index}")).collect();
            format!("{}{neighbours}", answer::state(&state))
        };
        Table { name: "roadmap", rows: self.planner.table().into_iter().map(row).collect() }
    }

    pub fn comparable(&self) -> bool {
        self.scene.comparable() && self.planner.table().len() <= MOST_MILESTONES
    }
}
