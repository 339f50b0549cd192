//! The leaf calls on a mount alone. oxmpl has no such calls: a motion and a steered state are read off one step of its RRT.

use crate::accept;
use crate::answer::{self, Answer};
use crate::scene::MOST_STEPS;
use crate::words::Leaf;
use oxmpl::base::planner::{Planner, PlannerConfig};
use oxmpl::base::problem_definition::ProblemDefinition;
use oxmpl::base::validity::StateValidityChecker;
use oxmpl::mount::{self, GoalRegion, KeepOut, Mount, MountSpace, State};
use oxmpl::{rrt::RRT, tape};
use std::sync::Arc;
use std::time::Duration;

const LONGEST: f64 = 4096.0;

pub struct Leaves {
    mount: Mount,
    segment: f64,
}

impl Leaves {
    pub fn new(numbers: &[f64], keep_outs: &[KeepOut]) -> Option<Leaves> {
        let (mount, segment) = accept::mount(numbers, keep_outs)?;
        Some(Leaves { mount, segment })
    }

    pub fn call(&self, leaf: Leaf, numbers: &[f64]) -> String {
        let (coordinates, accepted) = match leaf {
            Leaf::Between => (&numbers[..6], (0.0..=1.0).contains(&numbers[6])),
            Leaf::Steer => (&numbers[1..], accept::length(numbers[0])),
            _ => (numbers, true),
        };
        if !accepted || !accept::coordinates(coordinates) {
            return Answer::refused(answer::BAD_INPUT).write();
        }
        let first = State::new(coordinates);
        if let Leaf::Valid = leaf {
            return yes(self.mount.is_valid(&first));
        }
        let second = State::new(&coordinates[3..]);
        match leaf {
            Leaf::Distance => format!("= {}\n", answer::number(mount::distance(&first, &second))),
            Leaf::Between => format!("= {}\n", answer::state(&mount::between(&first, &second, numbers[6]))),
            Leaf::Steer => format!("= {}\n", answer::state(&steer(numbers[0], first, second))),
            Leaf::Steps => self.steps(&first, &second).map_or("= many\n".to_string(), |n| format!("= {n}\n")),
            _ => yes(self.motion(first, second)),
        }
    }

    fn steps(&self, from: &State, to: &State) -> Option<usize> {
        let q = mount::distance(from, to) / (self.segment * 0.1);
        (q <= MOST_STEPS).then(|| q.ceil() as usize)
    }

    /// Above 4,096 steps the refusal is document 01's addition.
    fn motion(&self, from: State, to: State) -> bool {
        self.steps(&from, &to).is_some() && step(&self.mount, self.segment, LONGEST, from, to).is_some()
    }
}

/// Where no place is refused and the segment is the longest, the node that RRT adds is the steered state.
fn steer(max_distance: f64, from: State, to: State) -> State {
    let everywhere = Mount {
        low: State::new(&[f64::NEG_INFINITY; 3]),
        high: State::new(&[f64::INFINITY; 3]),
        keep_outs: Vec::new(),
    };
    step(&everywhere, LONGEST, max_distance, from, to).expect("an accepted motion")
}

/// The node that one sample adds to a tree of one node.
fn step(mount: &Mount, segment: f64, max_distance: f64, from: State, to: State) -> Option<State> {
    let goal = GoalRegion { centre: to, radius: 0.0 };
    let problem =
        ProblemDefinition { space: Arc::new(MountSpace { segment }), start_states: vec![from], goal: Arc::new(goal) };
    let mut planner = RRT::new(max_distance, 0.0, &PlannerConfig { seed: None });
    planner.setup(Arc::new(problem), Arc::new(mount.clone()));
    tape::load(vec![to]);
    let _ = planner.solve(Duration::from_secs(1));
    planner.table().get(1).map(|node| node.0)
}

fn yes(yes: bool) -> String {
    format!("= {}\n", if yes { "yes" } else { "no" })
}
