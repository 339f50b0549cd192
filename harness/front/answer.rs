//! What a call answers, and how it is written.

use oxmpl::base::{error::PlanningError, planner::Path};
use oxmpl::mount::State;

pub const UNINITIALISED: u8 = 1;
pub const BAD_INPUT: u8 = 2;
pub const FULL: u8 = 4;
pub const ROOM: u8 = 8;

pub struct Answer {
    number: u8,
    route: Vec<State>,
    taken: usize,
}

impl Answer {
    pub fn done() -> Answer {
        Answer::refused(0)
    }

    pub fn refused(number: u8) -> Answer {
        Answer { number, route: Vec::new(), taken: 0 }
    }

    /// Document 01's number for what the original Rust gave.
    pub fn of(result: Result<Path<State>, PlanningError>, taken: usize) -> Answer {
        let (number, route) = match result {
            Ok(Path(route)) => (0, route),
            Err(PlanningError::PlannerUninitialised) => (UNINITIALISED, Vec::new()),
            // A sampler without a sample: RRT-Connect without a goal root, on an empty list.
            Err(PlanningError::Timeout | PlanningError::Sampling(_)) => (3, Vec::new()),
            Err(PlanningError::UnsampledStateSpace) => (5, Vec::new()),
            Err(PlanningError::InvalidStartState) => (6, Vec::new()),
            Err(PlanningError::NoSolutionFound) => (7, Vec::new()),
        };
        Answer { number, route, taken }
    }

    pub fn write(&self) -> String {
        let route: String = self.route.iter().map(|place| format!("  {}\n", state(place))).collect();
        format!("= {} {} {}\n{route}", self.number, self.route.len(), self.taken)
    }
}

pub fn number(number: f64) -> String {
    format!("x{:016x}", number.to_bits())
}

pub fn state(state: &State) -> String {
    state.axes().map(number).join(" ")
}

/// A planner's table: its name, and what stands after each entry's index.
pub struct Table {
    pub name: &'static str,
    pub rows: Vec<String>,
}

impl Table {
    pub fn write(&self) -> String {
        let rows: String = self.rows.iter().enumerate().map(|(index, row)| format!("  {index} {row}\n")).collect();
        format!("{} {}\n{rows}", self.name, self.rows.len())
    }
}

pub fn parent(parent: Option<usize>) -> String {
    parent.map_or("-".to_string(), |index| index.to_string())
}
