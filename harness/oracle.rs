//! Reads a script of calls and makes each call on oxmpl's original planners, compiled unchanged. Writes what `replay` must write.
//! The refusals that oxmpl does not know (1, 2, 8 and the sizes) are decided here, in document 01's order.

#[path = "front/accept.rs"]
mod accept;
#[path = "front/answer.rs"]
mod answer;
#[path = "front/leaves.rs"]
mod leaves;
#[path = "front/roadmap.rs"]
mod roadmap;
#[path = "front/scene.rs"]
mod scene;
#[path = "front/trees.rs"]
mod trees;
#[path = "front/words.rs"]
mod words;

use answer::{Answer, Table};
use leaves::Leaves;
use oxmpl::mount::KeepOut;
use roadmap::RoadmapPlanner;
use std::io::Read;
use trees::TreePlanner;
use words::{Call, Leaf, Which};

/// One planner of each kind and one mount, each uninitialised at first.
#[derive(Default)]
struct Planners {
    rrt: Option<TreePlanner>,
    connect: Option<TreePlanner>,
    star: Option<TreePlanner>,
    prm: Option<RoadmapPlanner>,
    mount: Option<Leaves>,
}

fn main() {
    let mut script = Vec::new();
    std::io::stdin().read_to_end(&mut script).expect("a script to read");
    let (answers, outcome) = run(&script);
    print!("{answers}");
    if let Err(outside) = outcome {
        eprintln!("oracle: {outside}");
        std::process::exit(3);
    }
}

/// What the calls write, and an error if one of them left the domain of comparison.
fn run(script: &[u8]) -> (String, Result<(), String>) {
    let mut planners = Planners::default();
    let mut answers = String::new();
    for (index, line) in script.split(|&byte| byte == b'\n').enumerate() {
        let words = words::words(line);
        if words.is_empty() {
            continue;
        }
        let Some(call) = words::call(&words) else {
            answers += &format!("? line {}\n", index + 1);
            break;
        };
        answers += &planners.make(call);
        if !planners.comparable() {
            return (answers, Err(format!("line {}: outside the domain of comparison with the Rust", index + 1)));
        }
    }
    (answers, Ok(()))
}

impl Planners {
    fn make(&mut self, call: Call) -> String {
        match call {
            Call::Setup(which, numbers, keep_outs) => self.setup(which, &numbers, &keep_outs).write(),
            Call::KeepOut(Which::Prm, keep_out) => on(&mut self.prm, |planner| planner.add(keep_out)),
            Call::KeepOut(which, keep_out) => on(self.tree(which), |planner| planner.add(keep_out)),
            Call::Solve(which, room, samples) => {
                on(self.tree(which), |planner| with_room(room, trees::room(which), || planner.solve(&samples)))
            }
            Call::Construct(samples) => on(&mut self.prm, |planner| planner.construct(&samples)),
            Call::Goals(numbers) => on(&mut self.prm, |planner| planner.replace_goals(&numbers)),
            Call::Query(room) => on(&mut self.prm, |planner| with_room(room, roadmap::ROOM, || planner.query())),
            Call::Tables(which) => self.tables(which).iter().map(Table::write).collect(),
            Call::MountSetup(numbers, keep_outs) => self.mount_setup(&numbers, &keep_outs).write(),
            Call::Leaf(leaf, numbers) => self.leaf(leaf, &numbers),
        }
    }

    fn tree(&mut self, which: Which) -> &mut Option<TreePlanner> {
        match which {
            Which::Rrt => &mut self.rrt,
            Which::Connect => &mut self.connect,
            Which::Star => &mut self.star,
            Which::Prm => unreachable!("the roadmap planner has no tree"),
        }
    }

    fn setup(&mut self, which: Which, numbers: &[f64], keep_outs: &[KeepOut]) -> Answer {
        let Some(setup) = accept::setup(which, numbers, keep_outs) else {
            return Answer::refused(answer::BAD_INPUT);
        };
        match which {
            Which::Prm => self.prm = Some(RoadmapPlanner::new(setup)),
            _ => *self.tree(which) = Some(TreePlanner::new(which, &setup)),
        }
        Answer::done()
    }

    fn mount_setup(&mut self, numbers: &[f64], keep_outs: &[KeepOut]) -> Answer {
        let Some(leaves) = Leaves::new(numbers, keep_outs) else {
            return Answer::refused(answer::BAD_INPUT);
        };
        self.mount = Some(leaves);
        Answer::done()
    }

    fn leaf(&self, leaf: Leaf, numbers: &[f64]) -> String {
        match &self.mount {
            Some(leaves) => leaves.call(leaf, numbers),
            None => Answer::refused(answer::UNINITIALISED).write(),
        }
    }

    fn tables(&mut self, which: Which) -> Vec<Table> {
        let empty = |name| Table { name, rows: Vec::new() };
        match which {
            Which::Prm => vec![self.prm.as_ref().map_or(empty("roadmap"), RoadmapPlanner::table)],
            _ => match self.tree(which) {
                Some(planner) => planner.tables(),
                None if which == Which::Connect => vec![empty("start"), empty("goal")],
                None => vec![empty("tree")],
            },
        }
    }

    fn comparable(&self) -> bool {
        [&self.rrt, &self.connect, &self.star].into_iter().flatten().all(TreePlanner::comparable)
            && self.prm.as_ref().is_none_or(RoadmapPlanner::comparable)
    }
}

/// A planner without an accepted setup answers nothing else.
fn on<P>(planner: &mut Option<P>, call: impl FnOnce(&mut P) -> Answer) -> String {
    match planner {
        Some(planner) => call(planner),
        None => Answer::refused(answer::UNINITIALISED),
    }
    .write()
}

fn with_room(room: usize, needed: usize, call: impl FnOnce() -> Answer) -> Answer {
    if room < needed { Answer::refused(answer::ROOM) } else { call() }
}
