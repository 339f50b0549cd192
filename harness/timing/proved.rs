//! The proved code's side of a workload: its exported functions, and the numbers that they take. All that depends on those
//! functions' form stands here.

use crate::original::Outcome;
use crate::workloads::{Planner, Workload};
use oxmpl::mount::KeepOut;

/// What an exported function gives.
#[repr(C)]
struct Report {
    answer: usize,
    count: usize,
    taken: usize,
}

type Setup = *const [f64; 15];
type Kinds = *const [u8; 32];
type Numbers = *const [f64; 192];

// Setup and one solve. An array is handed over as its address, a slice as its address and its length: the setup; the keep-outs' kinds,
// numbers and count; the samples; the route buffer. RRT* has its search radius after the setup. PRM has how many keep-outs more are added after its
// construction behind their count, and how many queries follow before the route buffer.
unsafe extern "C" {
    fn rindmosaic_rrt(_: Setup, _: Kinds, _: Numbers, _: usize, _: *const f64, _: usize, _: *mut f64, _: usize) -> Report;
    fn rindmosaic_connect(_: Setup, _: Kinds, _: Numbers, _: usize, _: *const f64, _: usize, _: *mut f64, _: usize) -> Report;
    fn rindmosaic_star(_: Setup, _: f64, _: Kinds, _: Numbers, _: usize, _: *const f64, _: usize, _: *mut f64, _: usize) -> Report;
    fn rindmosaic_prm(_: Setup, _: Kinds, _: Numbers, _: usize, _: usize, _: *const f64, _: usize, _: u8, _: *mut f64, _: usize) -> Report;
}

/// The longest route buffer that a solve needs.
const ROUTE: usize = 3069;

/// What the calls take and write, made before the time is taken.
pub struct Prepared {
    planner: Planner,
    setup: [f64; 15],
    kinds: [u8; 32],
    numbers: [f64; 192],
    keep_outs: usize,
    samples: Vec<f64>,
    route: Vec<f64>,
}

pub fn prepare(workload: &Workload) -> Prepared {
    prepare_with(workload, &[])
}

/// The same with keep-outs that can be added later, in the rows after the setup's.
pub fn prepare_with(workload: &Workload, added: &[KeepOut]) -> Prepared {
    let (low, high) = (workload.mount.low.axes(), workload.mount.high.axes());
    let mut setup: Vec<f64> = (0..3).flat_map(|axis| [low[axis], high[axis]]).collect();
    setup.extend([workload.segment, workload.max_distance]);
    setup.extend(workload.start.axes());
    setup.extend(workload.goal.centre.axes());
    setup.push(workload.goal.radius);
    let mut kinds = [0; 32];
    let mut numbers = [0.0; 192];
    for (row, keep_out) in workload.mount.keep_outs.iter().chain(added).enumerate() {
        kinds[row] = kind(keep_out);
        for (place, number) in keep_out_numbers(keep_out).into_iter().enumerate() {
            numbers[6 * row + place] = number;
        }
    }
    Prepared {
        planner: workload.planner,
        setup: setup.try_into().expect("fifteen numbers of a setup"),
        kinds,
        numbers,
        keep_outs: workload.mount.keep_outs.len(),
        samples: workload.samples.iter().flat_map(|sample| sample.axes()).collect(),
        route: vec![0.0; ROUTE],
    }
}

fn kind(keep_out: &KeepOut) -> u8 {
    match keep_out {
        KeepOut::Box { .. } => 0,
        KeepOut::Disc { .. } => 1,
        KeepOut::Floor { .. } => 2,
    }
}

fn keep_out_numbers(keep_out: &KeepOut) -> Vec<f64> {
    match keep_out {
        KeepOut::Box { low, high } => [low.axes(), high.axes()].concat(),
        KeepOut::Disc { azimuth, elevation, radius } => vec![*azimuth, *elevation, *radius],
        KeepOut::Floor { elevation } => vec![*elevation],
    }
}

/// Setup and one solve, or one construction.
pub fn run(prepared: &mut Prepared) -> Outcome {
    run_with(prepared, 0, 0)
}

/// The same, and for a roadmap that is built the first of the keep-outs that can be added, and queries of what they leave.
pub fn run_with(prepared: &mut Prepared, added: usize, queries: u8) -> Outcome {
    let Prepared { planner, setup, kinds, numbers, keep_outs, samples, route } = prepared;
    let (list, length) = (samples.as_ptr(), samples.len());
    let (memory, room) = (route.as_mut_ptr(), route.len());
    let report = unsafe {
        match *planner {
            Planner::Rrt => rindmosaic_rrt(setup, kinds, numbers, *keep_outs, list, length, memory, room),
            Planner::Connect => rindmosaic_connect(setup, kinds, numbers, *keep_outs, list, length, memory, room),
            Planner::Star { search_radius } => {
                rindmosaic_star(setup, search_radius, kinds, numbers, *keep_outs, list, length, memory, room)
            }
            Planner::Prm => rindmosaic_prm(setup, kinds, numbers, *keep_outs, added, list, length, queries, memory, room),
        }
    };
    Outcome { answer: report.answer as u64, count: report.count as u64, taken: report.taken as u64 }
}
