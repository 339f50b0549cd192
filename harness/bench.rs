//! Times the planners' setup and solve, or construction, and a roadmap's query in the original Rust and in the proved code: one run, the same inputs, thread time, the best of
//! many rounds. Then a keep-out that is added to a roadmap, which the Rust has not, in the proved code alone. Compiled without `--cfg proved` it times the Rust alone.

#[path = "timing/original.rs"]
mod original;
#[path = "timing/parked.rs"]
mod parked;
#[cfg(proved)]
#[path = "timing/proved.rs"]
mod proved;
#[path = "scenes/random.rs"]
#[allow(dead_code)]
mod random;
#[path = "timing/queries.rs"]
mod queries;
#[path = "timing/thread_time.rs"]
mod thread_time;
#[path = "timing/workloads.rs"]
mod workloads;

use thread_time::timed;
use workloads::{Planner, Workload};

const ROUNDS: usize = 300;

fn main() {
    for workload in workloads::all() {
        describe(&workload);
        let per_sample = |time: u64| time as f64 / workload.samples.len() as f64;
        let (rust, proved) = best(&workload);
        print!("   Rust {:.0} ns a sample", per_sample(rust));
        match proved {
            Some(time) => println!(", proved {:.0}, ratio {:.2}", per_sample(time), time as f64 / rust as f64),
            None => println!("; the proved code is left out"),
        }
    }
    queries::report("j: PRM, a query of the roadmap of (i)", ROUNDS);
    parked::report("k: PRM, a keep-out added to the roadmap of (i)", ROUNDS);
}

fn describe(workload: &Workload) {
    let samples = workload.samples.len();
    let nodes = original::nodes(workload);
    let points = original::points(workload) as f64 / samples as f64;
    let root = (workload.planner != Planner::Prm) as usize;
    let refused = 100.0 * samples.saturating_sub(nodes - root) as f64 / samples as f64;
    let keep_outs = workload.mount.keep_outs.len();
    println!("{}", workload.name);
    println!(
        "   {samples} samples, {nodes} nodes, {refused:.0}% refused, {points:.1} points a sample, {keep_outs} keep-outs"
    );
    if let Planner::Star { search_radius } = workload.planner {
        let neighbours = original::neighbours(workload, search_radius) as f64 / (nodes - 1) as f64;
        println!("   {neighbours:.1} neighbours a node");
    }
}

/// The least time of the Rust and of the proved code, in turn, and that their answers agree.
#[cfg(proved)]
fn best(workload: &Workload) -> (u64, Option<u64>) {
    original::prepare(workload);
    let mut prepared = proved::prepare(workload);
    let mut least = (u64::MAX, u64::MAX);
    for _ in 0..ROUNDS {
        let (rust, rust_time) = timed(|| original::run(workload));
        let (proved, proved_time) = timed(|| proved::run(&mut prepared));
        assert_eq!(rust, proved, "the Rust's outcome and the proved code's");
        least = (least.0.min(rust_time), least.1.min(proved_time));
    }
    (least.0, Some(least.1))
}

#[cfg(not(proved))]
fn best(workload: &Workload) -> (u64, Option<u64>) {
    original::prepare(workload);
    let least = (0..ROUNDS).map(|_| timed(|| original::run(workload)).1).min();
    (least.expect("at least one round"), None)
}
