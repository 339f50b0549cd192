//! A query of a roadmap that is built. Many are timed at once: one takes too little time for the clock.

use crate::thread_time::timed;
use crate::{original, workloads};

const QUERIES: u8 = 100;

pub fn report(name: &'static str, rounds: usize) {
    let workload = workloads::roadmap(name);
    let mut planner = original::charted(&workload);
    let states = original::query(&mut planner);
    let neighbours = original::joined(&planner) as f64 / original::nodes(&workload) as f64;
    println!("{name}");
    println!("   {neighbours:.1} neighbours a milestone, a route of {states} states");
    let mut planner = original::charted(&workload);
    let rust = (0..rounds).map(|_| timed(|| (0..QUERIES).for_each(|_| assert_eq!(original::query(&mut planner), states))).1).min();
    let rust = rust.expect("at least one round") as f64 / f64::from(QUERIES);
    print!("   Rust {rust:.0} ns a query");
    match proved_query(&workload, states, rounds) {
        Some(time) => println!(", proved {time:.0}, ratio {:.2}", time / rust),
        None => println!("; the proved code is left out"),
    }
}

/// A call with many queries takes longer than one with none, by what they take.
#[cfg(proved)]
fn proved_query(workload: &workloads::Workload, states: u64, rounds: usize) -> Option<f64> {
    let mut prepared = crate::proved::prepare(workload);
    let mut least = (u64::MAX, u64::MAX);
    for _ in 0..rounds {
        let (asked, with) = timed(|| crate::proved::run_with(&mut prepared, 0, QUERIES));
        let (_, without) = timed(|| crate::proved::run_with(&mut prepared, 0, 0));
        assert_eq!((asked.answer, asked.count), (0, states), "the proved code's answer and its route's states");
        least = (least.0.min(with), least.1.min(without));
    }
    Some((least.0 - least.1) as f64 / f64::from(QUERIES))
}

#[cfg(not(proved))]
fn proved_query(_: &workloads::Workload, _: u64, _: usize) -> Option<f64> {
    None
}
