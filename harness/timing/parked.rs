//! Keep-outs that are added to a roadmap that is built, against the construction afresh. Many are added in one call: it builds the roadmap too, which takes
//! longer than an addition.

use crate::workloads::{self, Workload};
use crate::original;
use oxmpl::mount::KeepOut;

/// Keep-outs to be added, and what they are.
struct Parked {
    what: &'static str,
    keep_outs: Vec<KeepOut>,
}

/// Nanoseconds: the construction under the workload's keep-outs, that under one more, and an addition.
struct Times {
    afresh: f64,
    longer: f64,
    addition: f64,
}

pub fn report(name: &'static str, rounds: usize) {
    let workload = workloads::roadmap(name);
    println!("{name}");
    let all = kinds_and_all();
    let times = proved_times(&workload, &all, rounds);
    for (place, parked) in all.iter().enumerate() {
        describe(&workload, parked);
        match times.get(place) {
            Some(Times { afresh, longer, addition }) => {
                print!("      an addition {addition:.0} ns, construction afresh {afresh:.0}, ratio {:.3}", addition / afresh);
                println!("; under the longer list {longer:.0}, ratio {:.3}", addition / longer);
            }
            None => println!("      the proved code is left out"),
        }
    }
}

fn kinds_and_all() -> Vec<Parked> {
    let passing = workloads::passing_by();
    let only = |what, is: fn(&KeepOut) -> bool| Parked { what, keep_outs: passing.iter().filter(|k| is(k)).cloned().collect() };
    vec![
        only("keep-outs that pass by", |_| true),
        only("boxes of these", |k| matches!(k, KeepOut::Box { .. })),
        only("discs of these", |k| matches!(k, KeepOut::Disc { .. })),
        only("floors of these", |k| matches!(k, KeepOut::Floor { .. })),
        Parked { what: "keep-outs that stand in the way", keep_outs: workloads::in_the_way() },
    ]
}

/// What they take away, by the Rust, which builds the roadmap with and without them.
fn describe(workload: &Workload, parked: &Parked) {
    let (milestones, legs) = original::size(&original::charted(workload));
    let (left, legs_left) = original::size(&original::charted(&workload.with_keep_outs(&parked.keep_outs)));
    let (number, what) = (parked.keep_outs.len(), parked.what);
    println!("   {number} {what} take {} of {milestones} milestones and {} of {legs} legs", milestones - left, legs - legs_left);
}

/// In turn, so that a slow moment of the machine falls on all alike. A call with many keep-outs added takes longer than one with none, by what they take.
#[cfg(proved)]
fn proved_times(workload: &Workload, all: &[Parked], rounds: usize) -> Vec<Times> {
    use crate::proved::{prepare, prepare_with, run, run_with};
    use crate::thread_time::timed;
    let mut calls: Vec<_> = all.iter().map(|parked| (parked, prepare_with(workload, &parked.keep_outs), [u64::MAX; 3])).collect();
    for (parked, prepared, _) in &mut calls {
        let mut afresh = original::charted(&workload.with_keep_outs(&parked.keep_outs));
        let asked = run_with(prepared, parked.keep_outs.len(), 1);
        assert_eq!((asked.answer, asked.count), (0, original::query(&mut afresh)), "the answer and the route's states after the additions");
    }
    for _ in 0..rounds {
        for (parked, prepared, least) in &mut calls {
            let mut longer = prepare(&workload.with_keep_outs(&parked.keep_outs[..1]));
            let outcomes = [timed(|| run(prepared)), timed(|| run(&mut longer)), timed(|| run_with(prepared, parked.keep_outs.len(), 0))];
            for (least, (outcome, time)) in least.iter_mut().zip(outcomes) {
                assert_eq!(outcome.answer, 0, "the proved code's answer");
                *least = time.min(*least);
            }
        }
    }
    let times = |(parked, _, [afresh, longer, added]): (&Parked, _, [u64; 3])| Times {
        afresh: afresh as f64,
        longer: longer as f64,
        addition: (added - afresh) as f64 / parked.keep_outs.len() as f64,
    };
    calls.into_iter().map(times).collect()
}

#[cfg(not(proved))]
fn proved_times(_: &Workload, _: &[Parked], _: usize) -> Vec<Times> {
    Vec::new()
}
