//! Leaf calls on a mount alone, at the borders of document 01's rules.

use super::numbers::{self, nudged};
use super::random::Random;
use super::scene::Scene;
use super::setups;
use oxmpl::mount::{KeepOut, State, distance};

/// The most steps that a motion may have.
const MOST_STEPS: f64 = 4096.0;

pub fn calls(random: &mut Random) -> Vec<String> {
    let mut lines = Vec::new();
    let mut scene = Scene::new(random);
    if random.percent(10) {
        lines.push(call(random, &scene));
    }
    for _ in 0..random.among(1, 3) {
        if random.percent(10) {
            lines.push(setups::bad(random, "mount", &scene));
            lines.push(call(random, &scene));
        }
        lines.push(setups::good(random, "mount", &scene));
        for _ in 0..random.among(5, 30) {
            lines.push(call(random, &scene));
        }
        scene = Scene::new(random);
        if random.percent(25) {
            scene.segment = random.pick(&[0.001, 0.01, 0.1, 1.0, 2.5]);
        }
    }
    lines
}

fn call(random: &mut Random, scene: &Scene) -> String {
    let (from, to) = (any_state(random, scene), any_state(random, scene));
    let ends = [numbers::state(random, &from), numbers::state(random, &to)].join(" ");
    match random.below(100) {
        0..10 => format!("mount distance {ends}"),
        10..22 => {
            let t = part(random);
            format!("mount between {ends} {}", numbers::word(random, t))
        }
        22..37 => {
            let max = max_distance(random, scene, &from, &to);
            format!("mount steer {} {ends}", numbers::word(random, max))
        }
        37..57 => format!("mount valid {}", numbers::state(random, &from)),
        57..72 => format!("mount steps {ends}"),
        72..94 => format!("mount motion {ends}"),
        94..97 => bad_call(random, &ends),
        _ => many_steps(random, scene),
    }
}

/// A state of the scene, or one that lies on a keep-out's corner or rim or on the limits.
fn any_state(random: &mut Random, scene: &Scene) -> State {
    if scene.keep_outs.is_empty() || random.percent(60) {
        return scene.state(random);
    }
    let state = scene.state(random);
    let axes = match &scene.keep_outs[random.below(scene.keep_outs.len())] {
        KeepOut::Box { low, high } => {
            let (low, high) = (low.axes(), high.axes());
            [0, 1, 2].map(|axis| {
                let face = random.pick(&[low[axis], high[axis]]);
                nudged(random, face)
            })
        }
        KeepOut::Disc { azimuth, elevation, radius } => {
            // Anywhere on the rim, as near as rounding allows, or at one of its four ends.
            let across = if random.percent(70) { random.number(-1.0, 1.0) } else { random.pick(&[-1.0, 0.0, 1.0]) };
            let dx = across * radius;
            let dy = (radius * radius - dx * dx).max(0.0).sqrt();
            [nudged(random, azimuth + dx), elevation + dy, state.feed]
        }
        KeepOut::Floor { elevation } => [state.azimuth, nudged(random, *elevation), state.feed],
    };
    State::new(&axes.map(|number| number.clamp(-1024.0, 1024.0)))
}

fn part(random: &mut Random) -> f64 {
    let n = random.among(1, 50);
    let i = random.among(0, n);
    match random.below(3) {
        0 => random.pick(&[0.0, -0.0, 1.0, 0.5, 1f64.next_down(), f64::from_bits(1)]),
        1 => i as f64 / n as f64,
        _ => random.number(0.0, 1.0),
    }
}

/// Often the distance itself, where the sample is still taken, or just below it.
fn max_distance(random: &mut Random, scene: &Scene, from: &State, to: &State) -> f64 {
    if random.percent(50) { nudged(random, distance(from, to)).clamp(0.001, 4096.0) } else { scene.length(random) }
}

fn bad_call(random: &mut Random, ends: &str) -> String {
    let length = numbers::bad_length(random);
    let coordinate = numbers::bad_coordinate(random);
    let part = random.pick(&[-f64::from_bits(1), 1f64.next_up(), 2.0, f64::NAN, f64::INFINITY]);
    let coordinate = numbers::word(random, coordinate);
    match random.below(5) {
        0 => format!("mount between {ends} {}", numbers::word(random, part)),
        1 => format!("mount steer {} {ends}", numbers::word(random, length)),
        2 => format!("mount valid 0 {coordinate} 0"),
        3 => format!("mount motion 0 0 0 0 0 {coordinate}"),
        _ => format!("mount {} {coordinate} 0 0 0 0 0", random.pick(&["steps", "distance"])),
    }
}

/// A motion of about the most steps there are.
fn many_steps(random: &mut Random, scene: &Scene) -> String {
    let long = (scene.segment * 0.1 * MOST_STEPS).min(1024.0);
    let to = State::new(&[nudged(random, long).min(1024.0), 0.0, 0.0]);
    let verb = random.pick(&["steps", "motion"]);
    format!("mount {verb} 0 0 0 {}", numbers::state(random, &to))
}
