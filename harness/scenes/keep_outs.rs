//! Keep-outs whose faces, rims and floors lie exactly on a state, or on a point that a motion check tests, or one rounding
//! beside it. So a check in the wrong direction, or of another point, is told apart.

use super::numbers::{self, nudged};
use super::random::Random;
use oxmpl::mount::{KeepOut, State, between, distance};

pub fn touching(random: &mut Random, pool: &[State], segment: f64) -> KeepOut {
    let point = if random.percent(45) { random.pick(pool) } else { tested_point(random, pool, segment) };
    match random.below(20) {
        0..11 => box_at(random, &point),
        11..17 => disc_at(random, &point),
        _ => floor_at(random, pool, &point),
    }
}

/// One of the points that the check of a motion between two states of the pool tests; often the last.
fn tested_point(random: &mut Random, pool: &[State], segment: f64) -> State {
    let steps = |from: &State, to: &State| (distance(from, to) / (segment * 0.1)).ceil() as usize;
    let (mut from, mut to) = (random.pick(pool), random.pick(pool));
    for _ in 0..4 {
        if steps(&from, &to) <= 1 {
            (from, to) = (random.pick(pool), random.pick(pool));
        }
    }
    let n = steps(&from, &to).max(1);
    let i = if random.percent(30) { n } else { random.among(1, n) };
    between(&from, &to, i as f64 / n as f64)
}

/// A box with a face, an edge or a corner at the point; often the point alone.
fn box_at(random: &mut Random, point: &State) -> KeepOut {
    let mut low = [0.0; 3];
    let mut high = [0.0; 3];
    let thin = random.percent(50);
    for (axis, &number) in point.axes().iter().enumerate() {
        let sizes: &[f64] = if thin { &[0.0, 0.0, 0.0, 0.1] } else { &[0.0, 0.0, 0.25, 0.5, 1.0, 2.0] };
        let (down, up) = (random.pick(sizes), random.pick(sizes));
        low[axis] = in_range(if random.percent(10) { number.next_up() } else { number - down });
        high[axis] = in_range(if random.percent(10) { number.next_down() } else { number + up });
        if low[axis] > high[axis] {
            (low[axis], high[axis]) = (high[axis], low[axis]);
        }
    }
    KeepOut::Box { low: State::new(&low), high: State::new(&high) }
}

/// A disc with the point on its rim, or as near as rounding allows.
fn disc_at(random: &mut Random, point: &State) -> KeepOut {
    let (across, up) =
        random.pick(&[(0.0, 0.0), (3.0, 4.0), (-0.3, 0.4), (1.0, 0.0), (0.0, -0.5), (1.0, 1.0), (0.7, 0.2)]);
    let azimuth = in_range(point.azimuth + across);
    let elevation = in_range(point.elevation + up);
    let (dx, dy) = (point.azimuth - azimuth, point.elevation - elevation);
    let radius = nudged(random, (dx * dx + dy * dy).sqrt());
    KeepOut::Disc { azimuth, elevation, radius: if radius >= 0.0 { radius } else { -0.0 } }
}

/// A floor at the point or just above it; mostly low, as all below it is covered.
fn floor_at(random: &mut Random, pool: &[State], point: &State) -> KeepOut {
    let lowest = pool.iter().map(|state| state.elevation).fold(point.elevation, f64::min);
    let elevation = if random.percent(70) { lowest } else { point.elevation };
    KeepOut::Floor { elevation: in_range(nudged(random, elevation)) }
}

fn in_range(number: f64) -> f64 {
    number.clamp(-1024.0, 1024.0)
}

pub fn words(random: &mut Random, keep_out: &KeepOut) -> String {
    match keep_out {
        KeepOut::Box { low, high } => {
            format!("box {} {}", numbers::state(random, low), numbers::state(random, high))
        }
        KeepOut::Disc { azimuth, elevation, radius } => {
            format!("disc {}", numbers::words(random, &[*azimuth, *elevation, *radius]))
        }
        KeepOut::Floor { elevation } => format!("floor {}", numbers::word(random, *elevation)),
    }
}

/// A keep-out that document 01 refuses.
pub fn bad_words(random: &mut Random) -> String {
    let bad = numbers::bad_coordinate(random);
    let radius = numbers::bad_radius(random);
    match random.below(6) {
        0 => format!("floor {}", numbers::word(random, bad)),
        1 => format!("disc 0 0 {}", numbers::word(random, radius)),
        2 => "disc 0 0 1024.5".to_string(),
        3 => format!("disc {} 0 1", numbers::word(random, bad)),
        4 => format!("box 0 0 0 1 1 {}", numbers::word(random, bad)),
        _ => random.pick(&["box 0 0 0 1 -1 1", "box 0.5 0 0 0.25 1 1", "box 0 0 2 0 0 1"]).to_string(),
    }
}
