//! A scene for one setup: a pool of states that the calls use again and again, and limits, lengths, start and goal that meet
//! them exactly. Few distinct numbers make ties, equal numbers and repeated states frequent.

use super::keep_outs;
use super::numbers::nudged;
use super::random::Random;
use oxmpl::base::validity::StateValidityChecker;
use oxmpl::mount::{KeepOut, Mount, State, distance};

#[derive(Clone, Copy)]
enum Style {
    Lattice,
    Quarters,
    Tenths,
    Angles,
    Tiny,
    Wild,
}

/// Which axes move: with fewer of them, more states stand in line and at equal distances.
#[derive(Clone, Copy)]
enum Shape {
    Line,
    Plane,
    Space,
}

pub struct Scene {
    style: Style,
    shape: Shape,
    pub pool: Vec<State>,
    pub limits: [f64; 6],
    pub segment: f64,
    /// max_distance, or connection_radius.
    pub reach: f64,
    pub search: f64,
    pub start: State,
    pub centre: State,
    pub radius: f64,
    pub keep_outs: Vec<KeepOut>,
}

const WIDE: [f64; 6] = [-1024.0, 1024.0, -1024.0, 1024.0, -1024.0, 1024.0];
/// No two coordinates are further apart.
const WIDEST: f64 = 2048.0;
/// Well inside the domain of comparison's 4,096, as a steered state may lie a rounding beyond max_distance.
const MOST_STEPS: f64 = 4000.0;

impl Scene {
    pub fn new(random: &mut Random) -> Scene {
        use Style::*;
        let style = random.pick(&[Lattice, Lattice, Lattice, Quarters, Tenths, Tenths, Angles, Tiny, Wild]);
        let shape = random.pick(&[Shape::Line, Shape::Plane, Shape::Plane, Shape::Space, Shape::Space]);
        let nowhere = State::new(&[0.0; 3]);
        let mut scene = Scene {
            style,
            shape,
            pool: Vec::new(),
            limits: WIDE,
            segment: some_segment(random, style),
            reach: 1.0,
            search: 1.0,
            start: nowhere,
            centre: nowhere,
            radius: 0.0,
            keep_outs: Vec::new(),
        };
        for _ in 0..random.among(4, 12) {
            let state = scene.state(random);
            scene.pool.push(state);
        }
        scene.limits = scene.some_limits(random);
        scene.reach = scene.length(random);
        scene.search = scene.length(random);
        while scene.longest_motion() / (scene.segment * 0.1) > MOST_STEPS {
            scene.segment *= 2.0;
        }
        (scene.centre, scene.radius) = if random.percent(35) { far_goal(random) } else { scene.goal(random) };
        for _ in 0..how_many_keep_outs(random) {
            let keep_out = keep_outs::touching(random, &scene.pool, scene.segment);
            scene.keep_outs.push(keep_out);
        }
        scene.start = scene.start(random);
        if random.percent(20) {
            scene.walk(random);
        }
        scene
    }

    /// Makes the pool a walk of short steps from start to goal, so that routes have many states and several are equally long.
    fn walk(&mut self, random: &mut Random) {
        let mut axes = self.start.axes();
        self.pool = vec![self.start];
        for _ in 0..random.among(5, 25) {
            let axis = random.below(3);
            let step = random.pick(&[self.step(), self.step(), -self.step()]);
            axes[axis] = (axes[axis] + step).clamp(-1024.0, 1024.0);
            self.pool.push(State::new(&axes));
        }
        self.reach = self.step() * random.pick(&[1.25, 1.25, 2.0]);
        (self.centre, self.radius) = (State::new(&axes), 0.0);
        self.limits = WIDE;
    }

    pub fn pooled(&self, random: &mut Random) -> State {
        random.pick(&self.pool)
    }

    /// A state of the pool, mostly a valid one where there are any.
    pub fn start(&self, random: &mut Random) -> State {
        let [low, high] = [0, 1].map(|end| State::new(&[0, 2, 4].map(|axis| self.limits[axis + end])));
        let mount = Mount { low, high, keep_outs: self.keep_outs.clone() };
        let valid: Vec<State> = self.pool.iter().copied().filter(|state| mount.is_valid(state)).collect();
        if valid.is_empty() || random.percent(15) { self.pooled(random) } else { random.pick(&valid) }
    }

    /// A state of the pool, one that shares numbers with it, or a new one.
    pub fn state(&self, random: &mut Random) -> State {
        let mut axes = [0, 1, 2].map(|axis| self.coordinate(random, axis));
        if !self.pool.is_empty() && random.percent(50) {
            axes = self.pooled(random).axes();
            let axis = random.below(3);
            match random.below(5) {
                0 => axes[axis] += self.whole_steps(random),
                1 => axes[axis] = self.coordinate(random, axis),
                2 => axes[axis] = nudged(random, axes[axis]),
                _ => (),
            }
        }
        State::new(&axes.map(|number| number.clamp(-1024.0, 1024.0)))
    }

    /// A way whose q is a whole number, or as near to one as rounding allows.
    fn whole_steps(&self, random: &mut Random) -> f64 {
        let count = random.among(1, 9) as f64;
        let way = random.pick(&[count * (self.segment * 0.1), count * 0.1 * self.segment, count * self.segment / 10.0]);
        if random.percent(50) { way } else { -way }
    }

    /// A list of samples.
    pub fn samples(&self, random: &mut Random, count: usize) -> Vec<State> {
        (0..count).map(|_| if random.percent(30) { self.pooled(random) } else { self.state(random) }).collect()
    }

    /// How long a list may be where each motion has many points.
    pub fn patience(&self) -> usize {
        if self.longest_motion() / (self.segment * 0.1) > 60.0 { 30 } else { 511 }
    }

    /// A length that is one of the pool's own distances, one that makes many short motions, or a usual one.
    pub fn length(&self, random: &mut Random) -> f64 {
        match random.below(10) {
            0..2 => {
                let apart = distance(&self.pooled(random), &self.pooled(random));
                nudged(random, apart).clamp(0.001, 4096.0)
            }
            2..6 => self.step() * random.pick(&[1.25, 1.5, 2.5]),
            _ => self.usual_length(random),
        }
    }

    /// About how far apart neighbouring numbers of this style lie.
    fn step(&self) -> f64 {
        match self.style {
            Style::Lattice => 1.0,
            Style::Quarters => 0.25,
            Style::Tenths => 0.1,
            Style::Angles => 15.0,
            Style::Tiny => 0.5,
            Style::Wild => 200.0,
        }
    }

    fn usual_length(&self, random: &mut Random) -> f64 {
        match self.style {
            Style::Lattice => random.pick(&[1.0, 1.0, 1.5, 2.0, 2.0, 3.0, 4.0, 6.0, 100.0]),
            Style::Quarters => random.pick(&[0.25, 0.5, 0.75, 1.0, 1.25, 2.0, 50.0]),
            Style::Tenths => random.pick(&[0.1, 0.2, 0.3, 0.5, 0.6, 0.7, 1.0, 1.2, 30.0]),
            Style::Angles => random.number(5.0, 80.0),
            Style::Tiny => random.pick(&[0.001, 0.5, 1.0, 2.0, 4096.0]),
            Style::Wild => random.number(1.0, 4096.0),
        }
    }

    /// A goal in the pool.
    pub fn goal(&self, random: &mut Random) -> (State, f64) {
        let radius = match random.below(4) {
            0 => random.pick(&[0.0, 0.0, -0.0, f64::from_bits(1), 4096.0]),
            1 => distance(&self.pooled(random), &self.pooled(random)),
            2 => self.length(random),
            _ => random.pick(&[0.0, 0.1, 0.5, 1.0]),
        };
        (self.pooled(random), radius)
    }

    fn longest_motion(&self) -> f64 {
        self.reach.max(self.search).min(WIDEST)
    }

    fn coordinate(&self, random: &mut Random, axis: usize) -> f64 {
        let still = match self.shape {
            Shape::Line => axis > 0,
            Shape::Plane => axis > 1,
            Shape::Space => false,
        };
        if still || random.percent(6) {
            return random.pick(&[0.0, 0.0, 0.0, -0.0]);
        }
        let small = |random: &mut Random, most: usize| random.below(2 * most + 1) as f64 - most as f64;
        match self.style {
            Style::Lattice => small(random, 4),
            Style::Quarters => small(random, 8) / 4.0,
            Style::Tenths => small(random, 12) / 10.0,
            Style::Angles => {
                let angle = random.number(-90.0, 90.0);
                if random.percent(50) { angle } else { (angle * 100.0).round() / 100.0 }
            }
            Style::Tiny => tiny(random),
            Style::Wild => match random.percent(20) {
                true => random.pick(&[-1024.0, 1024.0, 1023.5, -512.0, 0.1]),
                false => random.number(-1024.0, 1024.0),
            },
        }
    }

    /// Wide, a dish's usual ones, or such that the pool's own numbers are the ends.
    fn some_limits(&self, random: &mut Random) -> [f64; 6] {
        if random.percent(40) {
            return self.limits;
        }
        if random.percent(10) {
            return [-270.0, 270.0, 0.0, 90.0, -90.0, 90.0];
        }
        let mut limits = [0.0; 6];
        for axis in 0..3 {
            let mut numbers: Vec<f64> = self.pool.iter().map(|state| state.axes()[axis]).collect();
            numbers.sort_by(f64::total_cmp);
            let cut = if random.percent(25) && numbers.len() > 4 { 1 } else { 0 };
            limits[2 * axis] = numbers[cut];
            limits[2 * axis + 1] = numbers[numbers.len() - 1 - cut];
        }
        limits
    }
}

/// Among them some whose tenth is not the product with 0.1.
fn some_segment(random: &mut Random, style: Style) -> f64 {
    match style {
        Style::Lattice => random.pick(&[10.0, 10.0, 5.0, 2.5, 20.0, 30.0, 3.0, 7.0]),
        Style::Quarters => random.pick(&[10.0, 5.0, 2.5, 1.0, 3.0]),
        Style::Tenths => random.pick(&[1.0, 2.0, 3.0, 3.0, 6.0, 7.0, 0.7, 10.0]),
        Style::Angles => random.number(10.0, 200.0),
        Style::Tiny => random.pick(&[5.0, 10.0, 20.0, 4096.0]),
        Style::Wild => random.number(100.0, 4096.0),
    }
}

/// Numbers that vanish beside 1, and the smallest of all.
fn tiny(random: &mut Random) -> f64 {
    let power = |exponent: i32| 2f64.powi(exponent);
    let size =
        random.pick(&[1.0, 1.0, 0.5, power(-60), power(-53), power(-30), 1.0 + power(-52), f64::from_bits(1), 0.3]);
    if random.percent(40) { -size } else { size }
}

/// A goal that is hardly ever met, so that trees grow.
fn far_goal(random: &mut Random) -> (State, f64) {
    (State::new(&[-1000.0, 1000.0, 999.0]), random.pick(&[0.0, 1.0, 10.0]))
}

fn how_many_keep_outs(random: &mut Random) -> usize {
    match random.below(20) {
        0..5 => 0,
        5..11 => random.among(1, 2),
        11..17 => random.among(3, 8),
        17..19 => random.among(9, 31),
        _ => 32,
    }
}
