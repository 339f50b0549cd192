//! Calls on one planner: setups, solves or constructions and queries, refusals among them, and keep-outs where they are asked.

use super::keep_outs;
use super::numbers;
use super::random::Random;
use super::scene::Scene;
use super::setups;
use oxmpl::mount::State;

const MOST_NODES: usize = 512;
const MOST_MILESTONES: usize = 256;
const MOST_KEEP_OUTS: usize = 32;
const MOST_ROOM: usize = 4096;

/// The calls on `planner` so far, and what they have used up of its tables.
struct Calls<'a> {
    random: &'a mut Random,
    planner: &'a str,
    with_keep_outs: bool,
    lines: Vec<String>,
    /// How many samples may still come without filling a tree.
    left: usize,
    keep_outs: usize,
}

pub fn calls(random: &mut Random, planner: &str, with_keep_outs: bool) -> Vec<String> {
    let mut calls = Calls { random, planner, with_keep_outs, lines: Vec::new(), left: 0, keep_outs: 0 };
    if calls.random.percent(12) {
        calls.before_setup();
    }
    for _ in 0..calls.random.pick(&[1, 1, 1, 2, 3]) {
        let scene = Scene::new(calls.random);
        calls.after_setup(&scene);
    }
    calls.lines
}

impl Calls<'_> {
    /// Each call once on a planner that has no setup yet, or only a refused one.
    fn before_setup(&mut self) {
        let scene = Scene::new(self.random);
        if self.random.percent(30) {
            self.lines.push(setups::bad(self.random, self.planner, &scene));
        }
        self.left = 5;
        self.work(&scene);
        if self.planner == "prm" {
            self.goals(&scene);
        }
        if self.with_keep_outs {
            self.keep_out(&scene);
        }
        self.tables();
    }

    fn after_setup(&mut self, scene: &Scene) {
        self.lines.push(setups::good(self.random, self.planner, scene));
        self.left = MOST_NODES - 1;
        self.keep_outs = scene.keep_outs.len();
        let mut first = true;
        // RRT-Connect's trees meet soon; they grow large only by many solves.
        let most = if self.planner == "connect" { 14 } else { 6 };
        for _ in 0..self.random.among(1, most) {
            self.refused(scene);
            if self.with_keep_outs && !first && self.random.percent(60) {
                self.keep_out(scene);
            }
            self.work(scene);
            first = false;
            if self.random.percent(60) {
                self.tables();
            }
        }
        self.tables();
    }

    /// Sometimes calls that must be refused and change nothing.
    fn refused(&mut self, scene: &Scene) {
        if self.random.percent(6) {
            self.lines.push(setups::bad(self.random, self.planner, scene));
        }
        if self.random.percent(8) {
            let list = self.bad_list(scene);
            self.work_on(&list);
        }
        if self.with_keep_outs && self.random.percent(8) {
            let words = keep_outs::bad_words(self.random);
            self.lines.push(format!("{} keepout {words}", self.planner));
        }
    }

    fn work(&mut self, scene: &Scene) {
        if self.planner == "prm" {
            self.roadmap_work(scene);
        } else {
            let list = self.list(scene, self.left);
            self.work_on(&list);
        }
    }

    fn roadmap_work(&mut self, scene: &Scene) {
        let fresh = !self.lines.last().is_some_and(|line| line.starts_with("prm query"));
        if self.random.percent(if fresh { 80 } else { 25 }) {
            let list = self.list(scene, MOST_MILESTONES);
            self.work_on(&list);
        }
        for _ in 0..self.random.among(0, 3) {
            if self.random.percent(60) {
                self.goals(scene);
            }
            let room = self.room(3 * (MOST_MILESTONES + 1));
            self.lines.push(format!("prm query {room}"));
        }
    }

    /// A solve or a construction.
    fn work_on(&mut self, list: &[f64]) {
        let words = numbers::words(self.random, list);
        let line = match self.planner {
            "prm" => format!("prm construct {words}"),
            "connect" => format!("connect solve {} {words}", self.room(3 * (2 * MOST_NODES - 1))),
            planner => format!("{planner} solve {} {words}", self.room(3 * MOST_NODES)),
        };
        self.lines.push(line);
    }

    /// A list of at most `most` samples, counted as taken. RRT-Connect's first must not be empty.
    fn list(&mut self, scene: &Scene, most: usize) -> Vec<f64> {
        let count = match self.random.below(20) {
            0 => 0,
            1..7 if self.planner != "prm" => self.random.among(1, 5),
            1..16 => self.random.among(6, 40),
            16..19 => self.random.among(41, 120),
            _ => most,
        };
        let least = (self.planner == "connect" && self.left == MOST_NODES - 1) as usize;
        let count = count.min(scene.patience()).min(most).max(least.min(most));
        self.left -= count.min(self.left);
        flat(&scene.samples(self.random, count))
    }

    /// A list that is refused: a length that is no multiple of 3, or a number out of range.
    fn bad_list(&mut self, scene: &Scene) -> Vec<f64> {
        let count = self.random.among(1, 6);
        let mut list = flat(&scene.samples(self.random, count));
        if self.random.percent(40) {
            list.truncate(list.len() - self.random.among(1, 2));
        } else {
            let place = self.random.below(list.len());
            list[place] = numbers::bad_coordinate(self.random);
        }
        list
    }

    /// The route buffer's length: enough, or sometimes too little.
    fn room(&mut self, needed: usize) -> usize {
        match self.random.below(30) {
            0 => needed - 1,
            1 => self.random.below(needed),
            2..10 => self.random.among(needed, MOST_ROOM),
            _ => needed,
        }
    }

    fn keep_out(&mut self, scene: &Scene) {
        if self.keep_outs < MOST_KEEP_OUTS {
            self.keep_outs += 1;
            let keep_out = keep_outs::touching(self.random, &scene.pool, scene.segment);
            let words = keep_outs::words(self.random, &keep_out);
            self.lines.push(format!("{} keepout {words}", self.planner));
        }
    }

    fn goals(&mut self, scene: &Scene) {
        let start = if self.random.percent(70) { scene.start(self.random) } else { scene.state(self.random) };
        let (centre, radius) = scene.goal(self.random);
        // A goal of one state only is seldom next to the start: then the search has several legs to go.
        let radius = if self.random.percent(60) { 0.0 } else { radius };
        let mut list = flat(&[start, centre]);
        list.push(radius);
        match self.random.below(25) {
            0 => list[6] = numbers::bad_radius(self.random),
            1 => list[self.random.below(6)] = numbers::bad_coordinate(self.random),
            _ => (),
        }
        let words = numbers::words(self.random, &list);
        self.lines.push(format!("prm goals {words}"));
    }

    fn tables(&mut self) {
        self.lines.push(format!("{} tables", self.planner));
    }
}

fn flat(states: &[State]) -> Vec<f64> {
    states.iter().flat_map(|state| state.axes()).collect()
}

/// Samples in a row, one step apart, so that tables fill up to their last entry and routes are as long as they can be.
pub fn chain(random: &mut Random, planner: &str) -> Vec<String> {
    let full = random.percent(50);
    let wide = "-1024 1024 -1024 1024 -1024 1024 10";
    let row = |from: f64, count: usize| {
        let places: Vec<String> = (1..=count).map(|place| format!("{} 0 0", from + place as f64)).collect();
        places.join(" ")
    };
    let tree = if full { MOST_NODES - 1 } else { random.among(1, MOST_NODES - 1) };
    let milestones = if full { MOST_MILESTONES } else { random.among(1, MOST_MILESTONES) };
    let lines = match planner {
        "prm" => vec![
            format!("prm setup {wide} 1.5 0 0 0 {milestones} 0 0 0"),
            format!("prm construct {}", row(0.0, milestones)),
            "prm query 771".to_string(),
        ],
        // Both trees walk toward each other and meet halfway.
        "connect" => vec![
            format!("connect setup {wide} 1 -{tree} 0 0 1000 0 0 0"),
            format!("connect solve 3069 {}", format!("{tree} 0 0 ").repeat(tree + 1)),
        ],
        _ => {
            let search = if planner == "star" { "1.5 " } else { "" };
            let end = tree as f64 - 300.0;
            vec![
                format!("{planner} setup {wide} 1 {search}-300 0 0 {end} 0 0 0"),
                format!("{planner} solve 1536 {}", row(-300.0, tree)),
            ]
        }
    };
    lines.into_iter().chain([format!("{planner} tables")]).collect()
}
