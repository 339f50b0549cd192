//! A random script of calls of one kind.

use super::random::Random;
use super::{leaves, planners};

const PLANNERS: [&str; 4] = ["rrt", "connect", "star", "prm"];

pub fn made(random: &mut Random, kind: &str) -> Option<String> {
    let mut lines = match kind {
        "mount" => leaves::calls(random),
        "keepout" => mixed(random, 0),
        "all" => mixed(random, 50),
        planner if PLANNERS.contains(&planner) => planner_calls(random, planner),
        _ => return None,
    };
    if random.percent(3) {
        break_a_line(random, &mut lines);
    }
    let lines: Vec<String> = lines.iter().map(|line| untidy(random, line)).collect();
    Some(format!("{}{}", lines.join("\n"), if random.percent(90) { "\n" } else { "" }))
}

fn planner_calls(random: &mut Random, planner: &str) -> Vec<String> {
    if random.percent(2) { planners::chain(random, planner) } else { planners::calls(random, planner, false) }
}

/// Calls on several planners in turn, with keep-outs; `leaves` is the chance in a hundred that the mount is among them.
fn mixed(random: &mut Random, leaves: usize) -> Vec<String> {
    let first = random.below(4);
    let count = random.pick(&[1, 1, 2, 3]);
    let mut streams: Vec<_> =
        (first..first + count).map(|turn| planners::calls(random, PLANNERS[turn % 4], true)).collect();
    if random.percent(leaves) {
        streams.push(leaves::calls(random));
    }
    merged(random, streams)
}

/// One line after the other of any stream that has one left.
fn merged(random: &mut Random, streams: Vec<Vec<String>>) -> Vec<String> {
    let mut streams: Vec<_> = streams.into_iter().map(Vec::into_iter).collect();
    let mut lines = Vec::new();
    while !streams.is_empty() {
        let turn = random.below(streams.len());
        match streams[turn].next() {
            Some(line) => lines.push(line),
            None => drop(streams.remove(turn)),
        }
    }
    lines
}

/// Puts a line among the others that is no call; nothing after it may be made.
fn break_a_line(random: &mut Random, lines: &mut Vec<String>) {
    let broken = random.pick(&[
        "rrt",
        "rrt solve",
        "rrt solve 4097 0 0 0",
        "rrt solve -1",
        "prm solve 771",
        "star construct 0 0 0",
        "mount tables",
        "mount valid 0 0",
        "mount valid 0 0 0 0",
        "mount valid 1. 0 0",
        "mount valid .5 0 0",
        "mount valid +1 0 0",
        "mount valid 1e3 0 0",
        "mount valid 0 0 x000000000000000",
        "mount valid 0 0 x00000000000000000",
        "mount valid 0 0 x3FF0000000000000",
        "mount valid 0 0 1234567890.123456",
        "mount valid 0 0 --1",
        "mount valid 0 0 -",
        "rrt keepout",
        "rrt keepout box 0 0 0 1 1",
        "connect keepout disc 1 1 1 1",
        "star keepout floor 0 floor 0",
        "prm keepout ring 0 0 0",
        "prm query",
        "prm query 771 0",
        "mount setup 0 1 0 1 0 1",
        "Mount valid 0 0 0",
        "quit",
    ]);
    let forty_one = "mount setup 0 1 0 1 0 1 10".to_string() + &" floor 0".repeat(41);
    let line = if random.percent(5) { forty_one } else { broken.to_string() };
    lines.insert(random.below(lines.len() + 1), line);
}

/// Sometimes comments, empty lines, tabs and more spaces than are needed.
fn untidy(random: &mut Random, line: &str) -> String {
    match random.below(60) {
        0 => format!("{line} # {line}"),
        1 => format!("# a comment\n\n \t{line}"),
        2 => line.replace(' ', "  \t"),
        3 => format!("{line}# {line}"),
        _ => line.to_string(),
    }
}
