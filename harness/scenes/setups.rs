//! Setup lines: accepted ones of a scene, and ones that document 01 refuses.

use super::keep_outs;
use super::numbers;
use super::random::Random;
use super::scene::Scene;

/// The numbers of a setup in their order; each planner takes its own share of the lengths.
fn setup_numbers(planner: &str, scene: &Scene) -> Vec<f64> {
    let mut numbers = scene.limits.to_vec();
    numbers.push(scene.segment);
    if planner == "mount" {
        return numbers;
    }
    numbers.push(scene.reach);
    if planner == "star" {
        numbers.push(scene.search);
    }
    numbers.extend(scene.start.axes());
    numbers.extend(scene.centre.axes());
    numbers.push(scene.radius);
    numbers
}

pub fn good(random: &mut Random, planner: &str, scene: &Scene) -> String {
    let numbers = setup_numbers(planner, scene);
    line(random, planner, &numbers, scene)
}

fn line(random: &mut Random, planner: &str, numbers: &[f64], scene: &Scene) -> String {
    let mut line = format!("{planner} setup {}", numbers::words(random, numbers));
    for keep_out in &scene.keep_outs {
        line += &format!(" {}", keep_outs::words(random, keep_out));
    }
    line
}

/// A setup with one fault.
pub fn bad(random: &mut Random, planner: &str, scene: &Scene) -> String {
    let mut numbers = setup_numbers(planner, scene);
    match random.below(6) {
        0 => return line(random, planner, &numbers, scene) + " " + &keep_outs::bad_words(random),
        1 => {
            return line(random, planner, &numbers, scene)
                + &" floor -1024".repeat(random.among(33, 40) - scene.keep_outs.len());
        }
        2 => {
            let axis = 2 * random.below(3);
            numbers[axis] = random.pick(&[1024.0, 5.0]);
            numbers[axis + 1] = random.pick(&[5f64.next_down(), -1024.0]);
        }
        _ => {
            let place = random.below(numbers.len());
            numbers[place] = bad_number(random, planner, place, numbers.len());
        }
    }
    line(random, planner, &numbers, scene)
}

fn bad_number(random: &mut Random, planner: &str, place: usize, count: usize) -> f64 {
    let lengths = match planner {
        "mount" => 6..7,
        "star" => 6..9,
        _ => 6..8,
    };
    if lengths.contains(&place) {
        numbers::bad_length(random)
    } else if place == count - 1 {
        numbers::bad_radius(random)
    } else {
        numbers::bad_coordinate(random)
    }
}
