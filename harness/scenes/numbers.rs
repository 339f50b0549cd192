//! Numbers as a script writes them, numbers one step apart, and numbers that document 01 refuses.

use super::random::Random;
use oxmpl::mount::State;

/// A number in one of the forms that a script allows: decimal where at most 15 digits say it, or its bits.
pub fn word(random: &mut Random, number: f64) -> String {
    let mut decimal = format!("{number}");
    if random.percent(10) {
        decimal += if decimal.contains('.') { "0" } else { ".0" };
    }
    let digits = decimal.bytes().filter(u8::is_ascii_digit).count();
    if number.is_finite() && digits <= 15 && random.percent(65) {
        decimal
    } else {
        format!("x{:016x}", number.to_bits())
    }
}

pub fn words(random: &mut Random, numbers: &[f64]) -> String {
    let words: Vec<String> = numbers.iter().map(|&number| word(random, number)).collect();
    words.join(" ")
}

pub fn state(random: &mut Random, state: &State) -> String {
    words(random, &state.axes())
}

/// The number itself, or the one just above or below it.
pub fn nudged(random: &mut Random, number: f64) -> f64 {
    match random.below(4) {
        0 => number.next_up(),
        1 => number.next_down(),
        _ => number,
    }
}

/// No coordinate.
pub fn bad_coordinate(random: &mut Random) -> f64 {
    let edges = [1024f64.next_up(), (-1024f64).next_down(), 1025.0, -1e300];
    match random.below(3) {
        0 => random.pick(&edges),
        _ => not_finite(random),
    }
}

/// No segment length, max_distance, search_radius or connection_radius.
pub fn bad_length(random: &mut Random) -> f64 {
    let edges = [0.001f64.next_down(), 4096f64.next_up(), 0.0, -0.0, -1.0, 5000.0];
    match random.below(3) {
        0 => not_finite(random),
        _ => random.pick(&edges),
    }
}

/// No goal radius and no disc's radius.
pub fn bad_radius(random: &mut Random) -> f64 {
    let edges = [-f64::from_bits(1), -1.0, 4096f64.next_up(), 5000.0];
    match random.below(3) {
        0 => not_finite(random),
        _ => random.pick(&edges),
    }
}

fn not_finite(random: &mut Random) -> f64 {
    random.pick(&[f64::NAN, -f64::NAN, f64::INFINITY, f64::NEG_INFINITY, f64::from_bits(0x7ff0_0000_0000_0001)])
}
