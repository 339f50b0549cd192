//! Damage to a script: bytes, lines and numbers that no careful caller would send.

use crate::scenes::random::Random;

/// Numbers at the edges of document 01's ranges and of binary64, and far past them.
const NUMBERS: [&str; 24] = [
    "x7ff8000000000000",
    "xfff8000000000001",
    "x7ff0000000000000",
    "xfff0000000000000",
    "x7e37e43c8800759c",
    "xfe37e43c8800759c",
    "x7fefffffffffffff",
    "x0000000000000001",
    "x8000000000000000",
    "x8000000000000001",
    "x3ff0000000000001",
    "x4090000000000001",
    "xc090000000000001",
    "x40b0000000000001",
    "-0",
    "1024",
    "-1024",
    "4096",
    "4097",
    "999999999999999",
    "1000000000000000",
    "0.000000000000001",
    "0.001",
    "18446744073709551616",
];

const WORDS: [&str; 14] =
    ["mount", "rrt", "connect", "star", "prm", "setup", "solve", "construct", "query", "goals", "keepout", "tables", "box", "disc"];

pub fn damaged(random: &mut Random, mut script: Vec<u8>) -> Vec<u8> {
    if random.percent(4) {
        return noise(random);
    }
    for _ in 0..random.pick(&[0, 1, 1, 2, 3, 8]) {
        match random.below(8) {
            0 => flip(random, &mut script),
            1 => drop(script.split_off(random.below(script.len() + 1))),
            2 => insert(random, &mut script),
            3 => lines(random, &mut script),
            4 => word(random, &mut script),
            _ => numbers(random, &mut script),
        }
    }
    script
}

/// Bytes of any kind, or of those that scripts have.
fn noise(random: &mut Random) -> Vec<u8> {
    let length = random.pick(&[0, 1, 17, 400, 5000, 200_000]);
    let plain = random.percent(70);
    (0..length).map(|_| if plain { random.pick(b"0123456789 x.-#\n\tabcdefmountrsvl") } else { random.below(256) as u8 }).collect()
}

fn flip(random: &mut Random, script: &mut [u8]) {
    if !script.is_empty() {
        let at = random.below(script.len());
        script[at] ^= 1 << random.below(8);
    }
}

/// Bytes in between, sometimes more than a line may have.
fn insert(random: &mut Random, script: &mut Vec<u8>) {
    let at = random.below(script.len() + 1);
    let byte = random.pick(&[b'0', b' ', b'9', b'.', b'-', b'\n', 0, 255, b'x', b'#']);
    let length = random.pick(&[1, 1, 2, 16, 40, 70_000]);
    drop(script.splice(at..at, std::iter::repeat_n(byte, length)));
}

/// A line left out, written twice, or put elsewhere.
fn lines(random: &mut Random, script: &mut Vec<u8>) {
    let mut all: Vec<Vec<u8>> = script.split(|byte| *byte == b'\n').map(<[u8]>::to_vec).collect();
    let (from, to) = (random.below(all.len()), random.below(all.len()));
    match random.below(3) {
        0 => drop(all.remove(from)),
        1 => all.insert(to, all[from].clone()),
        _ => all.swap(from, to),
    }
    *script = all.join(&b'\n');
}

/// A word that another row has.
fn word(random: &mut Random, script: &mut Vec<u8>) {
    let other = random.pick(&WORDS);
    replaced(random, script, |old| old.first().is_some_and(u8::is_ascii_lowercase), other.as_bytes());
}

/// One number, or many, that nobody sends.
fn numbers(random: &mut Random, script: &mut Vec<u8>) {
    for _ in 0..random.pick(&[1, 1, 1, 2, 30]) {
        let other = random.pick(&NUMBERS);
        replaced(random, script, |old| old.first().is_some_and(|byte| byte.is_ascii_digit() || *byte == b'-' || *byte == b'x'), other.as_bytes());
    }
}

/// Puts `new` in the place of a word that is chosen, if the script has one.
fn replaced(random: &mut Random, script: &mut Vec<u8>, chosen: impl Fn(&[u8]) -> bool, new: &[u8]) {
    let mut places = Vec::new();
    let mut from = 0;
    for at in 0..=script.len() {
        if at == script.len() || script[at].is_ascii_whitespace() {
            if from < at && chosen(&script[from..at]) {
                places.push(from..at);
            }
            from = at + 1;
        }
    }
    if !places.is_empty() {
        let place = places.swap_remove(random.below(places.len()));
        drop(script.splice(place, new.iter().copied()));
    }
}
