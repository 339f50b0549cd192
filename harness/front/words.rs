//! Reads one line of a script, by the page on call scripts. `None` is a line that is no call.

use oxmpl::mount::{KeepOut, State};

#[derive(Clone, Copy, PartialEq)]
pub enum Which {
    Rrt,
    Connect,
    Star,
    Prm,
}

#[derive(Clone, Copy)]
pub enum Leaf {
    Distance,
    Between,
    Steer,
    Valid,
    Steps,
    Motion,
}

pub enum Call {
    Setup(Which, Vec<f64>, Vec<KeepOut>),
    KeepOut(Which, KeepOut),
    Solve(Which, usize, Vec<f64>),
    Construct(Vec<f64>),
    Goals(Vec<f64>),
    Query(usize),
    Tables(Which),
    MountSetup(Vec<f64>, Vec<KeepOut>),
    Leaf(Leaf, Vec<f64>),
}

const MOST_ROOM: usize = 4096;
const MOST_KEEP_OUTS: usize = 40;
const MOST_NUMBERS: usize = 24_576;
const MOST_DIGITS: usize = 15;

/// The line's words, without its comment.
pub fn words(line: &[u8]) -> Vec<&[u8]> {
    let end = line.iter().position(|&byte| byte == b'#').unwrap_or(line.len());
    line[..end].split(|&byte| byte == b' ' || byte == b'\t').filter(|word| !word.is_empty()).collect()
}

pub fn call(words: &[&[u8]]) -> Option<Call> {
    let mut line = Line { words, numbers: 0 };
    let name = line.word()?;
    let verb = line.word()?;
    let call = match name {
        b"mount" => mount_call(verb, &mut line),
        _ => planner_call(planner(name)?, verb, &mut line),
    }?;
    let whole = line.words.is_empty() && line.numbers <= MOST_NUMBERS;
    whole.then_some(call)
}

fn planner(name: &[u8]) -> Option<Which> {
    match name {
        b"rrt" => Some(Which::Rrt),
        b"connect" => Some(Which::Connect),
        b"star" => Some(Which::Star),
        b"prm" => Some(Which::Prm),
        _ => None,
    }
}

fn planner_call(planner: Which, verb: &[u8], line: &mut Line) -> Option<Call> {
    let roadmap = planner == Which::Prm;
    Some(match verb {
        b"setup" => {
            let lengths = if planner == Which::Star { 3 } else { 2 };
            Call::Setup(planner, line.some_numbers(6 + lengths + 7)?, line.keep_outs()?)
        }
        b"keepout" => Call::KeepOut(planner, line.keep_out()?),
        b"tables" => Call::Tables(planner),
        b"solve" if !roadmap => Call::Solve(planner, line.room()?, line.all_numbers()?),
        b"construct" if roadmap => Call::Construct(line.all_numbers()?),
        b"goals" if roadmap => Call::Goals(line.some_numbers(7)?),
        b"query" if roadmap => Call::Query(line.room()?),
        _ => return None,
    })
}

fn mount_call(verb: &[u8], line: &mut Line) -> Option<Call> {
    let (leaf, count) = match verb {
        b"setup" => return Some(Call::MountSetup(line.some_numbers(7)?, line.keep_outs()?)),
        b"distance" => (Leaf::Distance, 6),
        b"between" => (Leaf::Between, 7),
        b"steer" => (Leaf::Steer, 7),
        b"valid" => (Leaf::Valid, 3),
        b"steps" => (Leaf::Steps, 6),
        b"motion" => (Leaf::Motion, 6),
        _ => return None,
    };
    Some(Call::Leaf(leaf, line.some_numbers(count)?))
}

/// What is left of a line, and how many numbers were read from it.
struct Line<'a> {
    words: &'a [&'a [u8]],
    numbers: usize,
}

impl<'a> Line<'a> {
    fn word(&mut self) -> Option<&'a [u8]> {
        let (first, rest) = self.words.split_first()?;
        self.words = rest;
        Some(first)
    }

    fn some_numbers(&mut self, count: usize) -> Option<Vec<f64>> {
        self.numbers += count;
        (0..count).map(|_| number(self.word()?)).collect()
    }

    fn all_numbers(&mut self) -> Option<Vec<f64>> {
        self.some_numbers(self.words.len())
    }

    fn room(&mut self) -> Option<usize> {
        let word = self.word()?;
        let digits = !word.is_empty() && word.iter().all(u8::is_ascii_digit);
        let room = std::str::from_utf8(word).ok()?.parse().ok()?;
        (digits && room <= MOST_ROOM).then_some(room)
    }

    fn keep_out(&mut self) -> Option<KeepOut> {
        Some(match self.word()? {
            b"box" => {
                let numbers = self.some_numbers(6)?;
                KeepOut::Box { low: State::new(&numbers), high: State::new(&numbers[3..]) }
            }
            b"disc" => {
                let numbers = self.some_numbers(3)?;
                KeepOut::Disc { azimuth: numbers[0], elevation: numbers[1], radius: numbers[2] }
            }
            b"floor" => KeepOut::Floor { elevation: self.some_numbers(1)?[0] },
            _ => return None,
        })
    }

    fn keep_outs(&mut self) -> Option<Vec<KeepOut>> {
        let mut keep_outs = Vec::new();
        while !self.words.is_empty() {
            keep_outs.push(self.keep_out()?);
        }
        (keep_outs.len() <= MOST_KEEP_OUTS).then_some(keep_outs)
    }
}

fn number(word: &[u8]) -> Option<f64> {
    match word.strip_prefix(b"x") {
        Some(digits) => bits(digits),
        None => decimal(word),
    }
}

fn bits(digits: &[u8]) -> Option<f64> {
    let lower_case = digits.iter().all(|digit| matches!(digit, b'0'..=b'9' | b'a'..=b'f'));
    if digits.len() != 16 || !lower_case {
        return None;
    }
    let bits = u64::from_str_radix(std::str::from_utf8(digits).ok()?, 16).ok()?;
    Some(f64::from_bits(bits))
}

fn decimal(word: &[u8]) -> Option<f64> {
    let unsigned = word.strip_prefix(b"-").unwrap_or(word);
    let parts: Vec<&[u8]> = unsigned.split(|&byte| byte == b'.').collect();
    let digits: usize = parts.iter().map(|part| part.len()).sum();
    let well_formed = parts.len() <= 2
        && parts.iter().all(|part| !part.is_empty() && part.iter().all(u8::is_ascii_digit))
        && digits <= MOST_DIGITS;
    if !well_formed {
        return None;
    }
    std::str::from_utf8(word).ok()?.parse().ok()
}
