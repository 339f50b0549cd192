//! fuzz PROGRAM N SEED [FOLDER]: N random and damaged scripts through `replay`. Each must end by itself, with answers or with `? line K`, and
//! a call may write nothing in a route buffer that it should have kept. At the first that does not, its script is written and the run ends
//! with 1. Scripts and what was written for them are left in the folder, if one is named.

mod damage;
mod scenes;

use scenes::random::Random;
use scenes::script;
use std::io::{Read, Write};
use std::process::{Command, Stdio};
use std::time::{Duration, Instant};

const KINDS: [&str; 6] = ["mount", "rrt", "connect", "star", "prm", "all"];

/// No script of these takes a hundredth of it.
const PATIENCE: Duration = Duration::from_secs(60);

fn main() {
    let words: Vec<String> = std::env::args().skip(1).collect();
    let [program, count, seed, folder @ ..] = &words[..] else { usage() };
    let (Ok(count), Ok(seed)) = (count.parse::<u64>(), seed.parse::<u64>()) else { usage() };
    let mut stopped = 0;
    for index in 0..count {
        let mut random = Random::new(seed.wrapping_mul(1_000_003).wrapping_add(index));
        let kind = random.pick(&KINDS);
        let script = script::made(&mut random, kind).expect("a kind of script");
        let script = damage::damaged(&mut random, script.into_bytes());
        match judged(program, &script) {
            Ok((text, at_a_line)) => {
                stopped += at_a_line as u64;
                if let [folder] = folder {
                    std::fs::write(format!("{folder}/{index}.in"), &script).expect("a folder");
                    std::fs::write(format!("{folder}/{index}.out"), &text).expect("a folder");
                }
            }
            Err(fault) => {
                println!("fuzz: script {}: {fault}", index + 1);
                std::fs::write("target/harness/faulty", &script).expect("the script is written");
                println!("fuzz: the script is target/harness/faulty");
                std::process::exit(1)
            }
        }
    }
    println!("{count} scripts, each ended as it should: {stopped} at a line that is no call");
}

fn usage() -> ! {
    eprintln!("usage: fuzz PROGRAM N SEED [FOLDER]");
    std::process::exit(2)
}

/// What the program wrote and whether it stopped at a line, or what was wrong with what it did.
fn judged(program: &str, script: &[u8]) -> Result<(Vec<u8>, bool), String> {
    let mut child = Command::new(program).stdin(Stdio::piped()).stdout(Stdio::piped()).spawn().map_err(|e| e.to_string())?;
    let mut input = child.stdin.take().expect("a pipe");
    let mut output = child.stdout.take().expect("a pipe");
    let script = script.to_vec();
    // A program that stopped at a line reads no further: that the rest cannot be written is no fault.
    let writer = std::thread::spawn(move || drop(input.write_all(&script)));
    let reader = std::thread::spawn(move || {
        let mut text = Vec::new();
        output.read_to_end(&mut text).map(|_| text)
    });
    let began = Instant::now();
    let status = loop {
        if let Some(status) = child.try_wait().map_err(|e| e.to_string())? {
            break status;
        }
        if began.elapsed() > PATIENCE {
            child.kill().map_err(|e| e.to_string())?;
            return Err("it does not end".into());
        }
        std::thread::sleep(Duration::from_micros(200));
    };
    writer.join().map_err(|_| "writing failed")?;
    let text = reader.join().map_err(|_| "reading failed")?.map_err(|e| e.to_string())?;
    if !status.success() {
        return Err(format!("it ended with {status}"));
    }
    let at_a_line = told(&text)?;
    Ok((text, at_a_line))
}

/// Whether the text ends in `? line K`; each of its lines must be one that `replay` writes.
fn told(text: &[u8]) -> Result<bool, String> {
    let text = std::str::from_utf8(text).map_err(|_| "it wrote what is no text")?;
    if !text.is_empty() && !text.ends_with('\n') {
        return Err("its last line has no end".into());
    }
    let mut stopped = false;
    for line in text.lines() {
        if stopped {
            return Err("it went on behind a line that is no call".into());
        }
        match line.split(' ').next() {
            Some("=") => answered(line)?,
            Some("" | "tree" | "start" | "goal" | "roadmap") => {}
            Some("?") if line.strip_prefix("? line ").is_some_and(|k| k.parse::<u64>().is_ok_and(|k| 0 < k)) => stopped = true,
            _ => return Err(format!("it wrote `{line}`")),
        }
    }
    Ok(stopped)
}

/// An answer's number is one of document 01's nine.
fn answered(line: &str) -> Result<(), String> {
    let words: Vec<&str> = line.split(' ').collect();
    let numbers: Vec<u64> = words[1..].iter().filter_map(|word| word.parse().ok()).collect();
    match numbers[..] {
        [answer, count, taken] if words.len() == 4 && (8 < answer || 1023 < count || 8192 < taken) => Err(format!("it answered `{line}`")),
        _ => Ok(()),
    }
}
