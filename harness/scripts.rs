//! scripts SEED KIND: writes one random script of calls. KIND is mount, rrt, connect, star or prm; keepout for the planners with
//! keep-outs added on the way; all for a mix. Every script stays inside the domain that document 01 compares with the Rust.

mod scenes;

use scenes::random::Random;
use scenes::script;

fn main() {
    let words: Vec<String> = std::env::args().skip(1).collect();
    let [seed, kind] = &words[..] else { usage() };
    let Ok(seed) = seed.parse() else { usage() };
    let Some(script) = script::made(&mut Random::new(seed), kind) else { usage() };
    print!("{script}");
}

fn usage() -> ! {
    eprintln!("usage: scripts SEED mount|rrt|connect|star|prm|keepout|all");
    std::process::exit(2)
}
