//! Times our calls and the Rust's side by side, and counts their instructions.
//!
//!     bench                      the table
//!     bench CASE SIDE TURNS      one case by its number, on side 0 (ours) or 1 (theirs); what the counting runs

mod cases;

use std::env;
use std::process::Command;
use std::time::Instant;

use bench::marks::{count_from, count_to};
use bench::sides::{agree, Ours, Theirs};
use cases::{Case, CASES};

const ROUNDS: usize = 101;
const ROUND_NANOSECONDS: u128 = 1_000_000;

fn main() {
    let arguments: Vec<u32> = env::args().skip(1).map(|word| word.parse().expect("a number")).collect();
    match arguments[..] {
        [] => table(),
        [case, 0, turns] => one(CASES[case as usize].ours, Ours::new(), turns),
        [case, 1, turns] => one(CASES[case as usize].theirs, Theirs::new(), turns),
        _ => panic!("bench [CASE SIDE TURNS]"),
    }
}

fn one<Side>(run: fn(&mut Side, u32), mut side: Side, turns: u32) {
    count_from();
    run(&mut side, turns);
    count_to();
}

fn table() {
    println!("| a call | ns, ours | ns, the Rust | ratio | instructions, ours | instructions, the Rust | ratio |");
    println!("|---|---|---|---|---|---|---|");
    for (number, case) in CASES.iter().enumerate() {
        let (ours, theirs) = times(case);
        print!("| {} | {ours:.1} | {theirs:.1} | {:.1} |", case.name, ours / theirs);
        match (count(number, 0, case.turns), count(number, 1, case.turns)) {
            (Some(ours), Some(theirs)) => println!(" {ours:.0} | {theirs:.0} | {:.1} |", ours / theirs),
            _ => println!(" | | |"),
        }
    }
}

/// Nanoseconds a call on each side: the least of rounds that take turns, as other work on the machine only ever adds to one.
fn times(case: &Case) -> (f64, f64) {
    let (mut ours, mut theirs) = (Ours::new(), Theirs::new());
    (case.ours)(&mut ours, 3);
    (case.theirs)(&mut theirs, 3);
    assert!(agree(&ours, &theirs), "{}: the sides differ", case.name);

    let our_turns = turns(|turns| (case.ours)(&mut ours, turns));
    let their_turns = turns(|turns| (case.theirs)(&mut theirs, turns));
    let (mut our_least, mut their_least) = (f64::INFINITY, f64::INFINITY);
    for _ in 0..ROUNDS {
        our_least = our_least.min(nanoseconds(|| (case.ours)(&mut ours, our_turns)) as f64 / f64::from(our_turns));
        their_least = their_least.min(nanoseconds(|| (case.theirs)(&mut theirs, their_turns)) as f64 / f64::from(their_turns));
    }
    (our_least, their_least)
}

/// How many turns make a round.
fn turns(mut run: impl FnMut(u32)) -> u32 {
    let mut turns = 1;
    while nanoseconds(|| run(turns)) < ROUND_NANOSECONDS {
        turns *= 2;
    }
    turns
}

fn nanoseconds(run: impl FnOnce()) -> u128 {
    let start = Instant::now();
    run();
    start.elapsed().as_nanos()
}

/// Instructions a call, by valgrind if it is here: what twice as many turns take more.
fn count(case: usize, side: u32, turns: u32) -> Option<f64> {
    let once = collected(case, side, turns)?;
    let twice = collected(case, side, 2 * turns)?;
    Some((twice - once) / f64::from(turns))
}

fn collected(case: usize, side: u32, turns: u32) -> Option<f64> {
    let output = Command::new("valgrind")
        .args(["--tool=callgrind", "--callgrind-out-file=/dev/null"])
        .arg(env::current_exe().ok()?)
        .args([case.to_string(), side.to_string(), turns.to_string()])
        .output()
        .ok()?;
    let said = String::from_utf8(output.stderr).ok()?;
    said.lines().find_map(|line| line.split_once("Collected : ")?.1.trim().parse().ok())
}
