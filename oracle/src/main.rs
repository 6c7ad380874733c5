//! Prints the Rust's answers, one a line (README.md has the forms).
//!
//!     oracle leaves SEED COUNT   corners, edges, then COUNT random inputs a letter
//!     oracle bus SEED COUNT      corners, edges, then COUNT random lists of calls
//!     oracle timer               the timer's dense list; on standard error what it reaches
//!     oracle record leaves|bus   the sample that crates/replay/stdin, crates/replay_bus/stdin holds
//!     oracle check FILE          makes the calls of such lists anew and compares
//!
//! A further list is a further module beside `leaves` and `bus`.

mod bus;
mod corners;
mod hex;
mod leaves;
mod machine;
mod random;
mod record;
mod unseen;

use std::io::{self, BufWriter, Write};
use std::process::ExitCode;

const USAGE: &str =
    "usage: oracle leaves|bus SEED COUNT | oracle timer | oracle record leaves|bus | oracle check FILE";

fn main() -> ExitCode {
    let arguments: Vec<String> = std::env::args().skip(1).collect();
    let words: Vec<&str> = arguments.iter().map(String::as_str).collect();
    let mut out = BufWriter::new(io::stdout().lock());
    let done = match words[..] {
        [list @ ("leaves" | "bus"), seed, count] => match (seed.parse(), count.parse()) {
            (Ok(seed), Ok(count)) if list == "bus" => bus::print(seed, count, &mut out),
            (Ok(seed), Ok(count)) => leaves::print(seed, count, &mut out),
            _ => return usage(),
        },
        ["timer"] => leaves::timer::dense::print(&mut out, &mut io::stderr()),
        ["record", "leaves"] => leaves::record(&mut out),
        ["record", "bus"] => bus::record(&mut out),
        ["check", name] => bus::check(name, &mut out),
        _ => return usage(),
    };
    match done.and_then(|()| out.flush()) {
        Ok(()) => ExitCode::SUCCESS,
        Err(error) => {
            eprintln!("oracle: {error}");
            ExitCode::FAILURE
        }
    }
}

fn usage() -> ExitCode {
    eprintln!("{USAGE}");
    ExitCode::from(2)
}
