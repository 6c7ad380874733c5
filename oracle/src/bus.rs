//! Lists of calls on a whole bus. Each starts with a fresh bus (letter N) and
//! goes on from the state that the last call left.

mod check;
mod corners;
mod digest;
mod drawn;
mod edges;
mod excepted;
mod host;
mod list;
mod reached;

use std::io::{self, Write};

pub use check::check;

use self::edges::Size;
use crate::random::Random;

const RECORDED_SEED: u64 = 33;
const RECORDED_LISTS: usize = 6;

/// Corners, all edges and `count` random lists.
pub fn print(seed: u64, count: usize, out: &mut dyn Write) -> io::Result<()> {
    lists(Size::Whole, seed, count, out)
}

/// Corners, most edges and some random lists.
pub fn record(out: &mut dyn Write) -> io::Result<()> {
    lists(Size::Recorded, RECORDED_SEED, RECORDED_LISTS, out)
}

fn lists(size: Size, seed: u64, count: usize, out: &mut dyn Write) -> io::Result<()> {
    for list in corners::lists()? {
        out.write_all(list.as_bytes())?;
    }
    for list in edges::lists(size) {
        out.write_all(list.as_bytes())?;
    }
    let mut random = Random::new(seed, 'N');
    for _ in 0..count {
        out.write_all(drawn::list(&mut random).as_bytes())?;
    }
    Ok(())
}
