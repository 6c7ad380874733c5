//! Reads lists back and makes every call anew: the text alone must carry all
//! that the answers depend on.

use std::collections::BTreeMap;
use std::fs::File;
use std::io::{self, BufRead, BufReader, Error, Write};

use super::host::Host;
use super::reached::Reached;
use crate::hex;
use crate::machine::Shape;

/// Reports as our program does, and what the lists reach. Fails if a line differs, is
/// of no known form, or is a call that a list must not hold, and where something that
/// lists must reach is not there.
pub fn check(name: &str, out: &mut dyn Write) -> io::Result<()> {
    let mut host = None;
    let mut counts: BTreeMap<char, (usize, usize)> = BTreeMap::new();
    let mut reached = Reached::default();
    for (at, line) in BufReader::new(File::open(name)?).lines().enumerate() {
        let line = line?;
        let wrong = || Error::other(format!("{name}, line {}: no such call: {line}", at + 1));
        let (letter, input, output) = parts(&line).ok_or_else(wrong)?;
        let answer = match (letter, &mut host) {
            ('N', _) => {
                host = Some(fresh(&input).ok_or_else(wrong)?);
                vec![0]
            }
            (_, Some(host)) if host.allows(letter, &input) => {
                reached.look(host, letter, &input);
                host.answer(letter, &input)
            }
            _ => return Err(wrong()),
        };
        let (answers, differ) = counts.entry(letter).or_default();
        *answers += 1;
        *differ += usize::from(answer != output);
    }
    for (letter, (answers, differ)) in &counts {
        writeln!(out, "{letter} {answers} answers, {differ} differ")?;
    }
    if counts.values().any(|(_, differ)| *differ > 0) {
        return Err(Error::other("answers differ"));
    }
    reached.report(out)
}

/// Letter, input, output of a line of the exact form.
fn parts(line: &str) -> Option<(char, Vec<u8>, Vec<u8>)> {
    let words: Vec<&str> = line.split(' ').collect();
    let [letter, input, output] = words[..] else {
        return None;
    };
    let mut letters = letter.chars();
    let (Some(letter), None) = (letters.next(), letters.next()) else {
        return None;
    };
    Some((letter, hex::exact(input)?, hex::exact(output)?))
}

/// The bus that an N line describes, if it is one and its sound window is so.
fn fresh(input: &[u8]) -> Option<Host> {
    let [kind, log, code, colour, high, low, sound @ ..] = input else {
        return None;
    };
    let (kind, log, code) = (*kind, *log, *code);
    let known = super::edges::SHAPES.contains(&(kind, log, code));
    if !known || *colour > 1 {
        return None;
    }
    let room = u16::from_be_bytes([*high, *low]);
    let host = Host::new(Shape { kind, log, code }, *colour == 1, room);
    (host.sound() == sound).then_some(host)
}
