//! A list being written: calls on one bus, each on the state that the last one
//! left, and the lines that they give.

use super::host::{Host, SOUND};
use crate::hex;
use crate::leaves::Bytes;
use crate::machine::Shape;
use crate::record::LOG_LENGTH;

/// A digest follows at the latest after so many calls.
const DIGEST_AFTER: usize = 20;

pub struct List {
    pub host: Host,
    /// Calls so far, digests and paid sound writes apart.
    pub calls: usize,
    text: String,
    since_digest: usize,
}

impl List {
    /// Starts with a fresh bus and the longest log, which no such list fills.
    pub fn new(kind: u8, log: u8, code: u8, colour: bool) -> List {
        List::with_log(Shape { kind, log, code }, colour, LOG_LENGTH as u16)
    }

    /// The same with a log of so many bytes.
    pub fn with_log(shape: Shape, colour: bool, room: u16) -> List {
        let host = Host::new(shape, colour, room);
        let mut input = vec![shape.kind, shape.log, shape.code, colour.into()];
        input.extend(room.to_be_bytes());
        input.extend(host.sound());
        let mut list = List {
            host,
            calls: 0,
            text: String::new(),
            since_digest: 0,
        };
        list.line('N', &input, &[0]);
        list
    }

    /// The lines, ended by a digest.
    pub fn finish(mut self) -> String {
        if self.since_digest > 0 {
            self.digest();
        }
        self.text
    }

    /// Makes a call and writes its line; gives the answer. A GDMA that would
    /// store bytes past 9FFF is made to end there.
    pub fn call(&mut self, letter: char, input: &[u8]) -> Bytes {
        let mut input = input.to_vec();
        match self.host.blocks_past(letter, &input) as u8 {
            0 => (),
            past if letter == 'V' && input[1] == 0x54 => input[2] -= past,
            past => *input.last_mut().unwrap() -= past,
        }
        let answer = self.plain(letter, &input);
        self.calls += 1;
        if matches!(letter, 'W' | 'V') && answer == [1] {
            let sound = self.host.sound();
            self.plain('Y', &sound);
        }
        self.since_digest += 1;
        if self.since_digest >= DIGEST_AFTER {
            self.digest();
        }
        answer
    }

    fn plain(&mut self, letter: char, input: &[u8]) -> Bytes {
        assert!(self.host.allows(letter, input), "{letter} {input:02X?}");
        let answer = self.host.answer(letter, input);
        self.line(letter, input, &answer);
        answer
    }

    fn line(&mut self, letter: char, input: &[u8], output: &[u8]) {
        let (input, output) = (hex::field(input), hex::field(output));
        self.text += &format!("{letter} {input} {output}\n");
    }

    pub fn digest(&mut self) {
        self.plain('Z', &[]);
        self.since_digest = 0;
    }

    pub fn read(&mut self, index: u16) {
        self.call('R', &index.to_be_bytes());
    }

    pub fn write(&mut self, index: u16, value: u8) {
        let [high, low] = index.to_be_bytes();
        self.call('W', &[high, low, value]);
    }

    /// A write, then a read of the same index.
    pub fn both(&mut self, index: u16, value: u8) {
        self.write(index, value);
        self.read(index);
    }

    pub fn read_all(&mut self, indices: &[u16]) {
        for index in indices {
            self.read(*index);
        }
    }

    pub fn write_all(&mut self, writes: &[(u16, u8)]) {
        for (index, value) in writes {
            self.write(*index, *value);
        }
    }

    pub fn read_word(&mut self, index: u16) {
        self.call('M', &index.to_be_bytes());
    }

    pub fn write_word(&mut self, index: u16, word: u16) {
        let mut input = index.to_be_bytes().to_vec();
        input.extend(word.to_be_bytes());
        self.call('V', &input);
    }

    pub fn load(&mut self, index: u16) {
        self.call('O', &index.to_be_bytes());
    }

    pub fn store(&mut self, index: u16, value: u8) {
        let [high, low] = index.to_be_bytes();
        self.call('S', &[high, low, value]);
    }

    pub fn video(&mut self, index: u16, bank: u8) {
        let [high, low] = index.to_be_bytes();
        self.call('B', &[high, low, bank]);
    }

    pub fn timer(&mut self, cycles: u32) {
        self.call('T', &cycles.to_be_bytes());
    }

    /// Screen disabled, scan line, irq48_signal, LCD mode; delay, counter, aux
    /// counter, window line.
    pub fn host(&mut self, bytes: [u8; 4], numbers: [i32; 4]) {
        let mut input = bytes.to_vec();
        for number in numbers {
            input.extend(number.to_be_bytes());
        }
        self.call('j', &input);
    }

    /// HDMA's source and destination as FF51..FF54 take them.
    pub fn addresses(&mut self, source: u16, destination: u16) {
        let ([a, b], [c, d]) = (source.to_be_bytes(), destination.to_be_bytes());
        self.write_all(&[(0xFF51, a), (0xFF52, b), (0xFF53, c), (0xFF54, d)]);
    }

    /// FF55, and the digest of what it did.
    pub fn transfer(&mut self, value: u8) {
        self.write(0xFF55, value);
        self.digest();
    }

    pub fn is_sound(index: u16) -> bool {
        SOUND.contains(&index)
    }
}
