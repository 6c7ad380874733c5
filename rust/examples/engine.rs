//! An engine's loop on the bus, which can be killed at any moment and loses no save byte:
//!
//!     cargo run --example engine FOLDER FRAMES
//!
//! It brings FOLDER/hero.sav up to date from FOLDER/hero.journal, however the session before ended, and plays so many frames of a made-up game. Each line
//! that it prints says how many of the game's save writes are safe. tests/engine.rs cuts its journal at every byte.

use pouchrattle::{mmu, recover_journal, recover_old_journal, Button, Cartridge, Controller, Interrupt, Journal, MbcType, Memory, Refusal, Timer};
use std::error::Error;
use std::fs::{self, File};
use std::io::{ErrorKind, Write};
use std::path::Path;

type Outcome<T> = Result<T, Box<dyn Error>>;

/// The game's save write i: address and value. A pass goes once over the save; no value is that of an empty save, 0, and each of 255 passes has another.
pub fn game(i: usize) -> (u16, u8) {
    let at = i * 3001 % 8192;
    (at as u16, (1 + (i / 8192 + at) % 255) as u8)
}

struct Engine<W> {
    memory: Memory,
    timer: Timer,
    controller: Controller,
    journal: Journal<W>,
    saved: usize,
}

impl<W: Write> Engine<W> {
    /// A write of the game's. A full log is kept, and the write made again; what is owed goes to the sound part, here a window that holds what is written.
    fn write(&mut self, index: u16, value: u8) -> Outcome<()> {
        let written = match self.memory.write_byte(index, value) {
            Err(Refusal::NoRoom) => {
                self.journal.keep(&mut self.memory)?;
                self.memory.write_byte(index, value)?
            }
            other => other?,
        };
        if written.owes_sound {
            self.memory.sound_mut()[usize::from(index - 0xFF10)] = value;
        }
        Ok(())
    }

    /// What the game does while a line is drawn.
    fn line(&mut self, line: u8) -> Outcome<()> {
        let place = u16::from(line);
        let seen = self.memory.read_byte(0xC000 + place);
        self.write(0xC000 + place, seen.wrapping_add(line))?;
        self.write(0x9800 + place, seen)?;
        self.write(0xFF24, line)?;
        if line & 7 == 0 {
            let (at, value) = game(self.saved);
            self.write(0xA000 + at, value)?;
            self.saved += 1;
        }
        Ok(())
    }

    /// What the game does for an interrupt.
    fn serve(&mut self, interrupt: Interrupt) -> Outcome<()> {
        self.memory.remove_interrupt(interrupt);
        match interrupt {
            Interrupt::Vblank => self.write(0xFF46, 0xC0), // its sprites stand at C000
            Interrupt::Joypad => self.write(0xDFFF, self.memory.read_byte(mmu::JOYPAD_INDEX)),
            _ => Ok(()),
        }
    }

    fn frame(&mut self) -> Outcome<()> {
        for line in 0..154 {
            self.memory.set_scan_line(line);
            self.memory.compare_ly_to_lyc();
            if line == 144 {
                self.memory.request_interrupt(Interrupt::Vblank);
                self.controller.update(&mut self.memory);
            }
            self.line(line)?;
            self.timer.update(456, &mut self.memory)?;
            while let Some(interrupt) = self.memory.get_interrupts() {
                self.serve(interrupt)?;
            }
        }
        // From here on, what the game has saved outlives this process.
        self.journal.keep(&mut self.memory)?;
        Ok(())
    }
}

/// Replaces a file as a whole: a session that ends in between leaves the old one or the new one.
fn replace(folder: &Path, name: &str, bytes: &[u8]) -> Outcome<()> {
    let beside = folder.join(format!("{name}.new"));
    let mut file = File::create(&beside)?;
    file.write_all(bytes)?;
    file.sync_all()?;
    fs::rename(&beside, folder.join(name))?;
    Ok(File::open(folder)?.sync_all()?)
}

/// A file's bytes, if it is there.
fn read(path: &Path) -> Outcome<Option<Vec<u8>>> {
    match fs::read(path) {
        Err(error) if error.kind() == ErrorKind::NotFound => Ok(None),
        other => Ok(Some(other?)),
    }
}

/// The save as the session before left it, which may have been one of a version before 3.0. Only when the save's file holds all of the journal is that removed;
/// played over the new file, it changes nothing.
fn take_up(folder: &Path, cartridge: &Cartridge) -> Outcome<Vec<u8>> {
    let journal = folder.join("hero.journal");
    let mut save = match read(&folder.join("hero.sav"))? {
        Some(file) => cartridge.save_from_gameboy_core(&file)?.to_vec(),
        None => vec![0; cartridge.save_len()],
    };
    let bytes = read(&journal)?.unwrap_or_default();
    match recover_journal(&mut save, &bytes) {
        Err(Refusal::Unmarked) => recover_old_journal(&mut save, &bytes)?,
        other => other?,
    };
    replace(folder, "hero.sav", &save)?;
    if journal.exists() {
        fs::remove_file(&journal)?;
    }
    Ok(save)
}

/// How many save writes the game has made, as the save shows it: its first byte tells the pass, and in it the writes are counted.
fn place(save: &[u8]) -> usize {
    let Some(pass) = usize::from(save[0]).checked_sub(1) else { return 0 };
    let made = |i: &usize| save[usize::from(game(*i).0)] == game(*i).1;
    pass * 8192 + (pass * 8192..(pass + 1) * 8192).take_while(made).count()
}

/// Plays so many frames, and gives how many save writes the game has made, with those of the sessions before. The mapper is one that enables RAM.
pub fn play(folder: &Path, mbc_type: MbcType, frames: usize) -> Outcome<usize> {
    let cartridge = Cartridge { rom: vec![0; 32768], mbc_type, ram_size: 2 };
    let save = take_up(folder, &cartridge)?;
    let saved = place(&save);
    let mut engine = Engine {
        // A short log, so that it is cleared often.
        memory: Memory::with_log(cartridge, true, &save, 96)?,
        timer: Timer::new(),
        controller: Controller::new(),
        journal: Journal::open(folder.join("hero.journal"))?,
        saved,
    };
    engine.write(0x0000, 0x0A)?;
    engine.write(mmu::INTERRUPT_ENABLE_INDEX, 0x1F)?;
    engine.write(mmu::TIMER_CONTROL_INDEX, 0x05)?;
    engine.controller.press(Button::Start);
    for _ in 0..frames {
        engine.frame()?;
        println!("{}", engine.saved);
    }
    engine.journal.sync()?;
    Ok(engine.saved)
}

#[allow(dead_code)]
fn main() -> Outcome<()> {
    let words: Vec<String> = std::env::args().collect();
    let [_, folder, frames] = &words[..] else {
        return Err("usage: engine FOLDER FRAMES".into());
    };
    play(Path::new(folder), MbcType::Mbc1, frames.parse()?)?;
    Ok(())
}
