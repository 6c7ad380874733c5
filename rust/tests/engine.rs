//! The example's engine, killed: its journal as a kill at each byte would leave it, and the session taken up again.

#[path = "../examples/engine.rs"]
mod engine;

use engine::{game, play};
use pouchrattle::{MbcType, JOURNAL_MARK, RECORD_LEN};
use std::fs;
use std::path::PathBuf;

/// A folder of its own for each test.
fn folder(name: &str) -> PathBuf {
    let path = std::env::temp_dir().join(format!("pouchrattle-engine-{name}-{}", std::process::id()));
    let _ = fs::remove_dir_all(&path);
    fs::create_dir(&path).unwrap();
    path
}

/// The save after so many of the game's save writes.
fn save(writes: usize) -> Vec<u8> {
    let mut save = vec![0; 8192];
    (0..writes).map(game).for_each(|(at, value)| save[usize::from(at)] = value);
    save
}

/// The mappers that enable RAM, and what gameboy_core keeps for them.
const MAPPERS: [(MbcType, usize); 2] = [(MbcType::Mbc1, 32768), (MbcType::Mbc5, 131_072)];

#[test]
fn killed_at_every_byte() {
    for (mbc_type, _) in MAPPERS {
        let folder = folder("killed");
        assert_eq!(play(&folder, mbc_type, 1).unwrap(), 20);
        let (before, journal) = (fs::read(folder.join("hero.sav")).unwrap(), fs::read(folder.join("hero.journal")).unwrap());
        assert!(before == save(0) && journal.len() == JOURNAL_MARK.len() + 20 * RECORD_LEN);
        for cut in 0..=journal.len() {
            fs::write(folder.join("hero.sav"), &before).unwrap();
            fs::write(folder.join("hero.journal"), &journal[..cut]).unwrap();
            let whole = cut.saturating_sub(JOURNAL_MARK.len()) / RECORD_LEN;
            assert_eq!(play(&folder, mbc_type, 0).unwrap(), whole);
            assert!(fs::read(folder.join("hero.sav")).unwrap() == save(whole), "{cut}");
            // Killed between the save's file and the journal's: the journal is there still.
            fs::write(folder.join("hero.journal"), &journal[..cut]).unwrap();
            assert_eq!(play(&folder, mbc_type, 1).unwrap(), whole + 20);
            assert_eq!(play(&folder, mbc_type, 0).unwrap(), whole + 20);
            assert!(fs::read(folder.join("hero.sav")).unwrap() == save(whole + 20), "{cut}");
        }
        fs::remove_dir_all(&folder).unwrap();
    }
}

/// A version before 3.0 was killed, at each byte: its records have three bytes, and no mark is before them. The session goes on with a journal of its own.
#[test]
fn goes_on_from_an_older_version() {
    let folder = folder("older");
    let journal: Vec<u8> = (0..20).map(game).flat_map(|(at, value)| [0x80 | (at >> 8) as u8, at as u8, value]).collect();
    for cut in 0..=journal.len() {
        fs::write(folder.join("hero.sav"), save(0)).unwrap();
        // Killed between the save's file and the journal's: the journal is there still.
        for _ in 0..2 {
            fs::write(folder.join("hero.journal"), &journal[..cut]).unwrap();
            assert_eq!(play(&folder, MbcType::Mbc1, 0).unwrap(), cut / 3);
            assert!(fs::read(folder.join("hero.sav")).unwrap() == save(cut / 3), "{cut}");
        }
        assert_eq!(play(&folder, MbcType::Mbc1, 1).unwrap(), cut / 3 + 20);
        assert!(fs::read(folder.join("hero.journal")).unwrap().starts_with(&JOURNAL_MARK));
        assert_eq!(play(&folder, MbcType::Mbc1, 0).unwrap(), cut / 3 + 20);
        assert!(fs::read(folder.join("hero.sav")).unwrap() == save(cut / 3 + 20), "{cut}");
    }
    fs::remove_dir_all(&folder).unwrap();
}

#[test]
fn goes_on_in_any_pass() {
    let folder = folder("passes");
    for (mbc_type, _) in MAPPERS {
        for writes in [1, 8191, 8192, 8193, 3 * 8192 + 100, 255 * 8192] {
            fs::write(folder.join("hero.sav"), save(writes)).unwrap();
            assert_eq!(play(&folder, mbc_type, 0).unwrap(), writes);
        }
    }
    fs::remove_dir_all(&folder).unwrap();
}

#[test]
fn refused_with_words() {
    for (mbc_type, len) in MAPPERS {
        let folder = folder("refused");
        // A damaged journal, of this version and of one before 3.0: nothing is touched.
        fs::write(folder.join("hero.sav"), save(7)).unwrap();
        let journal = [JOURNAL_MARK, [0x80, 0x00, 0x00, 0x40], [0x7F, 0x00, 0x00, 0x40]].concat();
        for (journal, words) in [(&journal[..], "record 1 is damaged: 7F 00 00 40"), (&[0x80, 0x00, 0x01, 0x7F, 0x00, 0x01], "record 1 is damaged: 7F 00 01")] {
            fs::write(folder.join("hero.journal"), journal).unwrap();
            assert_eq!(play(&folder, mbc_type, 1).unwrap_err().to_string(), words);
            assert!(fs::read(folder.join("hero.sav")).unwrap() == save(7) && fs::read(folder.join("hero.journal")).unwrap() == journal);
        }
        fs::remove_file(folder.join("hero.journal")).unwrap();
        // A save that gameboy_core kept is cut; one of another cartridge is not.
        let mut kept = save(7);
        kept.resize(len, 0xFF);
        fs::write(folder.join("hero.sav"), &kept).unwrap();
        assert_eq!(play(&folder, mbc_type, 0).unwrap(), 7);
        assert!(fs::read(folder.join("hero.sav")).unwrap() == save(7));
        kept[9000] = 1;
        fs::write(folder.join("hero.sav"), &kept).unwrap();
        let words = "this is a save of another cartridge: byte 9,000 is 01, which this one does not reach";
        assert_eq!(play(&folder, mbc_type, 0).unwrap_err().to_string(), words);
        fs::write(folder.join("hero.sav"), []).unwrap();
        assert_eq!(play(&folder, mbc_type, 0).unwrap_err().to_string(), "the save has 0 bytes, and must have 8,192");
        fs::remove_dir_all(&folder).unwrap();
    }
}
