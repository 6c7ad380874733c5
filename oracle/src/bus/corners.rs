//! Corners on a whole bus, with the answers that we expect, by hand from
//! document 01 ("Corners that decide" and the rules), for Mbc5, RAM code 4 and the
//! record from document 02. If the Rust gives another, no list is printed. An N here
//! leaves the sound window out, and the log's length where it is the longest.
//!
//! Not here: corner 9 with RAM enabled (there the Rust is not to be followed).
//! Corner 12 shows in the digest of the memories alone; `record_bytes` says it
//! by itself.

use std::io::{self, Error};

use super::list::List;
use crate::hex;
use crate::leaves;
use crate::machine::Shape;

/// One list each, lines parted by semicolons.
const CORNERS: [&str; 55] = [
    // 1. Fresh: FF44 reads 90, FF00 reads C0.
    "N 00010000; R FF44 90; R FF00 C0; O FF00 CF; A - 01; E - 01",
    "N 00010001; R FF44 90; R FF00 C0; O FF00 CF; R FF04 44; R FF02 7C",
    // 2. Cycles and DIV; a write of FF04 leaves div_cycles.
    "N 00010000; T 000000FF 00; R FF04 D3",
    "N 00010000; T 00000100 00; R FF04 D4",
    "N 00010000; T 00002D00 00; R FF04 00",
    "N 00010000; T 000000FF 00; W FF0499 00; R FF04 00; T 00000001 00; R FF04 01",
    // 3. TIMA's overflow.
    "N 00010000; W FF0705 00; W FF06F0 00; W FF05FF 00; T 0000000F 00; R FF05 FF; R FF0F E1",
    "N 00010000; W FF0705 00; W FF06F0 00; W FF05FF 00; T 00000010 00; R FF05 F0; R FF0F E5",
    "N 00010000; W FF0705 00; W FF06F0 00; W FF05FF 00; T 00000110 00; R FF05 F0; R FF0F E5",
    // An update by nothing can step.
    "N 00010000; W FF0704 00; T 000003E8 00; W FF0705 00; T 00000000 00; R FF05 3E",
    // 4. OAM DMA: 7F copies, 80 copies, DF copies, E0 none; FF46 keeps the page.
    // (What is copied from ROM is document 02's, and excepted: excepted.rs.)
    "N 00010000; W FEA078 00; W FF467F 00; R FE00 84; R FE9F 23; R FEA0 78; R FF46 7F",
    // Page 40 is the selected bank's first, whichever way the transfer comes.
    "N 01030000; D 40 00; R FE00 C7; W 200005 00; R FE00 C7; D 40 00; R FE00 E3; W 200006 00; \
     V FF461240 00; R FE00 AA; W 200003 00; V FF454012 00; R FE00 55; R FF45 12",
    "N 00010000; W 800012 00; W 809F34 00; W 80A056 00; W FEA078 00; W FF4680 00; \
     R FE00 12; R FE9F 34; R FEA0 78",
    "N 00010000; W DF0012 00; W DF9F34 00; D DF 00; R FE00 12; R FE9F 34; R FF46 FF",
    "N 00010000; W C00012 00; R E000 12; W FF46E0 00; R FE00 00; R FF46 E0",
    // From A0 it goes through the mapper: RAM off copies FF.
    "N 01010200; D A0 00; R FE00 FF; W 00000A 00; D A0 00; R FE00 11; R FE01 16",
    // 5. FF51 keeps 7F and C0; 80 and BF become 00.
    "N 00010001; W FF517F 00; R FF51 7F; W FF5180 00; R FF51 00; W FF51C0 00; R FF51 C0; \
     W FF51BF 00; R FF51 00",
    "N 00010000; W FF5180 00; R FF51 80; W FF5500 00; R FF55 00; i - 00",
    // 6. FF70 given 00 reads 40, bank 1; 08 too.
    "N 00010001; W D00011 00; W FF7002 00; R D000 00; W D00022 00; W FF7000 00; R FF70 40; \
     R D000 11; W FF7008 00; R FF70 40; R F000 11; W FF70FF 00; R FF70 47",
    // 7. A block from 7FF0 to 9FF0.
    "N 00010001; W FF517F 00; W FF52F0 00; W FF531F 00; W FF54F0 00; H - 24; \
     R FF51 A0; R FF52 00; R FF53 80; R FF54 00; R 9FF0 74; R 9FFF 83; R FF55 FE",
    "N 00010000; H - 24; M FF51 1000; M FF53 1000; R FF55 FE; i - 00; R 8001 01; R 800F 0F",
    // 8. Fresh colour, FF55 given 00; the next block lands at 8000, from 0000.
    "N 00010001; W FF5500 00; R 9FF0 98; R 9FF7 FF; R 9FFE 0B; R 9FFF 00; R FF51 FF; \
     R FF55 FF; W FF5500 00; R 8000 00; R 8001 01; R 800F 0F; R 8010 00",
    // 9. Destination 9FF0, FF55 given 01 (RAM off): 16 bytes land.
    "N 01010201; W FF5101 00; W FF5200 00; W FF531F 00; W FF54F0 00; W FF5501 00; \
     R 9FF0 03; R 9FFF 12; R A000 FF; W 00000A 00; R A000 11; R A001 16; k - 00; R A00F 5C",
    // 10. Mbc1, N 4: 2000 given 10 selects 0; 4000 given 00 then selects 1.
    "N 01020000; R 4000 C7; W 200010 00; R 4000 00; W 400000 00; R 4000 C7; W 200003 00; R 7FFF 11",
    // N 128: 4000 given 1 then 2000 given 0 selects 33.
    "N 01070000; W 400001 00; W 200000 00; R 4000 A7",
    // 11. Mbc2 enabled: A000 given AB stores 0B. Its save is read by 4 bits.
    "N 02010000; R A000 FF; R A1FF FF; R A200 00; W 20000A 00; R A000 FF; W 00000A 00; \
     R A001 06; W A000AB 00; R A000 0B; W A200FF 00; R A200 00; W 210002 00; R 4000 00",
    // Mbc5, N 8: bank 0 is selected by 0 and by 8; the ninth bit does not count,
    // 6000 is no register, and four RAM banks need no mode.
    "N 03030300; R 4000 C7; W 200000 00; R 4000 00; W 2FFF07 00; R 4000 71; W 300001 00; R 4000 71; \
     W 6000FF 00; R 4000 71; W 200008 00; R 4000 00; R A000 FF; W 40000E 00; W 1FFF0A 00; R A000 27; \
     W A00055 00; R A000 55; W 400003 00; R A000 32; W 5FFF06 00; R A000 55",
    // RAM code 4: sixteen RAM banks, and 6000 is no register.
    "N 03010400; R A000 FF; W 00000A 00; R A000 11; W 40000F 00; R A000 B6; W A00055 00; R A000 55; \
     W 400007 00; R A000 5E; W 600001 00; R A000 5E; W 40000B 00; R A000 8A; W 5FFF1F 00; R A000 55; \
     V BFFF3412 00; R BFFF 12; R C000 34; W 400003 00; R BFFF 2D; W 400010 00; R A000 11",
    // A log of 7 bytes: no word, one byte. Nothing of a refused word is stored.
    "N 010102000007; W 00000A 00; V A0001234 02; R A000 11; W A00056 00; R A000 56; W A00178 02; R A001 16; \
     V 9FFF1234 02; R 9FFF 00; V BFFF1234 02; R C000 00; k - 00; W A00178 00; R A001 78",
    // Of 8 bytes: a word, or two bytes. What RAM that is off does not store takes no room, but must find it.
    "N 010102000008; V A0001234 00; W 00000A 00; V A0001234 00; M A000 1234; W A00256 02; W 9FFF01 00; \
     W 000000 00; W A00256 02; k - 00; W 00000A 00; W A00256 00; W A00356 00; W A00456 02",
    // Of 3 bytes: nothing, even where there is no RAM.
    "N 010100000003; W A00012 02; V BFFF1234 02; R C000 00; W C00034 00; R C000 34; W 00000A 00",
    // N 256, no RAM: nothing enables it.
    "N 03080000; W 2000FF 00; R 4000 39; W 00000A 00; R A000 FF; W A00012 00; R A000 FF; W 400003 00; \
     R BFFF FF",
    // 13. FF68 80, then FF69 1F, 7C: colour (31, 0, 31), FF68 reads C2.
    "N 00010001; W FF6880 00; W FF691F 00; W FF697C 00; R FF68 C2; W FF6800 00; O FF69 1F; \
     R FF69 FF; W FF6801 00; O FF69 7C; R FF69 FC",
    // What FF69 reads after an increment is of the new index; bit 6 goes.
    "N 00010001; W FF68C0 00; W FF69FF 00; O FF68 81; O FF69 00; W FF68BF 00; W FF6955 00; O FF68 80; \
     O FF69 FF",
    "N 00010001; W FF6A3F 00; W FF6BFF 00; O FF6A 3F; O FF6B FF; W FF6A3F 00; O FF6B 7F; \
     W FF6A3E 00; O FF6B 00; W FF683F 00; O FF69 00",
    "N 00010000; W FF6880 00; W FF691F 00; R FF68 C0; R FF69 FF; O FF68 80; O FF69 1F; R FF70 FF; \
     R FF76 FF; R FF77 FF",
    // 14. Press A, press Up, update.
    "N 00010000; P 04 00; P 00 00; U - 00; R FF0F F1; R FF00 CB; O FF0F 11",
    // The second press took the first one's mark.
    "N 00010000; W FF0010 00; P 04 00; P 00 00; U - 00; R FF0F E1; R FF00 1E; A - 01; E - 00; \
     W FF0020 00; U - 00; R FF0F F1; R FF00 2B; L 04 00; R FF00 2B; W FF0030 00; R FF00 3B",
    // A block lands at the destination's low 13 bits, in the chosen bank.
    "N 00010001; W FF4FFF 00; R FF4F FF; O FF4F 01; W FF5500 00; R 9FF0 98; B 9FF001 98; B 9FF000 00; \
     W FF4F00 00; R FF4F FE; R 9FF0 00",
    // FF0F is stored as E1; a removal keeps five bits.
    "N 00010000; O FF0F E1; X 04 00; O FF0F 01; R FF0F E1; I - 05; W FFFFFF 00; R FFFF 1F; I - 00; \
     X 00 00; I - 05; Q 03 00; Q 01 00; I - 01; R FF0F EA",
    // FF44 given 00 turns the screen off; FF55 given 80 then runs at once.
    "N 00010001; W FF4400 00; R FF44 00; W FF5580 00; R 9FF0 98; R FF55 FF; i - 00; R FF51 00; R FF53 80",
    "N 00010001; W FF5580 00; R 9FF0 00; R FF55 00; i - 01; H - 24; R 9FF0 98; R FF55 FF; i - 00",
    // With HDMA on: bit 7 set stores the low bits, clear stores FF and stops.
    "N 00010001; W FF5585 00; R FF55 05; W FF55FF 00; R FF55 7F; i - 01; W FF5503 00; R FF55 FF; i - 00; \
     R 9FF0 00",
    // FF40 given 00, then 91: FF44 still reads 0.
    "N 00010000; W FF4000 00; W FF4091 00; R FF44 00; R FF41 80; R FF40 91",
    // A word write at FFFF ends in the mapper.
    "N 01010200; R A000 FF; V FFFF0A00 00; R A000 11; R FFFF 00; M FFFF 0000; V BFFF3412 00; R BFFF 12; \
     R C000 34; M BFFF 3412",
    // FF41's write asks anew each time.
    "N 00010000; W FF4110 00; R FF0F E3; W FF0F00 00; W FF4110 00; R FF0F E2; R FF41 90; W FF4190 00; \
     R FF41 90; W FF4590 00; R FF41 94",
    // Scan line and FF45 meet: one request, until the signal falls.
    "N 00010000; W FF4140 00; R FF0F E1; W FF4590 00; R FF0F E3; X 01 00; e - 00; R FF0F E1; W FF4591 00; \
     R FF41 C0; d 90 00; R FF0F E3; R FF41 C4",
    // Masks that only the Rust has.
    "N 00010001; W FF4DFF 00; R FF4D 7F; W FF4D00 00; R FF4D 7E; W FF52FF 00; R FF52 F0; W FF53FF 00; \
     R FF53 1F; W FF54FF 00; R FF54 F0; W FF6C00 00; R FF6C FE; W FF7500 00; R FF75 8F; W FF76FF 00; R FF76 00",
    "N 00010000; W FF4DFF 00; R FF4D FF; W FF4F00 00; R FF4F FE; W FF52FF 00; R FF52 FF; W FF6C00 00; \
     R FF6C FE; W FF7500 00; R FF75 8F; W FF07FD 00; R FF07 FD; O FF07 FD; W FF0700 00; R FF07 F8",
    // GDMA's source runs on into 8000 and sees its own bytes.
    "N 00010001; W FF517F 00; W FF52F0 00; W FF5300 00; W FF5400 00; W FF5501 00; R 8000 74; R 800F 83; \
     R 8010 74; R 801F 83; R 8020 00",
    // GDMA from FF50 copies FF51..FF55 as they were before.
    "N 00010001; W FF51FF 00; W FF5250 00; W FF5300 00; V FF540000 00; M 8000 FFFF; M 8002 0050; \
     M 8004 FF00; R 8006 3E; R FF54 FF; R FF55 FF",
    // The sound window: raw load and store use the page.
    "N 00010000; O FF11 BF; R FF11 3F; R FF26 F0; R FF30 71; S FF3055 00; R FF30 71; O FF30 55; \
     W FF30AB 01; R FF30 AB; O FF30 55; V FF0FCD1F 01; R FF10 CD; V FF3F1234 01; R FF3F 34; R FF40 12",
    // The echo is the same byte; FE00..FEFF is all OAM.
    "N 00010000; V FDFF1234 00; R DDFF 34; R FE00 12; V FEFF3412 00; R FEFF 12; R FF00 30; W E00077 00; \
     R C000 77; M DDFF 0034; M 9FFF FF00; M 7FFF 0083",
    // Fixed bytes, and writes that show nowhere.
    "N 00010000; W FF0300 00; R FF03 FF; O FF03 00; W FF0E00 00; R FF0E FF; W FF4C00 00; R FF4C FF; \
     W FF4400 00; R FF44 00; O FF44 00",
    // RomOnly with RAM: always stored.
    "N 00010200; R A000 11; W A000AA 00; R A000 AA; W 000000 00; R A000 AA; R 4000 C7; W 200000 00; \
     R 4000 C7; R BFFF 0C",
];

/// The corners as lists, if the Rust gives our answers.
pub fn lists() -> io::Result<Vec<String>> {
    record_bytes()?;
    CORNERS.iter().map(|corner| list(corner)).collect()
}

fn list(corner: &str) -> io::Result<String> {
    let mut lines = corner.split(';').map(str::trim);
    let head = lines.next().and_then(|line| line.strip_prefix("N "));
    let mut list = match hex::bytes(head.expect("an N first"))[..] {
        [kind, log, code, colour] => List::new(kind, log, code, colour == 1),
        [kind, log, code, colour, high, low] => {
            let room = u16::from_be_bytes([high, low]);
            List::with_log(Shape { kind, log, code }, colour == 1, room)
        }
        _ => panic!("an N of four bytes, or of six"),
    };
    for line in lines {
        let letter = line.chars().next().expect("a letter");
        let (input, output) = leaves::parts(line);
        let answer = list.call(letter, &input);
        if answer != output {
            let got = hex::digits(&answer);
            return Err(Error::other(format!(
                "{corner}: {line}: the oracle gives {got}"
            )));
        }
    }
    Ok(list.finish())
}

/// Corner 12: address 1234, value 56 is the record 84 8D 15 80.
fn record_bytes() -> io::Result<()> {
    let mut list = List::new(1, 1, 2, false);
    list.write_all(&[(0x0000, 0x0A), (0xB234, 0x56)]);
    if *list.host.log.borrow() == [0x84, 0x8D, 0x15, 0x80] {
        Ok(())
    } else {
        Err(Error::other("corner 12: another record"))
    }
}
