//! The converters beside models of both records that are written bit by bit from documents 01 and 02; and recovery of a converted log beside document 01's rule.

mod common;

use common::Random;
use pouchrattle::{
    log_to_new, log_to_old, recover, BeyondOld, Damaged, Expected, RecordBytes, Refusal, Which, WrongLength, LONGEST_LOG, LONGEST_OLD_LOG, OLD_RECORD_LEN,
    RECORD_LEN,
};

/// Most significant bit first.
fn bits(bytes: &[u8]) -> String {
    bytes.iter().map(|byte| format!("{byte:08b}")).collect()
}

fn bytes(bits: &str) -> Vec<u8> {
    assert_eq!(bits.len() % 8, 0);
    (0..bits.len()).step_by(8).map(|at| number(&bits[at..at + 8]) as u8).collect()
}

fn number(bits: &str) -> usize {
    usize::from_str_radix(bits, 2).unwrap()
}

/// Document 01: bit 1, address 15 bits, value 8 bits. `None`: damaged, or an address that does not fit.
fn old_record(at: usize, value: u8) -> Option<Vec<u8>> {
    (at < 32768).then(|| bytes(&format!("1{at:015b}{value:08b}")))
}

fn read_old(record: &[u8]) -> Option<(usize, u8)> {
    let bits = bits(record);
    bits.starts_with('1').then(|| (number(&bits[1..16]), number(&bits[16..24]) as u8))
}

/// Document 02: bit 1, address 17 bits, value 8 bits, six 0 bits.
fn new_record(at: usize, value: u8) -> Vec<u8> {
    bytes(&format!("1{at:017b}{value:08b}000000"))
}

fn read_new(record: &[u8]) -> Option<(usize, u8)> {
    let bits = bits(record);
    (bits.starts_with('1') && bits.ends_with("000000")).then(|| (number(&bits[1..18]), number(&bits[18..26]) as u8))
}

fn too_long(found: usize, most: usize) -> Refusal {
    Refusal::WrongLength(WrongLength { memory: Which::Log, found, expected: Expected::AtMost(most) })
}

fn damaged_old(record: usize, bytes: &[u8]) -> Refusal {
    Refusal::Damaged(Damaged { record, bytes: RecordBytes::Old(bytes.try_into().unwrap()) })
}

fn damaged_new(record: usize, bytes: &[u8]) -> Refusal {
    Refusal::Damaged(Damaged { record, bytes: RecordBytes::New(bytes.try_into().unwrap()) })
}

/// Document 02's converter to the new form.
fn to_new(old: &[u8]) -> Result<Vec<u8>, Refusal> {
    let records = old.len() / 3;
    if old.len() > 65535 || records * 4 > 65535 {
        return Err(too_long(old.len(), 49151));
    }
    let record = |(number, record): (usize, &[u8])| match read_old(record) {
        Some((at, value)) => Ok(new_record(at, value)),
        None => Err(damaged_old(number, record)),
    };
    old.chunks_exact(3).enumerate().map(record).collect::<Result<Vec<_>, _>>().map(|records| records.concat())
}

/// And back: damage of any record comes before an address of any.
fn to_old(log: &[u8]) -> Result<Vec<u8>, Refusal> {
    if log.len() > 65535 {
        return Err(too_long(log.len(), 65535));
    }
    let sound = |(number, record): (usize, &[u8])| read_new(record).ok_or(damaged_new(number, record));
    let list: Vec<(usize, u8)> = log.chunks_exact(4).enumerate().map(sound).collect::<Result<_, _>>()?;
    let record = |(number, (at, value)): (usize, (usize, u8))| {
        let beyond = BeyondOld { record: number, bytes: new_record(at, value).try_into().unwrap() };
        old_record(at, value).ok_or(Refusal::BeyondOld(beyond))
    };
    list.into_iter().enumerate().map(record).collect::<Result<Vec<_>, _>>().map(|records| records.concat())
}

fn alike_new(old: &[u8]) {
    assert!(log_to_new(old) == to_new(old), "{} bytes: {:02X?}", old.len(), &old[..old.len().min(24)]);
}

fn alike_old(log: &[u8]) {
    assert!(log_to_old(log) == to_old(log), "{} bytes: {:02X?}", log.len(), &log[..log.len().min(24)]);
}

/// A log of so many old records, all sound.
fn old_log(records: usize, random: &mut Random) -> Vec<u8> {
    (0..records).flat_map(|_| [0x80 | random.below(128) as u8, random.below(256) as u8, random.below(256) as u8]).collect()
}

#[test]
fn lengths_of_records() {
    assert_eq!((OLD_RECORD_LEN, RECORD_LEN, LONGEST_OLD_LOG, LONGEST_LOG), (3, 4, 49151, 65535));
    assert_eq!((old_record(0x1234, 0x56), new_record(0x1234, 0x56)), (Some(vec![0x92, 0x34, 0x56]), vec![0x84, 0x8D, 0x15, 0x80]));
    assert_eq!(log_to_new(&[0x92, 0x34, 0x56]), Ok(vec![0x84, 0x8D, 0x15, 0x80]));
    assert_eq!(log_to_old(&[0x84, 0x8D, 0x15, 0x80]), Ok(vec![0x92, 0x34, 0x56]));
}

/// What is behind the whole records is dropped, whatever it is.
#[test]
fn a_few_bytes() {
    for last in [0x00, 0x7F, 0x80, 0xFF] {
        for len in 0..=9 {
            let mut old = [0x92, 0x34, 0x56].repeat(3);
            old.truncate(len);
            old[len / 3 * 3..].fill(last);
            assert_eq!(log_to_new(&old), Ok([0x84, 0x8D, 0x15, 0x80].repeat(len / 3)), "{len}");
            alike_new(&old);
        }
        for len in 0..=12 {
            let mut log = [0x84, 0x8D, 0x15, 0x80].repeat(3);
            log.truncate(len);
            log[len / 4 * 4..].fill(last);
            assert_eq!(log_to_old(&log), Ok([0x92, 0x34, 0x56].repeat(len / 4)), "{len}");
            alike_old(&log);
        }
    }
}

#[test]
fn the_longest() {
    let mut random = Random(1);
    let old = old_log(21846, &mut random);
    for (len, is_taken) in [
        (16382 * 3, true),
        (16383 * 3 - 1, true),
        (16383 * 3, true),
        (16383 * 3 + 1, true),
        (16383 * 3 + 2, true),
        (16384 * 3, false),
        (16384 * 3 + 1, false),
        (65534, false),
        (65535, false),
        (65536, false),
        (65538, false),
    ] {
        let new = log_to_new(&old[..len]);
        assert_eq!(new.as_ref().err(), (!is_taken).then_some(&too_long(len, 49151)), "{len}");
        alike_new(&old[..len]);
        // And back: all whole records are there.
        if let Ok(new) = new {
            assert_eq!(new.len(), len / 3 * 4);
            assert!(log_to_old(&new).unwrap() == old[..len / 3 * 3], "{len}");
        }
    }
    let mut log = log_to_new(&old[..16383 * 3]).unwrap();
    log.extend([0x80, 0x00, 0x00, 0x00, 0x80]);
    for (len, is_taken) in [(65531, true), (65532, true), (65533, true), (65534, true), (65535, true), (65536, false), (65537, false)] {
        assert_eq!(log_to_old(&log[..len]).err(), (!is_taken).then_some(too_long(len, 65535)), "{len}");
        alike_old(&log[..len]);
    }
    // A length is told before damage.
    for len in [16384 * 3, 65535, 65536, 200_000] {
        assert_eq!(log_to_new(&vec![0; len]), Err(too_long(len, 49151)));
    }
    for len in [65536, 200_000] {
        assert_eq!(log_to_old(&vec![0; len]), Err(too_long(len, 65535)));
    }
    assert_eq!(log_to_new(&[0; LONGEST_OLD_LOG]), Err(damaged_old(0, &[0; 3])));
    assert_eq!(log_to_old(&[0; LONGEST_LOG]), Err(damaged_new(0, &[0; 4])));
}

/// Every address of both forms, each with some value; and every value at addresses whose bits differ.
#[test]
fn every_address_and_every_value() {
    let list: Vec<(usize, u8)> = (0..131_072).map(|at| (at, (at * 7 + at / 256) as u8)).collect();
    let values = [0, 1, 0x5555, 0x2AAA, 0x7FFF].into_iter().flat_map(|at| (0..=0xFF).map(move |value| (at, value)));
    let below: Vec<(usize, u8)> = list[..32768].iter().copied().chain(values).collect();
    for part in below.chunks(16383) {
        let old: Vec<u8> = part.iter().flat_map(|&(at, value)| old_record(at, value).unwrap()).collect();
        let log: Vec<u8> = part.iter().flat_map(|&(at, value)| new_record(at, value)).collect();
        assert!(log_to_new(&old).unwrap() == log && log_to_old(&log).unwrap() == old);
    }
    for &(at, value) in &list[32768..] {
        let record = new_record(at, value);
        let beyond = BeyondOld { record: 0, bytes: record[..].try_into().unwrap() };
        assert_eq!(log_to_old(&record), Err(Refusal::BeyondOld(beyond)), "{at}");
    }
}

/// The first address beyond is told, wherever it stands; and only where no record is damaged.
#[test]
fn addresses_that_do_not_fit() {
    let fits = new_record(32767, 0xFF);
    for at in [32768, 32769, 65535, 65536, 98304, 131_071] {
        let far = new_record(at, 0x00);
        for place in 0..4 {
            let mut log = fits.repeat(6);
            log[place * 4..][..4].copy_from_slice(&far);
            log[16..20].copy_from_slice(&far);
            let bytes = far[..].try_into().unwrap();
            assert_eq!(log_to_old(&log), Err(Refusal::BeyondOld(BeyondOld { record: place, bytes })));
            alike_old(&log);
            assert_eq!(log_to_old(&log[..place * 4 + 3]), Ok([0xFF, 0xFF, 0xFF].repeat(place)));
            for bit in [0x80, 0x01] {
                let mut log = log.clone();
                log[5 * 4 + usize::from(bit == 0x01) * 3] ^= bit;
                assert_eq!(log_to_old(&log), Err(damaged_new(5, &log[20..24])));
                alike_old(&log);
            }
        }
    }
    let refusal = log_to_old(&[&fits[..], &new_record(32768, 0)].concat()).unwrap_err();
    let words = "record 1 has an address of 32,768 or more, which an old record does not hold: A0 00 00 00";
    assert_eq!((refusal.number(), refusal.to_string().as_str()), (6, words));
}

/// Every single bit of a record, and every value of each of its bytes, in a log of three.
#[test]
fn every_bit_of_a_record() {
    let mut damage = [0, 0];
    for (at, value) in [(0, 0), (0x1234, 0x56), (0x7FFF, 0xFF), (0x5555, 0xAA), (0x2AAA, 0x55)] {
        let old = old_record(at, value).unwrap();
        for (bit, place) in (0..24).flat_map(|bit| (0..3).map(move |place| (bit, place))) {
            let mut log = old.repeat(3);
            log[place * 3 + bit / 8] ^= 0x80 >> (bit % 8);
            alike_new(&log);
            damage[0] += usize::from(log_to_new(&log).is_err());
        }
        let new = new_record(at, value);
        for (bit, place) in (0..32).flat_map(|bit| (0..3).map(move |place| (bit, place))) {
            let mut log = new.repeat(3);
            log[place * 4 + bit / 8] ^= 0x80 >> (bit % 8);
            alike_old(&log);
            damage[1] += usize::from(log_to_old(&log).is_err());
        }
        for byte in 0..=0xFF {
            for place in 0..3 {
                let mut log = old.repeat(3);
                log[3 + place] = byte;
                alike_new(&log);
            }
            for place in 0..4 {
                let mut log = new.repeat(3);
                log[4 + place] = byte;
                alike_old(&log);
            }
        }
    }
    // The first bit of an old record; of a new one also the last six, and the two by which its address is longer.
    assert_eq!(damage, [5 * 3, 5 * 3 * (1 + 6 + 2)]);
}

#[test]
fn old_to_new_to_old() {
    let mut random = Random(2);
    for records in (0..200).chain([1000, 5000, 16382, 16383]) {
        let mut old = old_log(records, &mut random);
        old.extend([0x81, 0x82].iter().take(records % 3));
        let new = log_to_new(&old).unwrap();
        alike_new(&old);
        alike_old(&new);
        assert!(log_to_old(&new).unwrap() == old[..records * 3], "{records}");
    }
}

/// Any bytes: mostly damaged.
#[test]
fn random_bytes() {
    let mut random = Random(3);
    let mut taken = [0, 0];
    for _ in 0..20_000 {
        let log: Vec<u8> = (0..random.below(14)).map(|_| random.below(256) as u8).collect();
        alike_new(&log);
        alike_old(&log);
        // The same with the fixed bits of a new record mostly right.
        let mut right = log.clone();
        for record in right.chunks_exact_mut(4) {
            record[0] |= random.pick(&[0x80, 0x80, 0x80, 0x80, 0x80, 0x80, 0x80, 0x00]);
            record[0] &= random.pick(&[0x9F, 0x9F, 0x9F, 0xFF]);
            record[3] &= random.pick(&[0xC0, 0xC0, 0xC0, 0xC0, 0xC0, 0xC0, 0xC0, 0xFF]);
        }
        alike_old(&right);
        taken[0] += usize::from(log.len() > 5 && log_to_new(&log).is_ok());
        taken[1] += usize::from(right.len() > 7 && log_to_old(&right).is_ok());
    }
    assert!(taken.iter().all(|taken| *taken > 500), "{taken:?}");
}

/// Document 01's recovery of a log of old records: the save, or the number of the first damaged record.
fn recovered(start: &[u8], old: &[u8]) -> Result<Vec<u8>, usize> {
    let mut save = start.to_vec();
    for (number, record) in old.chunks_exact(3).enumerate() {
        let Some((at, value)) = read_old(record).filter(|(at, _)| *at < save.len()) else { return Err(number) };
        save[at] = value;
    }
    Ok(save)
}

/// What a player has lost nothing of: the converted log, recovered, gives what the old one gave.
#[test]
fn recovery_of_a_converted_log() {
    let mut random = Random(4);
    for len in [0, 512, 8192, 32768] {
        let start: Vec<u8> = (0..len).map(|at| (at * 5 + at / 256) as u8).collect();
        let last = if len == 0 { vec![] } else { vec![0, len - 1] };
        let lists = (0..300).map(|list| {
            let below = if list % 4 == 0 { 32768 } else { len.max(1) };
            let random_ones = (0..random.below(60)).map(|_| (usize::from(random.below(below as u16)), random.below(256) as u8)).collect::<Vec<_>>();
            let ends = last.iter().map(|at| (*at, list as u8));
            random_ones.into_iter().chain(ends).collect::<Vec<_>>()
        });
        let mut refused = 0;
        for list in lists.collect::<Vec<_>>() {
            let mut old: Vec<u8> = list.iter().flat_map(|&(at, value)| old_record(at, value).unwrap()).collect();
            old.extend([0x80, 0x00].iter().take(list.len() % 3));
            let mut save = start.clone();
            let answer = recover(&mut save, &log_to_new(&old).unwrap());
            match recovered(&start, &old) {
                Ok(expected) => assert!(answer == Ok(()) && save == expected),
                Err(record) => {
                    let (at, value) = list[record];
                    assert_eq!(answer, Err(damaged_new(record, &new_record(at, value))));
                    assert!(save == start);
                    refused += 1;
                }
            }
        }
        assert_eq!(refused > 0, len < 32768);
    }
}

/// The last address of each save, and the one behind it.
#[test]
fn the_ends_of_saves() {
    for len in [0, 512, 8192, 32768, 131_072] {
        for at in [0, 511, 512, 8191, 8192, 32767, 32768, 65535, 65536, 131_071] {
            let record = new_record(at, 0x77);
            let mut save = vec![0x11; len];
            let is_below = at < len;
            assert_eq!(recover(&mut save, &record), if is_below { Ok(()) } else { Err(damaged_new(0, &record)) }, "{at} of {len}");
            assert!(save.iter().enumerate().all(|(place, byte)| *byte == if is_below && place == at { 0x77 } else { 0x11 }));
            // An old log reaches the first 32,768 bytes of any.
            if let Some(old) = old_record(at, 0x78) {
                assert_eq!(recover(&mut save, &log_to_new(&old).unwrap()).is_ok(), is_below);
                assert!(!is_below || save[at] == 0x78);
            }
        }
    }
}
