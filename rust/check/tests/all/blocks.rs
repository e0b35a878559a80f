//! Event blocks written and read, the library beside the model: every field of every kind, every byte damaged, other lengths, records past
//! the count.

use check::bytes;
use check::compare::{to_library_record, to_model_record};
use model::blocks::{kind, read_block, seal, write_block, Record, BLOCK, RECORD, RECORDS};
use mtr::numbers;
use samples::random::{any_record, Rng};
use samples::records::dispatch;

/// Fields of a record beside its kind: subject, group, reason, amount, ticks and overrun; and their bits.
const FIELDS: usize = 6;
const BITS: [u32; FIELDS] = [8, 8, 8, 16, 32, 16];

fn record_of(kind: u8, fields: [u64; FIELDS]) -> Record {
    Record {
        kind,
        subject: fields[0] as u8,
        group: fields[1] as u8,
        reason: fields[2] as u8,
        amount: fields[3] as u16,
        ticks: fields[4] as u32,
        overrun: fields[5] as u16,
    }
}

/// Which of them a kind uses.
fn used(kind: u8) -> [bool; FIELDS] {
    match kind {
        kind::OPEN | kind::ADMIT => [true, true, false, true, false, false],
        kind::CHANGE | kind::ADMIT_BEST_EFFORT => [true, false, false, true, false, false],
        kind::CLOSE | kind::REMOVE | kind::WAKE => [true, false, false, false, false, false],
        kind::REPORT => [false, false, true, false, true, false],
        kind::START => [false, false, false, true, true, true],
        _ => [false; FIELDS],
    }
}

/// Writes on both sides. The areas are the same afterwards, and as before if
/// the write is refused.
fn write(area: &mut [u8], number: u32, records: &[Record]) -> u32 {
    let before = area.to_vec();
    let mut wanted = before.clone();
    let list: Vec<numbers::Record> = records.iter().map(to_library_record).collect();
    let answer = numbers::write_block(area, number, &list);
    assert_eq!(answer, write_block(&mut wanted, number, records));
    assert!(area == wanted, "block {number} of {records:?}");
    assert!(answer == 0 || area == before);
    answer
}

/// Reads on both sides. A refused read has no records; past the last record
/// all are zero.
fn read(area: &[u8], number: u32) -> Result<Vec<Record>, u32> {
    let found = numbers::read_block(area, number);
    let wanted = read_block(area, number);
    let (answer, list) = match &wanted {
        Ok(list) => (0, &list[..]),
        Err(refusal) => (*refusal, &[][..]),
    };
    assert_eq!(found.answer, answer, "block {number} in {area:?}");
    assert!(bytes::of(&found) == bytes::found(answer, list));
    let records = found.result().map(|list| list.iter().map(to_model_record));
    assert_eq!(records.map(Iterator::collect), wanted);
    wanted
}

/// Each kind, those that there are not among them, with each bit of each field set alone.
#[test]
fn each_field_of_each_kind() {
    for kind in 0..=255 {
        for (field, used) in used(kind).into_iter().enumerate() {
            let bits = (0..BITS[field]).map(|bit| 1 << bit);
            for value in bits.chain([0, u64::MAX]) {
                let mut fields = [0; FIELDS];
                fields[field] = value;
                let list = [dispatch(), record_of(kind, fields)];
                let mut area = [7; BLOCK];
                let fits = (1..=10).contains(&kind) && (used || value == 0);
                assert_eq!(write(&mut area, 5, &list), if fits { 0 } else { 19 });
                if fits {
                    assert_eq!(read(&area, 5), Ok(list.to_vec()));
                    assert_eq!(read(&area, 4), Err(19));
                }
            }
        }
    }
}

/// Lists and areas of every length, at any address, damaged under a right check and under a wrong one.
#[test]
fn lengths_and_damages() {
    let mut r = Rng::new(51);
    let (mut writes, mut reads) = ([0u64; 20], [0u64; 20]);
    for round in 0..20_000 {
        let count = r.edgy(0, 34);
        let list: Vec<Record> = (0..count).map(|_| any_record(&mut r)).collect();
        let length = if round % 8 == 0 { r.edgy(0, 600) } else { 512 } as usize;
        let number = r.edgy(0, u32::MAX as u64) as u32;
        let at = r.below(16) as usize;
        let mut held = vec![r.bits() as u8; at + length];
        let area = &mut held[at..];
        let answer = write(area, number, &list);
        writes[answer as usize] += 1;
        if let (0, Ok(block)) = (answer, <&mut [u8; BLOCK]>::try_from(&mut *area)) {
            let place = match r.below(3) {
                0 => r.below(14),
                1 => r.range(14, 13 + RECORD as u64 * count.max(1)),
                _ => r.below(510),
            };
            block[place as usize] = r.edgy(0, 255) as u8;
            if r.chance(7, 8) {
                seal(block);
            }
        }
        reads[read(area, number).err().unwrap_or(0) as usize] += 1;
    }
    println!("writes {writes:?} reads {reads:?}");
    let often = |counts: [u64; 20]| (0..20).filter(|&a| counts[a] > 500).collect::<Vec<_>>();
    assert_eq!(often(writes), [0, 17, 19]);
    assert_eq!(often(reads), [0, 17, 18, 19]);
}

/// The place is a byte of a field that its record uses.
fn in_a_used_field(place: usize, list: &[Record]) -> bool {
    if place < 14 || place >= 14 + RECORD * list.len() {
        return false;
    }
    let used = used(list[(place - 14) / RECORD].kind);
    match (place - 14) % RECORD {
        1 => used[0],
        2 => used[1],
        3 => used[2],
        4 | 5 => used[3],
        6..=9 => used[4],
        10 | 11 => used[5],
        _ => false,
    }
}

/// Every byte of a block changed to every other value: refused with 18, but for
/// 0 and 255 exchanged under the check, which only a used field lets through.
#[test]
fn each_single_byte_changed() {
    let mut r = Rng::new(53);
    let mut slipped = 0;
    for count in [0, 17, 31] {
        let list: Vec<Record> = (0..count).map(|_| any_record(&mut r)).collect();
        let mut block = [0; BLOCK];
        assert_eq!(write(&mut block, 7, &list), 0);
        for place in 0..BLOCK {
            for change in 1..=255u8 {
                let mut other = block;
                other[place] ^= change;
                let answer = read(&other, 7).err().unwrap_or(0);
                // 0 and 255 exchanged.
                let unseen = change == 255 && (block[place] == 0 || block[place] == 255);
                if !unseen || place >= 510 {
                    assert_eq!(answer, 18, "byte {place}");
                } else if in_a_used_field(place, &list) {
                    assert_eq!(answer, 0, "byte {place}");
                    slipped += 1;
                } else {
                    assert_eq!(answer, 19, "byte {place}");
                }
            }
        }
    }
    assert!(slipped > 30, "{slipped}");
}

/// The empty blocks of RULE 10.3, a block of zeros, and a full one.
#[test]
fn edges() {
    let mut area = [7; BLOCK];
    for (number, check) in [(0, [1, 0]), (1, [2, 0])] {
        assert_eq!(write(&mut area, number, &[]), 0);
        assert_eq!(
            (&area[510..], read(&area, number)),
            (&check[..], Ok(vec![]))
        );
    }
    assert_eq!(read(&[0; BLOCK], 0), Err(18));
    assert_eq!(write(&mut area, u32::MAX, &[dispatch(); 31]), 0);
    assert_eq!(read(&area, u32::MAX), Ok(vec![dispatch(); 31]));
}

/// The raw call: any count, and records past the count of any bits.
#[test]
fn records_past_the_count() {
    let mut r = Rng::new(54);
    let past = record_of(255, [u64::MAX; FIELDS]);
    let counts = [32, 33, 255, 256, 1 << 16, 1 << 32, 1 << 32 | 3, usize::MAX];
    for count in (0..=31).chain(counts) {
        let list: Vec<Record> = (0..RECORDS)
            .map(|i| if i < count { any_record(&mut r) } else { past })
            .collect();
        let mut records = numbers::Records::default();
        for (to, from) in records.records.iter_mut().zip(&list) {
            *to = to_library_record(from);
        }
        let mut area = [7; BLOCK];
        // SAFETY: pointer and length are those of the area.
        let answer = unsafe {
            mtr::raw::mtr_by_value_write_block(area.as_mut_ptr(), BLOCK, 9, records, count)
        };
        let mut wanted = [7; BLOCK];
        if count > RECORDS {
            assert_eq!(answer, 19, "{count}");
        } else {
            assert_eq!(
                (answer, write_block(&mut wanted, 9, &list[..count])),
                (0, 0)
            );
        }
        assert!(area == wanted, "{count}");
    }
}
