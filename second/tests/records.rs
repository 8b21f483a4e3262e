//! The rules under "Records": each limit of a field from both sides.

use second::judge::judge;

fn read(record: &[u8]) -> bool {
    judge(record, 0) != 2
}

/// The record with one byte replaced by each of some values.
fn each(record: &[u8], at: usize, good: &[u8], bad: &[u8]) {
    for (values, wanted) in [(good, true), (bad, false)] {
        for &value in values {
            let mut record = record.to_vec();
            record[at] = value;
            assert_eq!(read(&record), wanted, "{record:02X?}");
        }
    }
}

/// Of paper 01; those of order 1 are in tables.rs.
const EVERY_KIND: [&[u8]; 21] = [
    &[0x01, 0, 0, 1, 2, 3, 0, 0],
    &[0x02, 0, 0, 1, 2, 3, 0, 0, 0],
    &[0x03, 0, 0, 1, 2, 3],
    &[0x04, 0, 0, 1, 2, 3, 0],
    &[0x05, 0, 0, 1, 2, 3],
    &[0x06, 0, 0, 1, 2],
    &[0x07, 0, 0, 1, 2, 3, 0],
    &[0x08, 0, 0, 1, 2, 3, 4],
    &[0x09, 0, 0, 1, 2, 3],
    &[0x0A, 0, 0, 1, 2, 3, 0, 0],
    &[0x0B, 1, 0, 1, 2, 0, 1],
    &[0x0C, 0, 0, 1, 2, 0],
    &[0x0D, 0, 0, 1, 2, 0, 0, 0],
    &[0x0E, 0, 0, 1, 2, 3, 0],
    &[0x0F, 0, 0, 1, 2, 3, 0, 0, 0],
    &[0x10, 0, 0, 1, 0, 4, 0],
    &[0x11, 0, 0, 14, 0, 0, 0, 0],
    &[0x12, 0, 0, 1],
    &[0x13, 0, 0, 1, 0],
    &[0x14, 0, 0, 1, 0],
    &[0x15, 0],
];

#[test]
fn every_kind_has_its_length() {
    for record in EVERY_KIND {
        assert_eq!(judge(record, 0), 0, "{record:02X?}");
        assert_eq!(second::read::read(record, 0).unwrap().1, record.len());
        for length in 0..record.len() {
            assert_eq!(judge(&record[..length], 0), 2, "{record:02X?} {length}");
        }
        assert_eq!(judge(&[record, &[0]].concat(), 0), 2, "{record:02X?}");
    }
    for kind in (0x18..=0xFF).chain([0]) {
        for length in 1..=9 {
            assert_eq!(judge(&[kind, 2, 2, 2, 2, 2, 2, 2, 2][..length], 0), 2);
        }
    }
}

#[test]
fn reading_at_a_place() {
    let listing = [EVERY_KIND[0], EVERY_KIND[20]].concat();
    assert_eq!(second::read::read(&listing, 8).unwrap().1, 2);
    assert_eq!(second::read::read(&listing, 9), Err(2));
    assert_eq!(second::read::read(&listing, 10), Err(2));
    assert_eq!(second::read::read(&listing, usize::MAX), Err(2));
}

#[test]
fn forms() {
    for record in EVERY_KIND {
        let kind = record[0];
        let at = if kind < 0x14 { 2 } else { 1 };
        let s: &[u8] = if matches!(kind, 1..=3 | 7) { &[0, 1] } else { &[0] };
        each(record, at, s, &[4, 8, 0x80, 0xFE]);
        let short_only = (0x12..=0x14).contains(&kind);
        each(record, at, if short_only { &[] } else { &[2] }, if short_only { &[2] } else { &[] });
        each(record, at, &[], if s.len() == 1 { &[1, 3] } else { &[] });
    }
    // BL is 4; MLA, MLS have no S
    each(&[0x11, 1, 2, 14, 0, 0, 0, 0], 2, &[2], &[0, 1, 3]);
    each(&[0x07, 1, 0, 1, 2, 3, 4], 2, &[0, 2], &[1, 3]);
    each(&[0x07, 2, 0, 1, 2, 3, 4], 2, &[0, 2], &[1, 3]);
    each(&[0x07, 0, 0, 1, 2, 1, 0], 2, &[0, 1, 2, 3], &[4]);
}

#[test]
fn ops() {
    let highest = [15, 15, 3, 1, 1, 4, 2, 3, 1, 1, 3, 3, 7, 7, 1, 3, 1, 1, 1];
    for (record, highest) in EVERY_KIND.iter().zip(highest) {
        let mut record = record.to_vec();
        record[1] = highest;
        match record[0] {
            0x01 | 0x02 => (record[2], record[3]) = (1, 0),
            0x11 => record[2] = 2,
            _ => {}
        }
        each(&record, 1, &[highest], &[highest + 1, 255]);
    }
}

#[test]
fn registers() {
    let fields: [&[usize]; 18] = [
        &[3, 4, 5],
        &[3, 4],
        &[3, 4, 5],
        &[3, 4],
        &[3],
        &[3, 4],
        &[3, 4, 5],
        &[3, 4, 5, 6],
        &[3, 4, 5],
        &[3, 5],
        &[3, 4],
        &[3, 4],
        &[3, 4],
        &[3, 4, 5],
        &[3, 4, 5],
        &[3],
        &[],
        &[3],
    ];
    for (record, fields) in EVERY_KIND.iter().zip(fields) {
        for &at in fields {
            each(record, at, &[0, 13, 15], &[16, 255]);
        }
    }
    each(&[0x07, 1, 0, 1, 2, 3, 4], 6, &[0, 15], &[16]);
    each(EVERY_KIND[18], 3, &[0, 7], &[8, 15]);
}

#[test]
fn fields_that_are_0_for_an_op() {
    for kind_and_tail in [&[0x01, 0, 0, 0][..], &[0x02, 0, 0, 0, 0]] {
        for op in 0..16 {
            let record =
                |s, rd, rn| [&[kind_and_tail[0], op, s, rd, rn], &kind_and_tail[1..]].concat();
            assert!(read(&record(1, 0, 0)));
            assert_eq!(read(&record(0, 0, 0)), op < 12);
            assert_eq!(read(&record(1, 1, 0)), op < 12);
            assert_eq!(read(&record(1, 0, 1)), op != 10 && op != 11);
        }
    }
    each(EVERY_KIND[6], 6, &[0], &[1]);
    each(&[0x0B, 0, 0, 1, 0, 0, 1], 4, &[0], &[1]);
}

#[test]
fn shifts() {
    let record = |shift, n| [0x01, 0, 0, 1, 2, 3, shift, n];
    let saturate = |shift, n| [0x0A, 0, 0, 1, 2, 3, shift, n];
    for n in 0..=255 {
        assert_eq!(read(&record(0, n)), n <= 31);
        assert_eq!(read(&record(1, n)), (1..=32).contains(&n));
        assert_eq!(read(&record(2, n)), (1..=32).contains(&n));
        assert_eq!(read(&record(3, n)), (1..=31).contains(&n));
        assert_eq!(read(&record(4, n)), n == 0);
        assert!(!read(&record(5, n)));
        assert_eq!(read(&saturate(0, n)), n <= 31);
        assert_eq!(read(&saturate(2, n)), (1..=31).contains(&n));
        for shift in [1, 3, 4, 5] {
            assert!(!read(&saturate(shift, n)));
        }
    }
}

#[test]
fn constants() {
    let allowed =
        |constant: u32| read(&[&[0x02, 10, 0, 0, 0][..], &constant.to_le_bytes()].concat());
    for byte in 0..=255u32 {
        for shift in 0..=24 {
            assert!(allowed(byte << shift));
        }
        assert!(allowed(byte | byte << 16));
        assert!(allowed(byte << 8 | byte << 24));
        assert!(allowed(byte * 0x0101_0101));
    }
    for constant in [0x101, 0x1FF, 0x00AB_00AC, 0xAB00_AC00, 0x00AB_AB00, 0xABAB_ABAC, 0xF000_000F]
    {
        assert!(!allowed(constant), "{constant:X}");
    }
    for constant in [0x8000_0001, 0xFFFF_FFFE, 0x1_0001 << 1 | 1, 0x0001_0101, 0xAB00_00AB] {
        assert!(!allowed(constant), "{constant:X}");
    }
}

#[test]
fn numbers() {
    let wide = |number: u16| read(&[&[0x04, 0, 0, 1, 2][..], &number.to_le_bytes()].concat());
    assert!(wide(4095) && !wide(4096) && !wide(65_535));
    each(EVERY_KIND[9], 4, &[1, 32], &[0, 33, 255]);
    each(&[0x0A, 1, 0, 1, 2, 3, 0, 0], 4, &[0, 31], &[32, 255]);
    for lsb in 0..=255u8 {
        for width in 0..=255u8 {
            let wanted = lsb < 32 && width >= 1 && u16::from(lsb) + u16::from(width) <= 32;
            assert_eq!(read(&[0x0B, 2, 0, 1, 2, lsb, width]), wanted);
        }
    }
    for rotation in 0..=255 {
        let wanted = [0, 8, 16, 24].contains(&rotation);
        assert_eq!(read(&[0x0C, 0, 0, 1, 2, rotation]), wanted);
    }
    each(EVERY_KIND[13], 6, &[0, 3], &[4, 255]);
    each(EVERY_KIND[15], 4, &[0, 1], &[2, 255]);
    for offset in 0..=255 {
        assert_eq!(read(&[0x13, 1, 0, 0, offset]), offset <= 126 && offset % 2 == 0);
    }
}

#[test]
fn offsets_of_accesses() {
    for offset in i16::MIN..=i16::MAX {
        let [a, b] = offset.to_le_bytes();
        for op in 0..8 {
            let single = |rn, mode| read(&[0x0D, op, 0, 1, rn, mode, a, b]);
            assert_eq!(single(2, 0), (-255..=4095).contains(&offset));
            assert_eq!(single(15, 0), (-4095..=4095).contains(&offset));
            for mode in 1..3 {
                assert_eq!(single(2, mode), (-255..=255).contains(&offset));
                assert_eq!(single(15, mode), (-255..=255).contains(&offset));
            }
            assert!(!single(2, 3));
        }
        let wanted = offset % 4 == 0 && (-1020..=1020).contains(&offset);
        for mode in 0..3 {
            assert_eq!(read(&[0x0F, 0, 0, 1, 2, 3, mode, a, b]), wanted);
        }
        assert!(!read(&[0x0F, 0, 0, 1, 2, 3, 3, a, b]));
    }
}

#[test]
fn branches() {
    let reads = |op: u8, condition: u8, offset: i32| {
        read(&[&[0x11, op, 2 * op, condition][..], &offset.to_le_bytes()].concat())
    };
    for (condition, reach) in [(14, 16_777_216), (0, 1_048_576), (13, 1_048_576)] {
        assert!(reads(0, condition, -reach) && reads(0, condition, reach - 2));
        assert!(!reads(0, condition, -reach - 2) && !reads(0, condition, reach));
        assert!(!reads(0, condition, 1) && !reads(0, condition, -1));
    }
    assert!(reads(1, 14, -16_777_216) && reads(1, 14, 16_777_214));
    assert!(!reads(1, 14, 16_777_216) && !reads(1, 14, -16_777_218) && !reads(1, 14, 1));
    assert!(!reads(1, 0, 0) && !reads(1, 15, 0) && !reads(0, 15, 0) && !reads(0, 255, 0));
}

#[test]
fn blocks() {
    for count in 0..=255u8 {
        for elses in 0..=255u8 {
            let past = match count {
                1 => 0xFF,
                2 => 0xFE,
                3 => 0xFC,
                4 => 0xF8,
                _ => 0,
            };
            let wanted = past != 0 && elses & past == 0;
            assert_eq!(read(&[0x14, 0, 3, count, elses]), wanted, "{count} {elses}");
        }
    }
    each(&[0x14, 0, 0, 1, 0], 2, &[0, 14], &[15, 255]);
}
