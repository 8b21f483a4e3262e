//! "Block spots (4)", waiting conditions, and the check against a slow one.

mod common;
use common::*;
use second::check::check;
use second::judge::judge;
use second::machine::Machine;
use second::record::{Action, Control};
use second::run::{run, Ran};

/// The numbers with 0 to 4 conditions waiting.
fn spots(record: &[u8]) -> Vec<u32> {
    (0..5).map(|waiting| judge(record, waiting)).collect()
}

#[test]
fn only_with_no_conditions_waiting() {
    for record in [
        it(0, 1, 0),
        it(14, 4, 0),
        vec![0x13, 0, 0, 0, 0],
        vec![0x13, 1, 0, 0, 0],
        vec![0x07, 0, 1, 1, 2, 1, 0],
        b(0, 0),
        b(13, 0),
    ] {
        assert_eq!(spots(&record), [0, 4, 4, 4, 4], "{record:02X?}");
    }
}

#[test]
fn only_with_at_most_one_waiting() {
    for record in [
        b(14, 0),
        bl(0),
        vec![0x12, 0, 0, 0],
        vec![0x12, 1, 0, 0],
        vec![0x01, 10, 0, 15, 0, 1, 0, 0],
        vec![0x01, 0, 0, 15, 15, 1, 0, 0],
        single(0, 15, 0, 0, 0),
        single(0, 15, 13, 2, 4),
        vec![0x0E, 0, 0, 15, 0, 1, 0],
        multiple(0, 13, 1, 0x8000),
        multiple(1, 0, 0, 0x8002),
    ] {
        assert_eq!(spots(&record), [0, 0, 4, 4, 4], "{record:02X?}");
    }
}

#[test]
fn anywhere() {
    for record in [
        NOP.to_vec(),
        mov(0, 1),
        vec![0x01, 10, 0, 0, 0, 15, 0, 0],
        vec![0x07, 0, 0, 1, 2, 1, 0],
        vec![0x04, 0, 0, 0, 15, 0, 0],
        single(0, 0, 15, 0, 0),
        single(0, 13, 0, 0, 0),
        multiple(0, 13, 1, 0x4000),
        multiple(2, 13, 1, 0x4000),
    ] {
        assert_eq!(spots(&record), [0; 5], "{record:02X?}");
    }
    // 3 comes before 4
    assert_eq!(spots(&[0x12, 1, 0, 15]), [3; 5]);
}

#[test]
fn it_sets_the_list() {
    for (condition, count, elses, wanted) in [
        (0, 1, 0, &[0][..]),
        (1, 2, 1, &[1, 0]),
        (10, 4, 0b101, &[10, 11, 10, 11]),
        (13, 3, 0b10, &[13, 13, 12]),
        (14, 4, 0, &[14, 14, 14, 14]),
    ] {
        let after = stepped(machine(&[]), &it(condition, count, elses));
        assert_eq!(after.waiting, waiting(wanted));
        assert_eq!(after.registers[15], 0x1002);
    }
}

#[test]
fn every_condition() {
    for flags in 0..16u8 {
        let mut now = machine(&[]);
        [now.n, now.z, now.c, now.v] = [8, 4, 2, 1].map(|bit| flags & bit != 0);
        let (n, z, c, v) = (now.n, now.z, now.c, now.v);
        let wanted = [
            z,
            !z,
            c,
            !c,
            n,
            !n,
            v,
            !v,
            c && !z,
            !c || z,
            n == v,
            n != v,
            !z && n == v,
            z || n != v,
            true,
        ];
        for (condition, passes) in (0..15).zip(wanted) {
            now.waiting = waiting(&[]);
            let own = stepped(now, &b(condition, 0x100)).registers[15];
            assert_eq!(own, if passes { 0x1104 } else { 0x1002 });
            now.waiting = waiting(&[condition, condition]);
            let after = stepped(now, &mov(3, 7));
            assert_eq!(after.registers[3], if passes { 7 } else { 0 });
            assert_eq!(after.waiting, waiting(&[condition]));
            now.waiting = waiting(&[condition]);
            let ruled = stepped(now, &b(14, 0x100));
            assert_eq!(ruled.registers[15], if passes { 0x1104 } else { 0x1002 });
            assert!(ruled.waiting.is_empty());
        }
    }
}

#[test]
fn a_failed_condition_changes_only_r15() {
    let mut now = machine(&[(0, 5), (1, BASE)]);
    (now.n, now.c, now.v) = (true, true, true);
    now.waiting = waiting(&[0, 1, 0]);
    for record in [
        vec![0x02, 2, 3, 0, 0, 5, 0, 0, 0],
        vec![0x0A, 1, 2, 0, 0, 0, 0, 0],
        [single(5, 0, 1, 1, 4)].concat(),
    ] {
        let mut wanted = now;
        wanted.waiting = waiting(&[1, 0]);
        wanted.registers[15] += if record[2] & 2 != 0 { 4 } else { 2 };
        assert_eq!(stepped(now, &record), wanted);
    }
}

#[test]
fn flags_set_in_a_block_rule_the_records_after() {
    // ITTE NE; SUBS R0, R0, 1; MOV R1, 1; MOV R2, 1 with R0 = 1: Z is set by the first
    let listing =
        [&it(1, 3, 0b10)[..], &[0x02, 2, 1, 0, 0, 1, 0, 0, 0], &mov(1, 1), &mov(2, 1)].concat();
    let mut machine = machine(&[(0, 1)]);
    let ran = run(&mut machine, &listing, 0x1000, &mut [], 0, 100);
    assert_eq!(ran, Ran { number: 0, place: 0, count: 4 });
    assert_eq!(machine.registers[..3], [0, 0, 1]);
}

#[test]
fn a_block_not_finished_is_4_at_the_length() {
    assert_eq!(check(&it(0, 1, 0), 0), (4, 5));
    assert_eq!(check(&[&it(0, 2, 0)[..], &NOP].concat(), 0), (4, 7));
    assert_eq!(check(&[&it(0, 2, 0)[..], &NOP, &NOP].concat(), 0), (0, 0));
    assert_eq!(check(&[&it(0, 2, 0)[..], &it(0, 1, 0)].concat(), 0), (4, 5));
}

/// The check, sentence by sentence and without regard to time.
fn slow_check(listing: &[u8], base: u32) -> (u32, u32) {
    if listing.len() > 65_536 || base % 2 == 1 {
        return (1, 0);
    }
    let (mut place, mut address, mut open) = (0, u64::from(base), 0);
    let (mut records, mut landing) = (Vec::new(), Vec::new());
    let mut room = true;
    while place < listing.len() {
        let (record, length) = match second::read::read(listing, place) {
            Ok(read) => read,
            Err(_) => return (2, place as u32),
        };
        let bytes = &listing[place..place + length];
        let number = match bytes[0] {
            0x17 if room && open == 0 => 0,
            0x17 => 4,
            _ => judge(bytes, open),
        };
        if number != 0 {
            return (number, place as u32);
        }
        if open == 0 && bytes[0] != 0x17 {
            landing.push(address);
        }
        room = leaves_room(bytes) && open == 0;
        open = match record.action {
            Action::Control(Control::IfThen { count, .. }) => usize::from(count),
            _ => open.saturating_sub(1),
        };
        records.push((place, address, record));
        place += length;
        address += match record.action {
            Action::Filler { bytes } => u64::from(bytes),
            _ if record.four_bytes => 4,
            _ => 2,
        };
    }
    if open > 0 {
        return (4, place as u32);
    }
    if address > 0xFFFF_FFFE {
        return (1, place as u32);
    }
    landing.push(address);
    for (place, address, record) in records {
        let target = record.direct_target(address as u32).map(u64::from);
        if target.map_or(false, |target| !landing.contains(&target)) {
            return (9, place as u32);
        }
    }
    (0, 0)
}

#[test]
fn the_check_agrees_with_the_slow_one() {
    let mut random = Random(20_240_501);
    let mut seen = [0; 10];
    for _ in 0..60_000 {
        let mut listing = Vec::new();
        let records = random.below(12);
        while listing.len() < 4 * records as usize {
            let record = match random.below(7) {
                0 => b(random.pick(&[14, 14, 3]), 2 * random.below(16) as i32 - 16),
                1 => it(random.below(14) as u8, 1 + random.below(2) as u8, 0),
                2 => vec![0x13, 0, 0, 0, 2 * random.below(8) as u8],
                3 => some_record(&mut random),
                4 => random.pick(&[&bx(1)[..], &table(0, 1, 2), &table(1, 15, 0)]).to_vec(),
                _ => vec![0x15, random.pick(&[0, 2])],
            };
            let fill = if leaves_room(&record) { 2 } else { 60 };
            if judge(&record, 0) == 0 || random.below(20) == 0 {
                listing.extend(record);
            }
            while random.below(fill) == 0 {
                listing.extend(filler(random.pick(&[2, 2, 4, 6, 65_534])));
            }
        }
        let base = random.pick(&[0, 2, 0x1000, 0x1000, 0x1000, 0x1001, 0xFFFF_FFF0, 0xFFFF_FFFE]);
        let found = check(&listing, base);
        assert_eq!(found, slow_check(&listing, base), "{base:X} {listing:02X?}");
        seen[found.0 as usize] += 1;
    }
    assert!([0, 1, 2, 3, 4, 9].iter().all(|&number| seen[number] > 20), "{seen:?}");
}

#[test]
fn a_full_listing_of_branches_is_checked_at_once() {
    let records = 65_536 / 8;
    let mut listing = Vec::new();
    for i in 0..records {
        listing.extend(b(14, 2 * (records - i) - 4));
    }
    let start = std::time::Instant::now();
    assert_eq!(check(&listing, 0x1000), (0, 0));
    let small: Vec<u8> = [0x13, 0, 0, 0, 0].repeat(13_106);
    assert_eq!(check(&small, 0x1000), (9, 5 * 13_105));
    assert!(start.elapsed().as_secs_f64() < 0.5);
    let mut machine = Machine::FRESH;
    machine.registers[15] = 0x1000;
    let ran = run(&mut machine, &listing, 0x1000, &mut [], 0, 5);
    assert_eq!(ran, Ran { number: 0, place: 0, count: 1 });
}
