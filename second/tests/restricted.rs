//! "Restricted (3)": for every record that can be read, by a list of what is allowed.

mod common;
use common::*;
use second::judge::judge;

fn usual(registers: &[u8]) -> bool {
    registers.iter().all(|&register| register != 13 && register != 15)
}

/// Is it read, and if so, is it refused with 3 just when not allowed?
fn agrees(record: &[u8], allowed: bool) {
    let number = judge(record, 0);
    if number != 2 {
        assert_eq!(number, if allowed { 0 } else { 3 }, "{record:02X?}");
    }
}

#[test]
fn kind_01() {
    for op in 0..16 {
        for (s, rd) in (0..16).flat_map(|rd| [(0, rd), (1, rd)]) {
            for (rn, rm) in (0..16).flat_map(|rn| (0..16).map(move |rm| (rn, rm))) {
                for (shift, n) in
                    [(0, 0), (0, 1), (0, 3), (0, 4), (0, 31), (1, 1), (2, 32), (3, 3), (4, 0)]
                {
                    let add_sub = op == 0 || op == 2;
                    let plain = s == 0 && shift == 0 && n == 0;
                    let allowed = usual(&[rd, rn, rm])
                        || add_sub && rn == 13 && usual(&[rd, rm])
                        || add_sub && rn == 13 && rd == 13 && usual(&[rm]) && shift == 0 && n <= 3
                        || (op == 12 || op == 13) && rn == 13 && usual(&[rm])
                        || op == 10 && plain
                        || op == 0 && plain && rd == 15 && rn == 15 && usual(&[rm]);
                    agrees(&[0x01, op, s, rd, rn, rm, shift, n], allowed);
                }
            }
        }
    }
}

#[test]
fn kind_02() {
    for op in 0..16 {
        for (s, rd) in (0..16).flat_map(|rd| [(0, rd), (1, rd)]) {
            for rn in 0..16 {
                let add_sub = op == 0 || op == 2;
                let allowed = usual(&[rd, rn])
                    || add_sub && rn == 13 && rd != 15
                    || (op == 12 || op == 13) && rn == 13;
                agrees(&[0x02, op, s, rd, rn, 4, 0, 0, 0], allowed);
            }
        }
    }
}

#[test]
fn kinds_03_to_0c() {
    for (a, b) in (0..16).flat_map(|a| (0..16).map(move |b| (a, b))) {
        for op in 0..5 {
            agrees(&[0x04, op, 0, a, b, 1, 0], usual(&[a]) || a == 13 && b == 13);
            agrees(&[0x05, op, 0, a, b, 1], usual(&[a]));
            agrees(&[0x06, op, 0, a, b], usual(&[a, b]));
            agrees(&[0x0A, op, 0, a, 5, b, 0, 0], usual(&[a, b]));
            agrees(&[0x0B, op, 0, a, b, 1, 1], usual(&[a, b]));
            agrees(&[0x0C, op, 0, a, b, 0], usual(&[a, b]));
            for c in 0..16 {
                agrees(&[0x03, op, 1, a, b, c], usual(&[a, b, c]));
                agrees(&[0x09, op, 0, a, b, c], usual(&[a, b, c]));
                agrees(&[0x07, 0, 0, a, b, c, 0], usual(&[a, b, c]));
                agrees(&[0x07, 0, 1, a, b, c, 0], a <= 7 && b <= 7 && c == a);
                for d in 0..16 {
                    agrees(&[0x07, op, 0, a, b, c, d], usual(&[a, b, c, d]));
                    agrees(&[0x08, op, 0, a, b, c, d], usual(&[a, b, c, d]) && a != b);
                }
            }
        }
    }
}

#[test]
fn kinds_0d_and_0e() {
    for (rt, rn) in (0..16).flat_map(|rt| (0..16).map(move |rn| (rt, rn))) {
        for op in 0..8 {
            let rt_allowed = match op {
                0 => true,
                5 => rt != 15,
                _ => usual(&[rt]),
            };
            let rn_allowed = rn != 15 || op < 5;
            agrees(&single(op, rt, rn, 0, 0), rt_allowed && rn_allowed);
            for mode in 1..3 {
                agrees(&single(op, rt, rn, mode, 0), rt_allowed && rn != 15 && rn != rt);
            }
            for rm in 0..16 {
                agrees(&[0x0E, op, 0, rt, rn, rm, 0], rt_allowed && rn != 15 && usual(&[rm]));
            }
        }
    }
}

#[test]
fn kind_0f() {
    for (rt, rt2) in (0..16).flat_map(|rt| (0..16).map(move |rt2| (rt, rt2))) {
        for (rn, mode) in (0..16).flat_map(|rn| [(rn, 0), (rn, 1), (rn, 2)]) {
            let loads = usual(&[rt, rt2]) && rt != rt2 && (rn != 15 || mode == 0);
            let stores = usual(&[rt, rt2]) && rn != 15;
            let apart = mode == 0 || rn != rt && rn != rt2;
            agrees(&double(0, rt, rt2, rn, mode, 0), loads && apart);
            agrees(&double(1, rt, rt2, rn, mode, 0), stores && apart);
        }
    }
}

#[test]
fn kind_10() {
    for list in 0..=0xFFFFu16 {
        let has =
            |register: u8| list.to_le_bytes()[usize::from(register / 8)] >> (register % 8) & 1 == 1;
        for rn in 0..16 {
            for write_back in 0..2 {
                let both = list != 0 && !has(13) && rn != 15 && !(write_back == 1 && has(rn));
                let loads = both && !(has(14) && has(15));
                let stores = both && !has(15);
                for (op, allowed) in [(0, loads), (1, loads), (2, stores), (3, stores)] {
                    agrees(&multiple(op, rn, write_back, list), allowed);
                }
            }
        }
    }
}

#[test]
fn kinds_11_to_15() {
    for rm in 0..16 {
        agrees(&[0x12, 0, 0, rm], true);
        agrees(&[0x12, 1, 0, rm], rm != 15);
    }
    for condition in 0..15 {
        agrees(&b(condition, 0), true);
        for (count, elses) in (1..5).flat_map(|count| (0..8).map(move |elses| (count, elses))) {
            agrees(&it(condition, count, elses), condition != 14 || elses == 0);
        }
    }
    agrees(&bl(0), true);
    agrees(&NOP, true);
    assert_eq!(judge(&it(14, 2, 1), 0), 3);
    assert_eq!(judge(&it(14, 2, 2), 0), 2);
}
