//! "What a step does", sentence by sentence.

mod common;
use common::*;
use second::step::step;

/// Kind 01 and kind 03 with S, R0 from R1 and R2.
fn operate(op: u8, shift: u8, n: u8) -> [u8; 8] {
    [0x01, op, 1, 0, 1, 2, shift, n]
}

#[test]
fn r15_as_operand_and_as_base() {
    let now = machine(&[(15, 0x1002), (1, 6)]);
    assert_eq!(stepped(now, &[0x01, 10, 0, 0, 0, 15, 0, 0]).registers[0], 0x1006);
    assert_eq!(stepped(now, &[0x01, 0, 0, 15, 15, 1, 0, 0]).registers[15], 0x100C);
    assert_eq!(stepped(now, &[0x04, 0, 2, 0, 15, 8, 0]).registers[0], 0x100C);
    assert_eq!(stepped(now, &[0x04, 1, 2, 0, 15, 8, 0]).registers[0], 0x0FFC);
    let mut memory: Vec<u8> = (0..64).collect();
    for (record, register, value) in [
        (single(0, 0, 15, 0, 4), 0, 0x0B0A_0908),
        (single(0, 0, 15, 0, -4), 0, 0x0302_0100),
        (double(0, 2, 3, 15, 0, 4), 3, 0x0F0E_0D0C),
    ] {
        let mut machine = machine(&[(15, 0x1002)]);
        assert_eq!(step(&mut machine, &record, &mut memory, 0x1000), 0);
        assert_eq!(machine.registers[register], value);
    }
}

#[test]
fn sums_are_taken_modulo_2_to_the_32() {
    let top = machine(&[(15, 0xFFFF_FFFE)]);
    assert_eq!(stepped(top, &NOP).registers[15], 0);
    assert_eq!(stepped(top, &[0x15, 2]).registers[15], 2);
    assert_eq!(stepped(top, &[0x01, 10, 0, 0, 0, 15, 0, 0]).registers[0], 2);
    assert_eq!(stepped(top, &b(14, 0)).registers[15], 2);
    assert_eq!(stepped(machine(&[(15, 0)]), &b(14, -6)).registers[15], 0xFFFF_FFFE);
    assert_eq!(stepped(top, &bl(-8)).registers[14], 3);
    let mut memory = [7; 64];
    let mut wrapped = machine(&[(0, 0xFFFF_FFFF), (1, 2)]);
    assert_eq!(step(&mut wrapped, &[0x0E, 1, 0, 2, 0, 1, 1], &mut memory, 0), 0);
    assert_eq!(wrapped.registers[2], 7);
}

#[test]
fn branches_and_links() {
    let now = machine(&[(0, 1), (3, 0x4567), (14, 0x2001)]);
    let linked = stepped(now, &bl(0x20));
    assert_eq!((linked.registers[15], linked.registers[14]), (0x1024, 0x1005));
    // "BLX reads Rm first."
    let linked = stepped(now, &[0x12, 1, 0, 14]);
    assert_eq!((linked.registers[15], linked.registers[14]), (0x2000, 0x1003));
    let gone = stepped(now, &[0x12, 0, 0, 3]);
    assert_eq!((gone.registers[15], gone.registers[14]), (0x4566, 0x2001));
    for (op, rn, wanted) in [(0, 1, 0x100E), (0, 0, 0x1002), (1, 1, 0x1002), (1, 0, 0x100E)] {
        assert_eq!(stepped(now, &[0x13, op, 0, rn, 10]).registers[15], wanted);
    }
    assert_eq!(stepped(now, &[0x01, 10, 0, 15, 0, 3, 0, 0]).registers[15], 0x4566);
}

#[test]
fn arithmetic_sets_all_four() {
    let now = |c| with_flags(&[(0, 9), (1, 5), (2, 7)], [false, true, c, true]);
    for (op, c, value, flags) in [
        (0, false, 12, "00000"),
        (1, true, 13, "00000"),
        (2, true, 0xFFFF_FFFE, "10000"),
        (3, false, 0xFFFF_FFFD, "10000"),
        (3, true, 0xFFFF_FFFE, "10000"),
        (4, false, 2, "00100"),
    ] {
        let after = stepped(now(c), &operate(op, 0, 0));
        assert_eq!((after.registers[0], nzcvq(&after).as_str()), (value, flags), "op {op}");
    }
    for (op, flags) in [(12, "10000"), (13, "00000")] {
        let after = stepped(now(true), &operate(op, 0, 0));
        assert_eq!((after.registers[0], nzcvq(&after).as_str()), (9, flags), "op {op}");
    }
    let equal = stepped(now(false), &[0x02, 12, 1, 0, 1, 5, 0, 0, 0]);
    assert_eq!(nzcvq(&equal), "01100");
}

#[test]
fn logic_sets_n_z_and_c_from_the_shifter_and_never_v() {
    let now = with_flags(&[(0, 9), (1, 0xF0F0_F0F0), (2, 0x8000_000C)], [false, true, false, true]);
    // R2 LSR 3 is 0x10000001, and 1 is carried; R2 LSL 1 is 0x18, and 1 is carried
    for (op, shift, n, value, flags) in [
        (5, 0, 0, 0x8000_0000, "10010"),
        (5, 1, 3, 0x1000_0000, "00110"),
        (6, 0, 1, 0xF0F0_F0F8, "10110"),
        (7, 0, 0, 0x70F0_F0FC, "00010"),
        (8, 0, 0, 0x70F0_F0F0, "00010"),
        (9, 0, 0, 0xFFFF_FFF3, "10010"),
        (14, 2, 32, 9, "10110"),
        (15, 3, 4, 9, "00110"),
    ] {
        let after = stepped(now, &operate(op, shift, n));
        assert_eq!((after.registers[0], nzcvq(&after).as_str()), (value, flags), "op {op}");
    }
    let moved = stepped(now, &[0x01, 10, 1, 0, 0, 2, 0, 0]);
    assert_eq!((moved.registers[0], nzcvq(&moved).as_str()), (0x8000_000C, "10010"));
    let moved = stepped(now, &[0x01, 11, 1, 0, 0, 2, 0, 0]);
    assert_eq!((moved.registers[0], nzcvq(&moved).as_str()), (0x7FFF_FFF3, "00010"));
    let without_s = stepped(now, &[0x01, 11, 0, 0, 0, 2, 0, 1]);
    assert_eq!((without_s.registers[0], nzcvq(&without_s).as_str()), (0xFFFF_FFE7, "01010"));
}

#[test]
fn the_carry_of_constants() {
    for (constant, kept, given) in [
        (0xFFu32, true, false),
        (0, true, false),
        (0x100, false, false),
        (0x8000_0000, false, true),
        (0xFF00_0000, false, true),
        (0x7F80_0000, false, false),
        (0x00AB_00AB, true, false),
        (0xAB00_AB00, true, false),
        (0xABAB_ABAB, true, false),
    ] {
        for carry in [false, true] {
            let now = with_flags(&[], [false, false, carry, false]);
            let mut record = mov(0, constant);
            record[2] = 1;
            let after = stepped(now, &record);
            assert_eq!(after.c, if kept { carry } else { given }, "{constant:X}");
            assert_eq!(after.registers[0], constant);
        }
    }
}

#[test]
fn kind_03_shifts_by_0_to_255() {
    let x = 0x8000_0001;
    for (shift, amount, value, carry) in [
        (0, 1, 2, Some(true)),
        (0, 32, 0, Some(true)),
        (0, 33, 0, Some(false)),
        (0, 255, 0, Some(false)),
        (1, 31, 1, Some(false)),
        (1, 32, 0, Some(true)),
        (1, 33, 0, Some(false)),
        (1, 255, 0, Some(false)),
        (2, 31, 0xFFFF_FFFF, Some(false)),
        (2, 32, 0xFFFF_FFFF, Some(true)),
        (2, 255, 0xFFFF_FFFF, Some(true)),
        (3, 1, 0xC000_0000, Some(true)),
        (3, 32, x, Some(true)),
        (3, 33, 0xC000_0000, Some(true)),
        (3, 63, 3, Some(false)),
        (3, 64, x, Some(true)),
        (3, 224, x, Some(true)),
        (3, 255, 3, Some(false)),
        (0, 0, x, None),
        (1, 0, x, None),
        (2, 0, x, None),
        (3, 0, x, None),
    ] {
        for c in [false, true] {
            let now = with_flags(&[(1, x), (2, amount)], [false, true, c, true]);
            let after = stepped(now, &[0x03, shift, 1, 0, 1, 2]);
            assert_eq!(after.registers[0], value, "shift {shift} by {amount}");
            assert_eq!(after.c, carry.unwrap_or(c), "shift {shift} by {amount}");
            assert_eq!((after.n, after.z, after.v), (value >> 31 == 1, value == 0, true));
            let kept = stepped(now, &[0x03, shift, 0, 0, 1, 2]);
            assert_eq!((kept.registers[0], nzcvq(&kept)), (value, nzcvq(&now)));
        }
    }
}

#[test]
fn products() {
    let now = with_flags(&[(0, 10), (1, 0xFFFF_FFFF), (2, 3), (3, 100)], [false, true, true, true]);
    let muls = stepped(now, &[0x07, 0, 1, 2, 1, 2, 0]);
    assert_eq!((muls.registers[2], nzcvq(&muls).as_str()), (0xFFFF_FFFD, "10110"));
    assert_eq!(stepped(now, &[0x07, 1, 2, 0, 1, 2, 3]).registers[0], 97);
    assert_eq!(stepped(now, &[0x07, 2, 2, 0, 1, 2, 3]).registers[0], 103);
    for (op, low, high) in
        [(0, 0xFFFF_FFFD, 2), (1, 7, 103), (2, 0xFFFF_FFFD, 0xFFFF_FFFF), (3, 7, 100)]
    {
        let after = stepped(now, &[0x08, op, 2, 0, 3, 1, 2]);
        assert_eq!((after.registers[0], after.registers[3]), (low, high), "op {op}");
    }
}

#[test]
fn values_of_kinds_04_to_0c() {
    let now = machine(&[(0, 0x1122_3344), (1, 0x8091_A2B3), (2, 5), (13, 0x100)]);
    for (record, value) in [
        (&[0x04, 0, 2, 0, 2, 0xFF, 0x0F][..], 5 + 4095),
        (&[0x04, 1, 2, 0, 2, 6, 0], 0xFFFF_FFFF),
        (&[0x04, 1, 2, 0, 13, 6, 0], 0xFA),
        (&[0x05, 0, 2, 0, 0xCD, 0xAB], 0xABCD),
        (&[0x05, 1, 2, 0, 0xCD, 0xAB], 0xABCD_3344),
        (&[0x06, 0, 2, 0, 2], 29),
        (&[0x06, 0, 2, 0, 3], 32),
        (&[0x06, 1, 0, 0, 1], 0xB3A2_9180),
        (&[0x06, 2, 0, 0, 1], 0x9180_B3A2),
        (&[0x06, 3, 0, 0, 1], 0xFFFF_B3A2),
        (&[0x06, 4, 2, 0, 1], 0xCD45_8901),
        (&[0x09, 0, 2, 0, 1, 2], 0xE683_86F1),
        (&[0x09, 1, 2, 0, 1, 2], 0x19B6_BA23),
        (&[0x0B, 0, 2, 0, 0, 4, 24], 0x1000_0004),
        (&[0x0B, 1, 2, 0, 1, 28, 4], 0x3122_3344),
        (&[0x0B, 2, 2, 0, 1, 4, 8], 0x2B),
        (&[0x0B, 2, 2, 0, 1, 8, 8], 0xFFFF_FFA2),
        (&[0x0B, 3, 2, 0, 1, 8, 8], 0xA2),
        (&[0x0B, 3, 2, 0, 1, 0, 32], 0x8091_A2B3),
        (&[0x0C, 0, 0, 0, 1, 0], 0xFFFF_FFB3),
        (&[0x0C, 0, 0, 0, 0, 8], 0x33),
        (&[0x0C, 1, 0, 0, 1, 24], 0xFFFF_B380),
        (&[0x0C, 2, 0, 0, 1, 16], 0x91),
        (&[0x0C, 3, 0, 0, 1, 8], 0x91A2),
    ] {
        let after = stepped(now, record);
        assert_eq!(after.registers[0], value, "{record:02X?}");
        assert_eq!(nzcvq(&after), "00000");
    }
}

#[test]
fn saturation_only_ever_sets_q() {
    for q in [false, true] {
        let mut now = machine(&[(1, 0xFFFF_FF00), (2, 0x0800_0001)]);
        now.q = q;
        for (op, bits, rm, shift, s, value, saturated) in [
            (0, 9, 1, 0, 0, 0xFFFF_FF00, false),
            (0, 8, 1, 0, 0, 0xFFFF_FF80, true),
            (0, 32, 1, 0, 31, 0, false),
            (0, 5, 1, 2, 4, 0xFFFF_FFF0, false),
            (0, 4, 1, 2, 4, 0xFFFF_FFF8, true),
            (1, 31, 1, 0, 0, 0, true),
            (1, 0, 1, 0, 0, 0, true),
            (1, 8, 2, 0, 0, 0xFF, true),
            // LSL keeps 32 bits: 0x08000001 LSL 5 is 0x20
            (1, 6, 2, 0, 5, 0x20, false),
            (1, 5, 2, 0, 5, 0x1F, true),
            (1, 1, 2, 2, 27, 1, false),
        ] {
            let record = [0x0A, op, 2, 0, bits, rm, shift, s];
            let after = stepped(now, &record);
            assert_eq!(after.registers[0], value, "{record:02X?}");
            assert_eq!(after.q, q || saturated, "{record:02X?}");
        }
    }
}
