//! The orders of paper 02 that have landed, sentence by sentence.

mod common;
use common::*;
use second::machine::Machine;

const LSL: u8 = 0;
const LSR: u8 = 1;
const ASR: u8 = 2;
const ROR: u8 = 3;

/// Kind 03, R0 from R1 by R2.
fn shift_by(shift: u8, s: u8) -> [u8; 6] {
    [0x03, shift, s, 0, 1, 2]
}

/// Flags are the bits N, Z, C and V.
fn before(r1: u32, r2: u32, flags: u8) -> Machine {
    with_flags(&[(0, 9), (1, r1), (2, r2)], [8, 4, 2, 1].map(|bit| flags & bit != 0))
}

/// What a record of 2 machine bytes makes of the machine when it puts the value in R0 and, with S,
/// sets N, Z and C.
fn moved(now: Machine, s: u8, value: u32, carry: bool) -> Machine {
    let mut next = now;
    next.registers[0] = value;
    next.registers[15] = 0x1002;
    if s == 1 {
        (next.n, next.z, next.c) = (value >> 31 == 1, value == 0, carry);
    }
    next
}

/// Each shift, without and with S, of words at edges, with C clear and with C set before.
fn each(test: impl Fn(u8, u8, u32, u8)) {
    for shift in [LSL, LSR, ASR, ROR] {
        for s in [0, 1] {
            for x in [0, 1, 0x7FFF_FFFF, 0x8000_0000, 0xFFFF_FFFF, 0xA5C3_0F96] {
                for flags in [0b0101, 0b1010] {
                    test(shift, s, x, flags);
                }
            }
        }
    }
}

/// A shift by one place after the other. C is the last bit that left, so paper 01's sentences on 32
/// and above come out by themselves.
fn place_by_place(shift: u8, amount: u32, x: u32, carry: bool) -> (u32, bool) {
    (0..amount).fold((x, carry), |(x, _), _| match shift {
        LSL => (x << 1, x >> 31 == 1),
        LSR => (x >> 1, x & 1 == 1),
        ASR => (((x as i32) >> 1) as u32, x & 1 == 1),
        _ => (x.rotate_right(1), x & 1 == 1),
    })
}

#[test]
fn order_2_the_old_routine() {
    // "put 0x0101 in the amount register and our stepper gave zero where the chip shifted by 1"
    let movw = [0x05, 0, 2, 2, 0x01, 0x01];
    let listing = [&movw[..], &mov(1, 5)[..], &shift_by(LSL, 0)[..]].concat();
    let text = second::program::program(&listing);
    assert!(text.starts_with("end 0 steps 3\nR0 0000000A\nR1 00000005\nR2 00000101\n"), "{text}");
}

#[test]
fn order_2_the_amount_is_the_lowest_eight_bits() {
    // by 1, by 32, by 255
    for (shift, x, [by_1, by_32, by_255]) in [
        (LSL, 0xA5C3_0F96, [(0x4B86_1F2C, true), (0, false), (0, false)]),
        (LSR, 0xA5C3_0F96, [(0x52E1_87CB, false), (0, true), (0, false)]),
        (ASR, 0xA5C3_0F96, [(0xD2E1_87CB, false), (0xFFFF_FFFF, true), (0xFFFF_FFFF, true)]),
        (ROR, 0xA5C3_0F96, [(0x52E1_87CB, false), (0xA5C3_0F96, true), (0x4B86_1F2D, false)]),
        (LSL, 0x6000_0003, [(0xC000_0006, false), (0, true), (0, false)]),
        (LSR, 0x6000_0003, [(0x3000_0001, true), (0, false), (0, false)]),
        (ASR, 0x6000_0003, [(0x3000_0001, true), (0, false), (0, false)]),
        (ROR, 0x6000_0003, [(0xB000_0001, true), (0x6000_0003, false), (0xC000_0006, true)]),
    ] {
        for (rs, shifted) in [
            (0x100, None),
            (0x101, Some(by_1)),
            (0x120, Some(by_32)),
            (0x1FF, Some(by_255)),
            (0xFFFF_FF00, None),
            (0xFFFF_FFFF, Some(by_255)),
        ] {
            for flags in 0..16 {
                let now = before(x, rs, flags);
                let (value, carry) = shifted.unwrap_or((x, now.c));
                for s in [0, 1] {
                    let after = stepped(now, &shift_by(shift, s));
                    assert_eq!(after, moved(now, s, value, carry), "shift {shift} by {rs:X}");
                }
            }
        }
    }
}

#[test]
fn order_2_amount_0_leaves_c_alone() {
    // N and Z are set, V stays (S25)
    for (x, nz) in [(0, "01"), (1, "00"), (0x8000_0000, "10")] {
        for rs in [0, 0x100, 0x8000_0000, 0xFFFF_FF00] {
            for shift in [LSL, LSR, ASR, ROR] {
                for flags in 0..16 {
                    let now = before(x, rs, flags);
                    let set = stepped(now, &shift_by(shift, 1));
                    let wanted = format!("{nz}{:02b}0", flags & 0b11);
                    assert_eq!((set.registers[0], nzcvq(&set)), (x, wanted));
                    let kept = stepped(now, &shift_by(shift, 0));
                    assert_eq!((kept.registers[0], nzcvq(&kept)), (x, nzcvq(&now)));
                }
            }
        }
    }
}

#[test]
fn order_2_every_rs_is_as_its_low_byte() {
    each(|shift, s, x, flags| {
        for low in 0..=0xFF {
            let alone = stepped(before(x, low, flags), &shift_by(shift, s));
            for high in [0x100, 0x2000, 0x0101_0100, 0x8000_0000, 0xFFFF_FF00] {
                let mut after = stepped(before(x, high | low, flags), &shift_by(shift, s));
                assert_eq!(after.registers[2], high | low);
                after.registers[2] = low;
                assert_eq!(after, alone, "shift {shift} of {x:X} by {low:X} under {high:X}");
            }
        }
    });
}

#[test]
fn order_2_leaves_0_to_255_as_they_were() {
    each(|shift, s, x, flags| {
        for rs in 0..=0xFF {
            let now = before(x, rs, flags);
            let (value, carry) = place_by_place(shift, rs, x, now.c);
            let after = stepped(now, &shift_by(shift, s));
            assert_eq!(after, moved(now, s, value, carry), "shift {shift} of {x:X} by {rs}");
        }
    });
}

#[test]
fn order_2_takes_rn_whole() {
    // R3 from R3 by R3
    for (shift, x, value, flags) in [
        (LSL, 0xFFFF_FF01, 0xFFFF_FE02, "10100"),
        (LSR, 0x0000_0104, 0x0000_0010, "00000"),
        (ASR, 0xFFFF_FF02, 0xFFFF_FFC0, "10100"),
        (ROR, 0x0000_0101, 0x8000_0080, "10100"),
        (ROR, 0x8000_0100, 0x8000_0100, "10000"),
    ] {
        let after = stepped(machine(&[(3, x)]), &[0x03, shift, 1, 3, 3, 3]);
        assert_eq!((after.registers[3], nzcvq(&after).as_str()), (value, flags), "{x:X}");
    }
}

#[test]
fn order_2_leaves_kinds_01_and_0a() {
    each(|shift, s, x, flags| {
        let now = before(x, 0x101, flags);
        let (least, most) = [(0, 31), (1, 32), (1, 32), (1, 31)][usize::from(shift)];
        for n in least..=most {
            let (value, carry) = place_by_place(shift, u32::from(n), x, now.c);
            let after = stepped(now, &[0x01, 10, s, 0, 0, 1, shift, n]);
            assert_eq!(after, moved(now, s, value, carry), "shift {shift} of {x:X} by {n}");
            // SSAT to 32 bits is the shift alone
            if n < 32 && (shift == LSL || shift == ASR) {
                let after = stepped(now, &[0x0A, 0, 0, 0, 32, 1, shift, n]);
                assert_eq!(after, moved(now, 0, value, carry), "shift {shift} of {x:X} by {n}");
            }
        }
    });
}
