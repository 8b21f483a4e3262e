//! Loads and stores of kinds 0D to 10: what they read, write, and write back.

mod common;
use common::*;
use second::step::step;

#[test]
fn single_accesses() {
    let memory: Vec<u8> = (0x81..0x81 + 64).collect();
    let now = machine(&[(0, 0x1122_3344), (1, BASE + 8), (2, 3)]);
    for (op, value) in
        [(0, 0x8F8E_8D8C), (1, 0x8C), (2, 0x8D8C), (3, 0xFFFF_FF8C), (4, 0xFFFF_8D8C)]
    {
        for (record, base) in [
            (single(op, 0, 1, 0, 3), BASE + 8),
            (single(op, 0, 1, 1, 3), BASE + 11),
            (vec![0x0E, op, 0, 0, 1, 2, 0], BASE + 8),
        ] {
            let (mut after, mut bytes) = (now, memory.clone());
            assert_eq!(step(&mut after, &record, &mut bytes, BASE), 0);
            assert_eq!((after.registers[0], after.registers[1]), (value, base));
            assert_eq!(bytes, memory);
        }
    }
    for (op, stored) in [(5, &[0x44, 0x33, 0x22, 0x11][..]), (6, &[0x44]), (7, &[0x44, 0x33])] {
        for (record, at, base) in [
            (single(op, 0, 1, 0, -7), 1, BASE + 8),
            (single(op, 0, 1, 1, -7), 1, BASE + 1),
            (single(op, 0, 1, 2, -7), 8, BASE + 1),
            (vec![0x0E, op, 0, 0, 1, 2, 3], 32, BASE + 8),
        ] {
            let (mut after, mut bytes) = (now, memory.clone());
            assert_eq!(step(&mut after, &record, &mut bytes, BASE), 0);
            let mut wanted = memory.clone();
            wanted[at..at + stored.len()].copy_from_slice(stored);
            assert_eq!(bytes, wanted);
            assert_eq!((after.registers[0], after.registers[1]), (0x1122_3344, base));
        }
    }
}

#[test]
fn double_accesses() {
    let now = machine(&[(0, BASE + 8), (2, 0x0403_0201), (3, 0x0807_0605)]);
    let mut memory = [0; 64];
    let mut machine = now;
    assert_eq!(step(&mut machine, &double(1, 2, 3, 0, 1, -4), &mut memory, BASE), 0);
    assert_eq!(memory[4..12], [1, 2, 3, 4, 5, 6, 7, 8]);
    assert_eq!(machine.registers[0], BASE + 4);
    assert_eq!(step(&mut machine, &double(0, 5, 4, 0, 2, 1020), &mut memory, BASE), 0);
    assert_eq!((machine.registers[5], machine.registers[4]), (0x0403_0201, 0x0807_0605));
    assert_eq!(machine.registers[0], BASE + 1024);
    // Rn may be Rt without write-back
    let mut machine = now;
    assert_eq!(step(&mut machine, &double(0, 0, 1, 0, 0, -4), &mut memory, BASE), 0);
    assert_eq!((machine.registers[0], machine.registers[1]), (0x0403_0201, 0x0807_0605));
}

#[test]
fn multiple_accesses() {
    let registers = [(1, 0x11), (4, 0x44), (7, 0x77), (13, BASE + 32)];
    for (op, first, base) in [(2, 32, BASE + 44), (3, 20, BASE + 20)] {
        for write_back in 0..2 {
            let (mut after, mut memory) = (machine(&registers), [0; 64]);
            let record = multiple(op, 13, write_back, 0b1001_0010);
            assert_eq!(step(&mut after, &record, &mut memory, BASE), 0);
            let words = [0x11, 0, 0, 0, 0x44, 0, 0, 0, 0x77, 0, 0, 0];
            assert_eq!(memory[first..first + 12], words);
            assert_eq!(after.registers[13], if write_back == 1 { base } else { BASE + 32 });
        }
    }
    let mut memory: Vec<u8> = (1..65).collect();
    for (op, first, base) in [(0, 0x2423_2221, BASE + 40), (1, 0x1C1B_1A19, BASE + 24)] {
        let mut after = machine(&registers);
        assert_eq!(step(&mut after, &multiple(op, 13, 1, 0x8001), &mut memory, BASE), 0);
        assert_eq!((after.registers[0], after.registers[13]), (first, base));
        assert_eq!(after.registers[15], (first + 0x0404_0404) & !1);
    }
    // Rn in the list, without write-back
    let mut after = machine(&[(1, BASE), (0, 9)]);
    assert_eq!(step(&mut after, &multiple(0, 1, 0, 7), &mut memory, BASE), 0);
    assert_eq!(after.registers[..3], [0x0403_0201, 0x0807_0605, 0x0C0B_0A09]);
    let mut after = machine(&[(1, BASE), (0, 9)]);
    assert_eq!(step(&mut after, &multiple(2, 1, 0, 3), &mut memory, BASE), 0);
    assert_eq!(memory[..8], [9, 0, 0, 0, 0, 0, 0, 0x20]);
}

#[test]
fn ldr_to_r15_may_write_its_base_back_too() {
    let mut memory = [0; 64];
    memory[..4].copy_from_slice(&0x3001u32.to_le_bytes());
    let mut after = machine(&[(13, BASE)]);
    assert_eq!(step(&mut after, &single(0, 15, 13, 2, 4), &mut memory, BASE), 0);
    assert_eq!((after.registers[13], after.registers[15]), (BASE + 4, 0x3000));
    let mut after = machine(&[(13, BASE)]);
    assert_eq!(step(&mut after, &single(0, 15, 13, 2, 2), &mut memory, BASE), 7);
}
