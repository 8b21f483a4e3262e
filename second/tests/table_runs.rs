//! Order 1 of paper 02: runs by tables and to fillers (S20 to S22).

mod common;
use common::tables::*;
use common::*;
use second::program::program;
use second::run::run;

#[test]
fn r15_at_a_filler_is_8() {
    // NOP 1000, BX 1002, filler 1004 to 1009, filler 100A, NOP 100C, B 100E, filler 1010 to 1013
    let listing = join(&[&NOP, &bx(14), &filler(6), &filler(2), &NOP, &b(14, -4), &filler(4)]);
    for budget in [0, 1, 2, u32::MAX] {
        let number = |address, conditions: &[u8]| {
            let mut machine = waits(machine(&[(15, address)]), conditions);
            let before = machine;
            let ended = run(&mut machine, &listing, CODE, &mut [], 0, budget);
            assert!(ended.number != 8 || machine == before);
            ended
        };
        for address in [0x1004, 0x1006, 0x1008, 0x100A, 0x1010, 0x1012] {
            assert_eq!(number(address, &[]), ran(8, 0, 0), "{address:X}");
            assert_eq!(number(address, &[14]), ran(8, 0, 0), "{address:X}");
        }
        // the end behind a filler, and past it
        assert_eq!(number(0x1014, &[]), ran(0, 0, 0));
        assert_eq!(number(0x1014, &[0]), ran(8, 0, 0));
        assert_eq!(number(0x1016, &[]), ran(8, 0, 0));
        assert_eq!(number(0x0FFE, &[]), ran(8, 0, 0));
        if budget < 3 {
            // right behind a filler, and on a record before one
            assert_eq!(number(0x100C, &[]), ran(10, 0, budget));
            assert_eq!(number(0x100C, &[0]), ran(8, 0, 0));
            assert_eq!(number(0x100E, &[]), ran(10, 0, budget));
        }
    }
    // a bad machine and a bad memory come first
    let mut bad = machine(&[(15, 0x1004), (13, 2)]);
    assert_eq!(run(&mut bad, &listing, CODE, &mut [], 0, 0), ran(1, 0, 0));
    let mut odd = machine(&[(15, 0x1005)]);
    assert_eq!(run(&mut odd, &listing, CODE, &mut [], 0, 0), ran(1, 0, 0));
    let mut at_filler = machine(&[(15, 0x1004)]);
    assert_eq!(run(&mut at_filler, &listing, CODE, &mut [0; 2], 0xFFFF_FFFF, 0), ran(1, 0, 0));
}

#[test]
fn a_run_that_goes_to_a_filler() {
    // BX 1000, filler 1002 to 1005, NOP 1006, end 1008
    let listing = join(&[&bx(14), &filler(4), &NOP]);
    for (lr, number, count) in [
        (0x1003, 8, 1),
        (0x1005, 8, 1),
        (0x1007, 0, 2),
        (0x1009, 0, 1),
        (0x100B, 8, 1),
        (0x1002, 7, 0),
        (0x1001, 10, 9),
    ] {
        let ended = run(&mut machine(&[(14, lr)]), &listing, CODE, &mut [], 0, 9);
        assert_eq!(ended, ran(number, 0, count), "{lr:X}");
    }
    // 8 before 10
    let ended = run(&mut machine(&[(14, 0x1003)]), &listing, CODE, &mut [], 0, 1);
    assert_eq!(ended, ran(8, 0, 1));
    let ended = run(&mut machine(&[(14, 0x1007)]), &listing, CODE, &mut [], 0, 1);
    assert_eq!(ended, ran(10, 0, 1));
    let ended = run(&mut machine(&[(14, 0x1009)]), &listing, CODE, &mut [], 0, 1);
    assert_eq!(ended, ran(0, 0, 1));
}

#[test]
fn a_filler_first() {
    for listing in [filler(2), filler(65_534), join(&[&filler(2), &NOP])] {
        for budget in [0, 1, u32::MAX] {
            let ended = run(&mut machine(&[]), &listing, CODE, &mut [], 0, budget);
            assert_eq!(ended, ran(8, 0, 0));
        }
        let text = program(&listing);
        assert!(text.starts_with("end 8 steps 0\nR0 00000000\n"), "{text}");
        assert!(text.contains("\nR13 20008000\nR14 00000000\nR15 00001000\nNZCVQ 00000\n"));
    }
    assert!(program(&[]).starts_with("end 0 steps 0\n"));
    // from behind it all is well
    let listing = join(&[&filler(0x100), &NOP]);
    let ended = run(&mut machine(&[(15, 0x1100)]), &listing, CODE, &mut [], 0, 1);
    assert_eq!(ended, ran(0, 0, 1));
}

/// TBB or TBH [R15, R0] at 1000, its table to 1007, three arms at 1008, 100C and 1010, end 1012.
fn switch(op: u8) -> Vec<u8> {
    join(&[&table(op, 15, 0), &filler(4), &mov(1, 1), &b(14, 4), &mov(1, 2), &b(14, 0), &mov(1, 3)])
}

#[test]
fn a_run_by_a_table_between_the_records() {
    // memory over the code: the table's entries are at 1004
    let mut memory = [0xEE; 64];
    memory[4..8].copy_from_slice(&[2, 4, 6, 0]);
    for (r0, number, count, r1) in
        [(0, 0, 3, 1), (1, 0, 3, 2), (2, 0, 2, 3), (3, 8, 1, 0), (4, 8, 1, 0)]
    {
        let mut machine = machine(&[(0, r0)]);
        let ended = run(&mut machine, &switch(TBB), CODE, &mut memory, CODE, 9);
        assert_eq!((ended, machine.registers[1]), (ran(number, 0, count), r1), "{r0}");
    }
    assert_eq!(memory[8], 0xEE);
    memory[4..8].copy_from_slice(&[4, 0, 7, 0]);
    for (r0, number, count, r1, r15) in
        [(0, 0, 3, 2, 0x1012), (1, 0, 1, 0, 0x1012), (0x8000_0000, 0, 3, 2, 0x1012)]
    {
        let mut machine = machine(&[(0, r0)]);
        let ended = run(&mut machine, &switch(TBH), CODE, &mut memory, CODE, 9);
        let found = (ended, machine.registers[1], machine.registers[15]);
        assert_eq!(found, (ran(number, 0, count), r1, r15), "{r0}");
    }
    // the listing is not memory: without lent bytes, or past them, it is 6 at the record's place
    for op in [TBB, TBH] {
        let mut machine = machine(&[(0, 60)]);
        let before = machine;
        assert_eq!(run(&mut machine, &switch(op), CODE, &mut [], CODE, 9), ran(6, 0, 0));
        assert_eq!(run(&mut machine, &switch(op), CODE, &mut memory, CODE, 9), ran(6, 0, 0));
        assert_eq!(machine, before);
        let later = join(&[&NOP, &switch(op)]);
        assert_eq!(run(&mut machine, &later, CODE, &mut memory, BASE, 9), ran(6, 2, 1));
    }
    let text = program(&switch(TBB));
    assert!(text.starts_with("end 6 steps 0\nR0 00000000\n"), "{text}");
}

#[test]
fn a_stray_target_is_8_in_the_next_round() {
    // TBB 1000, filler 1004 to 1007, IT 1008, NOP 100A, NOP of 4 100C, end 1010
    let listing = join(&[&table(TBB, 2, 0), &filler(4), &it(0, 1, 0), &NOP, &[0x15, 2]]);
    for (entry, number, count) in [
        (0, 8, 1),
        (1, 8, 1),
        (2, 0, 4),
        (3, 8, 1),
        (4, 0, 2),
        (5, 8, 1),
        (6, 0, 1),
        (7, 8, 1),
        (0xFF, 8, 1),
    ] {
        let mut memory = [entry];
        let go = |memory: &mut [u8], budget| {
            run(&mut machine(&[(2, BASE)]), &listing, CODE, memory, BASE, budget)
        };
        assert_eq!(go(&mut memory, 9), ran(number, 0, count), "{entry}");
        // 0 and 8 before 10
        let wanted = if count == 1 { ran(number, 0, 1) } else { ran(10, 0, 1) };
        assert_eq!(go(&mut memory, 1), wanted, "{entry}");
        assert_eq!(go(&mut memory, 0), ran(10, 0, 0), "{entry}");
    }
}

#[test]
fn a_table_branch_at_the_end_of_a_block() {
    // IT 1000, TBB 1002, MOV R1,1 1006, end 1008; the target is 1006 + 2 * entry
    for (condition, passes) in [(0, false), (1, true), (14, true)] {
        let listing = join(&[&it(condition, 1, 0), &table(TBB, 2, 0), &mov(1, 1)]);
        for (entry, number, count, r1) in [(0, 0, 3, 1), (1, 0, 2, 0), (2, 8, 2, 0)] {
            let wanted = if passes { (ran(number, 0, count), r1) } else { (ran(0, 0, 3), 1) };
            let mut machine = machine(&[(2, BASE)]);
            let ended = run(&mut machine, &listing, CODE, &mut [entry], BASE, 9);
            assert_eq!((ended, machine.registers[1]), wanted, "{condition} {entry}");
        }
        let ended = run(&mut machine(&[]), &listing, CODE, &mut [], BASE, 9);
        assert_eq!(ended, if passes { ran(6, 5, 1) } else { ran(0, 0, 3) });
        // begun in the block
        let mut inside = waits(machine(&[(15, 0x1002), (2, BASE)]), &[condition]);
        let ended = run(&mut inside, &listing, CODE, &mut [1], BASE, 9);
        assert_eq!(ended, if passes { ran(0, 0, 1) } else { ran(0, 0, 2) });
    }
}

#[test]
fn a_table_written_by_the_run_itself() {
    // MOV R1,1; STRB R1,[R13,-4]; MOV R2 from R13; TBB [R2,R3] with R3 = -4: over MOV R4,9 of 2
    let listing = join(&[
        &mov(1, 1),
        &single(6, 1, 13, 0, -4),
        &[0x01, 10, 0, 2, 0, 13, 0, 0],
        &[0x02, 11, 0, 3, 0, 3, 0, 0, 0],
        &table(TBB, 2, 3),
        &mov(4, 9),
        &mov(5, 7),
    ]);
    let text = program(&listing);
    assert!(text.starts_with("end 0 steps 6\n"), "{text}");
    assert!(text.contains("\nR4 00000000\nR5 00000007\n"), "{text}");
}

#[test]
fn a_literal_behind_a_branch() {
    // LDR R0,[R15,4] 1000, B 1002 to 100C, filler 1004 to 100B; the word is at 1008
    let listing = join(&[&single(0, 0, 15, 0, 4), &b(14, 6), &filler(8), &NOP]);
    let mut memory: Vec<u8> = (0..16).collect();
    let mut after = machine(&[]);
    assert_eq!(run(&mut after, &listing, CODE, &mut memory, CODE, 9), ran(0, 0, 3));
    assert_eq!((after.registers[0], after.registers[15]), (0x0B0A_0908, 0x100E));
    assert_eq!(run(&mut machine(&[]), &listing, CODE, &mut memory, BASE, 9), ran(6, 0, 0));
}
