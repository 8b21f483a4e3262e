//! The program's worked example, its limits, and the sample listings.

mod common;
use common::*;
use second::program::program;
use std::path::Path;

const EXAMPLE: &str = "end 0 steps 1
R0 00000005
R1 00000000
R2 00000000
R3 00000000
R4 00000000
R5 00000000
R6 00000000
R7 00000000
R8 00000000
R9 00000000
R10 00000000
R11 00000000
R12 00000000
R13 20008000
R14 00000000
R15 00001002
NZCVQ 00000
";

#[test]
fn the_worked_example() {
    assert_eq!(program(&[0x02, 0x0A, 0x01, 0, 0, 5, 0, 0, 0]), EXAMPLE);
}

#[test]
fn a_refused_check_is_one_line() {
    let mut listing = mov(0, 5);
    listing.extend(mov(1, 6));
    listing.truncate(17);
    assert_eq!(program(&listing), "check 2 at 9\n");
    assert_eq!(program(&[&[0x15, 0].repeat(8)[..], &[0x15, 2, 0x18]].concat()), "check 2 at 18\n");
    assert_eq!(program(&it(0, 1, 0)), "check 4 at 5\n");
    assert_eq!(program(&b(14, 2)), "check 9 at 0\n");
}

#[test]
fn more_than_32768_bytes_is_number_1() {
    let nops = [0x15, 0].repeat(16_384);
    assert_eq!(nops.len(), 32_768);
    assert!(program(&nops).starts_with("end 0 steps 16384\nR0 "));
    assert_eq!(program(&[&nops[..], &[0]].concat()), "check 1 at 0\n");
}

#[test]
fn a_refused_step_and_a_used_up_budget_end_with_their_number() {
    let refused = program(&[&NOP[..], &single(0, 0, 1, 0, 0)].concat());
    assert!(refused.starts_with("end 6 steps 1\nR0 00000000\n"));
    assert!(refused.contains("\nR15 00001002\n"));
    assert!(program(&b(14, -4)).starts_with("end 10 steps 1000000\n"));
    assert!(program(&[0x12, 0, 0, 14]).starts_with("end 7 steps 0\n"));
    let stray = program(&[&mov(0, 1)[..], &[0x12, 0, 0, 0]].concat());
    assert!(stray.starts_with("end 8 steps 2\n"));
}

#[test]
fn all_samples() {
    let samples = Path::new(env!("CARGO_MANIFEST_DIR")).join("../samples");
    let mut seen = 0;
    for file in std::fs::read_dir(samples).unwrap() {
        let path = file.unwrap().path();
        if path.extension().map_or(false, |extension| extension == "bin") {
            let listing = std::fs::read(&path).unwrap();
            let wanted = std::fs::read_to_string(path.with_extension("out")).unwrap();
            assert_eq!(program(&listing), wanted, "{}", path.display());
            seen += 1;
        }
    }
    assert!(seen >= 6, "{seen} samples");
}
