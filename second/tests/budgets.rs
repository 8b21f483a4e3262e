//! The program with another budget, in the library and by `--steps`.

mod common;
use common::*;
use second::program::{program, program_within};
use std::io::Write;
use std::process::{Command, Output, Stdio};

/// The first line alone.
fn ended(listing: &[u8], budget: u32) -> String {
    program_within(listing, budget).lines().next().unwrap().to_string()
}

#[test]
fn within_a_budget() {
    let itself = b(14, -4);
    for budget in [0, 1, 999_999, 1_000_000, 1_000_001] {
        assert_eq!(ended(&itself, budget), format!("end 10 steps {budget}"));
    }
    let two = [&mov(0, 5)[..], &mov(1, 6)].concat();
    assert_eq!(ended(&two, 0), "end 10 steps 0");
    assert_eq!(ended(&two, 1), "end 10 steps 1");
    assert!(program_within(&two, 1).contains("\nR0 00000005\nR1 00000000\n"));
    for budget in [2, 3, u32::MAX] {
        assert_eq!(program_within(&two, budget), program(&two));
    }
    assert_eq!(ended(&[], 0), "end 0 steps 0");
    assert_eq!(ended(&[0x17, 2, 0], 0), "end 8 steps 0");
    assert_eq!(program_within(&[0x18], 0), "check 2 at 0\n");
    assert_eq!(program_within(&NOP.repeat(16_385), 0), "check 1 at 0\n");
}

#[test]
fn without_one_it_is_a_million() {
    for listing in [b(14, -4), mov(0, 5), vec![0x18]] {
        assert_eq!(program(&listing), program_within(&listing, 1_000_000));
    }
}

/// The built program with these arguments and the listing at its standard input.
fn called(arguments: &[&str], listing: &[u8]) -> Output {
    let mut child = Command::new(env!("CARGO_BIN_EXE_second"))
        .args(arguments)
        .stdin(Stdio::piped())
        .stdout(Stdio::piped())
        .stderr(Stdio::piped())
        .spawn()
        .unwrap();
    // A call that is refused may be over before it reads.
    let _ = child.stdin.take().unwrap().write_all(listing);
    child.wait_with_output().unwrap()
}

#[test]
fn steps_sets_the_budget() {
    let itself = b(14, -4);
    let written = |arguments: &[&str]| {
        let output = called(arguments, &itself);
        assert_eq!((output.status.code(), &output.stderr[..]), (Some(0), &[][..]), "{arguments:?}");
        String::from_utf8(output.stdout).unwrap()
    };
    assert_eq!(written(&["program", "-"]), program(&itself));
    for (text, budget) in
        [("0", 0), ("1", 1), ("007", 7), ("1000000", 1_000_000), ("00000000000000000000012", 12)]
    {
        assert_eq!(written(&["program", "--steps", text, "-"]), program_within(&itself, budget));
    }
    let most = called(&["program", "--steps", "4294967295", "-"], &mov(0, 5));
    assert_eq!(most.stdout, program(&mov(0, 5)).into_bytes());
    let file = concat!(env!("CARGO_TARGET_TMPDIR"), "/budgets.bin");
    std::fs::write(file, &itself).unwrap();
    assert_eq!(written(&["program", "--steps", "5", file]), program_within(&itself, 5));
    assert_eq!(written(&["program", file]), program(&itself));
}

#[test]
fn anything_else_is_the_usage_and_2() {
    for steps in [
        "",
        " ",
        "-1",
        "+1",
        "1 ",
        " 1",
        "1.0",
        "0x10",
        "1_000",
        "1e3",
        "A",
        "\u{661}",
        "4294967296",
        "18446744073709551616",
        "--steps",
        "-",
    ] {
        refused(&["program", "--steps", steps, "-"]);
    }
    refused(&["program"]);
    refused(&["program", "--steps"]);
    refused(&["program", "--steps", "1"]);
    refused(&["program", "--steps", "1", "--steps"]);
    refused(&["program", "--steps", "1", "-", "-"]);
    refused(&["program", "--steps", "1", "--steps", "1", "-"]);
    refused(&["program", "-", "--steps", "1"]);
    refused(&["program", "--step", "1", "-"]);
    refused(&["--steps", "1", "program", "-"]);
    refused(&["edges", "--steps", "1", "-"]);
    refused(&["program", "-", "-"]);
    refused(&[]);
}

fn refused(arguments: &[&str]) {
    let output = called(arguments, &NOP);
    assert_eq!((output.status.code(), &output.stdout[..]), (Some(2), &[][..]), "{arguments:?}");
    let usage = b"usage: second edges | second program [--steps N] FILE ";
    assert!(output.stderr.starts_with(usage), "{arguments:?}");
}

#[test]
fn a_file_that_is_not_there_is_1() {
    let missing = concat!(env!("CARGO_TARGET_TMPDIR"), "/not there");
    for arguments in [&["program", missing][..], &["program", "--steps", "1", missing]] {
        let output = called(arguments, &[]);
        assert_eq!((output.status.code(), &output.stdout[..]), (Some(1), &[][..]));
        assert!(output.stderr.starts_with(b"second: "));
    }
}
