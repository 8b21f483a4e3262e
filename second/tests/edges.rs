//! The table of docs/EDGES.md: its size and some of its lines, worked out by hand.

#[test]
fn the_groups_have_their_sizes() {
    let table = second::edges::table();
    let count =
        |name: &str| table.lines().filter(|line| line.starts_with(&format!("{name} "))).count();
    for (names, lines) in [
        ("SUM DIFF", 72),
        ("AND ORR EOR BIC ORN", 36),
        ("MVN", 6),
        ("LSL LSR ASR ROR", 108),
        ("RRX", 12),
        ("CONST", 42),
        ("CLZ REV REV16 REVSH RBIT", 6),
        ("MUL", 36),
        ("MLA MLS", 216),
        ("UMULL SMULL", 36),
        ("UMLAL SMLAL", 144),
        ("UDIV SDIV", 36),
        ("SSAT USAT", 24),
        ("BFC SBFX UBFX", 36),
        ("BFI", 216),
        ("SXTB SXTH UXTB UXTH", 24),
        ("EVEN LINK BASE", 6),
        ("MOVED", 36),
        ("COUNT", 5),
        ("HOLDS", 20),
    ] {
        for name in names.split(' ') {
            assert_eq!(count(name), lines, "{name}");
        }
    }
}

#[test]
fn lines_worked_out_by_hand() {
    let table = second::edges::table();
    assert!(table.starts_with(
        "SUM 00000000 00000000 0 = 00000000 0 0\nSUM 00000000 00000000 1 = 00000001 0 0\n"
    ));
    assert!(table.ends_with("HOLDS 0000A5C3 0000000F = 1\n"));
    for line in [
        "SUM 7FFFFFFF 00000000 1 = 80000000 0 1",
        "SUM FFFFFFFF FFFFFFFF 1 = FFFFFFFF 1 0",
        "SUM 80000000 80000000 0 = 00000000 1 1",
        "DIFF 00000000 00000000 0 = FFFFFFFF 0 0",
        "DIFF 00000000 00000000 1 = 00000000 1 0",
        "DIFF 00000000 80000000 1 = 80000000 0 1",
        "DIFF 80000000 00000001 1 = 7FFFFFFF 1 1",
        "DIFF 7FFFFFFF FFFFFFFF 0 = 7FFFFFFF 0 0",
        "ORN 00000001 A5C30F96 = 5A3CF069",
        "LSL 00000001 00000020 0 = 00000000 1",
        "LSL 00000001 00000100 1 = 00000000 0",
        "LSR 80000000 00000021 1 = 00000000 0",
        "LSR FFFFFFFF 00000100 1 = 00000000 0",
        "ASR 80000000 FFFFFFFF 0 = FFFFFFFF 1",
        "ASR 7FFFFFFF 00000100 1 = 00000000 0",
        "ROR 00000001 00000040 1 = 00000001 0",
        "ROR A5C30F96 00000021 0 = 52E187CB 0",
        "ROR A5C30F96 00000100 0 = A5C30F96 1",
        "ROR 00000001 FFFFFFFF 1 = 00000002 0",
        "RRX A5C30F96 1 = D2E187CB 0",
        "CONST 00000000 1 = 1 0 1",
        "CONST 000001FE 1 = 1 1 0",
        "CONST 000001FF 1 = 0 0 1",
        "CONST FF000000 0 = 1 1 1",
        "CONST ABABABAB 0 = 1 0 0",
        "CLZ 00000000 = 00000020",
        "REV16 A5C30F96 = C3A5960F",
        "REVSH A5C30F96 = FFFF960F",
        "RBIT A5C30F96 = 69F0C3A5",
        "MLS FFFFFFFF FFFFFFFF 00000000 = FFFFFFFF",
        "UMULL FFFFFFFF FFFFFFFF = 00000001 FFFFFFFE",
        "SMULL 80000000 80000000 = 00000000 40000000",
        "UMLAL FFFFFFFF FFFFFFFF FFFFFFFF FFFFFFFF = 00000000 FFFFFFFE",
        "SMLAL 80000000 7FFFFFFF 00000001 80000000 = 80000001 40000000",
        "SDIV 80000000 FFFFFFFF = 80000000",
        "SDIV A5C30F96 7FFFFFFF = 00000000",
        "SSAT 00000001 00000001 = 00000000 1",
        "SSAT 80000000 00000010 = FFFF8000 1",
        "USAT A5C30F96 0000001F = 00000000 1",
        "SBFX A5C30F96 00000001 0000001F = D2E187CB",
        "UBFX A5C30F96 00000008 0000000C = 0000030F",
        "BFI FFFFFFFF A5C30F96 00000008 0000000C = FFFF96FF",
        "SXTH A5C30F96 00000008 = FFFFC30F",
        "MOVED 00000001 A5C30F96 = A5C30F97",
        "COUNT 0000A5C3 = 00000008",
    ] {
        assert!(table.lines().any(|found| found == line), "{line}");
    }
}
