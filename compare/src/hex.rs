//! Bytes as text that can be read back.

/// So many zero bytes in a row, or more, are written as their number.
const MANY: usize = 16;

pub fn line(bytes: &[u8]) -> String {
    let hex: Vec<String> = bytes.iter().map(|byte| format!("{byte:02X}")).collect();
    hex.join(" ")
}

/// Memory as tests/worked.steps has it: bytes, and `zero*N` for many zero bytes.
pub fn memory(bytes: &[u8]) -> String {
    let mut parts = Vec::new();
    let mut rest = bytes;
    while !rest.is_empty() {
        let zeros = rest.iter().take_while(|&&byte| byte == 0).count();
        if zeros >= MANY {
            parts.push(format!("zero*{zeros}"));
            rest = &rest[zeros..];
        } else {
            let some = zeros.max(1);
            parts.push(line(&rest[..some]));
            rest = &rest[some..];
        }
    }
    parts.join(" ")
}
