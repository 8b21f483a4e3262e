//! Arithmetic on 32-bit words. Sums and bounds are worked out in 64 bits, where nothing is lost.

fn signed(x: u32) -> i64 {
    i64::from(x as i32)
}

fn outside_signed_word(x: i64) -> bool {
    x < i64::from(i32::MIN) || x > i64::from(i32::MAX)
}

fn bit(x: u32, n: u32) -> bool {
    (x >> n) & 1 == 1
}

pub fn negative(x: u32) -> bool {
    bit(x, 31)
}

/// x + y + carry: the word, the carry out, the signed overflow.
pub fn sum(x: u32, y: u32, carry: bool) -> (u32, bool, bool) {
    let total = u64::from(x) + u64::from(y) + u64::from(carry);
    let exact = signed(x) + signed(y) + i64::from(carry);
    (total as u32, total >> 32 != 0, outside_signed_word(exact))
}

/// x - y, less 1 more where the carry is 0. "C after a subtraction is 1 when nothing was borrowed."
pub fn difference(x: u32, y: u32, carry: bool) -> (u32, bool, bool) {
    let less = u64::from(y) + u64::from(!carry);
    let exact = signed(x) - signed(y) - i64::from(!carry);
    (exact as u32, u64::from(x) >= less, outside_signed_word(exact))
}

/// "At 32: .. LSL 0 and bit 0 .. above 32 LSL and LSR give 0 and carry 0".
pub fn lsl(x: u32, amount: u32, carry: bool) -> (u32, bool) {
    match amount {
        0 => (x, carry),
        1..=31 => (x << amount, bit(x, 32 - amount)),
        32 => (0, bit(x, 0)),
        _ => (0, false),
    }
}

/// "At 32: LSR gives 0 and bit 31 .. above 32 LSL and LSR give 0 and carry 0".
pub fn lsr(x: u32, amount: u32, carry: bool) -> (u32, bool) {
    match amount {
        0 => (x, carry),
        1..=31 => (x >> amount, bit(x, amount - 1)),
        32 => (0, bit(x, 31)),
        _ => (0, false),
    }
}

/// "ASR from 32 on gives all sign bits and carries the sign".
pub fn asr(x: u32, amount: u32, carry: bool) -> (u32, bool) {
    match amount {
        0 => (x, carry),
        1..=31 => (((x as i32) >> amount) as u32, bit(x, amount - 1)),
        _ if negative(x) => (u32::MAX, true),
        _ => (0, false),
    }
}

/// "At 32: .. ROR the same word and bit 31 .. ROR above 32 is ROR by 32 less", so 64 is as 32 (R16).
/// The last bit rotated out has arrived in bit 31.
pub fn ror(x: u32, amount: u32, carry: bool) -> (u32, bool) {
    if amount == 0 {
        return (x, carry);
    }
    let value = x.rotate_right(amount % 32);
    (value, bit(value, 31))
}

/// "RRX gives bit 0 of Rm".
pub fn rrx(x: u32, carry: bool) -> (u32, bool) {
    (u32::from(carry) << 31 | x >> 1, bit(x, 0))
}

/// "an 8-bit number shifted left", within the word.
pub fn is_shifted_byte(constant: u32) -> bool {
    constant == 0 || constant >> constant.trailing_zeros() <= 0xFF
}

/// "an 8-bit number shifted left, 00XY00XY, XY00XY00 or XYXYXYXY".
pub fn is_constant(constant: u32) -> bool {
    let low = constant & 0xFF;
    let high = constant >> 8 & 0xFF;
    is_shifted_byte(constant)
        || constant == low * 0x0001_0001
        || constant == high * 0x0100_0100
        || constant == low * 0x0101_0101
}

pub fn is_high_shifted_byte(constant: u32) -> bool {
    constant > 255 && is_shifted_byte(constant)
}

/// "a constant above 255 that is a shifted 8-bit number gives its bit 31, any other leaves C".
pub fn constant_carry(constant: u32, carry: bool) -> bool {
    if is_high_shifted_byte(constant) {
        bit(constant, 31)
    } else {
        carry
    }
}

pub fn rev16(x: u32) -> u32 {
    x.swap_bytes().rotate_right(16)
}

pub fn revsh(x: u32) -> u32 {
    sign_extend_half(u32::from((x as u16).swap_bytes()))
}

pub fn sign_extend_byte(x: u32) -> u32 {
    x as u8 as i8 as u32
}

pub fn sign_extend_half(x: u32) -> u32 {
    x as u16 as i16 as u32
}

pub fn unsigned_product(x: u32, y: u32) -> u64 {
    u64::from(x) * u64::from(y)
}

pub fn signed_product(x: u32, y: u32) -> u64 {
    (signed(x) * signed(y)) as u64
}

pub fn join(low: u32, high: u32) -> u64 {
    u64::from(high) << 32 | u64::from(low)
}

pub fn split(x: u64) -> (u32, u32) {
    (x as u32, (x >> 32) as u32)
}

/// "a zero divisor gives 0".
pub fn unsigned_quotient(x: u32, y: u32) -> u32 {
    x.checked_div(y).unwrap_or(0)
}

/// "SDIV rounds toward zero; a zero divisor gives 0". In 64 bits even the minimum by minus one fits.
pub fn signed_quotient(x: u32, y: u32) -> u32 {
    signed(x).checked_div(signed(y)).unwrap_or(0) as u32
}

/// To a signed number of 1 to 32 bits, and whether that changed it.
pub fn saturate_signed(x: u32, bits: u32) -> (u32, bool) {
    let bound = 1i64 << (bits - 1);
    let value = signed(x).clamp(-bound, bound - 1);
    (value as u32, value != signed(x))
}

/// The signed number x to an unsigned one of 0 to 31 bits, and whether that changed it.
pub fn saturate_unsigned(x: u32, bits: u32) -> (u32, bool) {
    let value = signed(x).clamp(0, (1i64 << bits) - 1);
    (value as u32, value != signed(x))
}

/// Width is 1 to 32 - lsb; one bit more than a word makes room for width 32.
fn field_mask(lsb: u32, width: u32) -> u32 {
    (((1u64 << width) - 1) << lsb) as u32
}

pub fn clear_field(x: u32, lsb: u32, width: u32) -> u32 {
    x & !field_mask(lsb, width)
}

pub fn insert_field(d: u32, x: u32, lsb: u32, width: u32) -> u32 {
    clear_field(d, lsb, width) | x << lsb & field_mask(lsb, width)
}

pub fn extract_unsigned(x: u32, lsb: u32, width: u32) -> u32 {
    (x & field_mask(lsb, width)) >> lsb
}

pub fn extract_signed(x: u32, lsb: u32, width: u32) -> u32 {
    let at_the_top = (x << (32 - lsb - width)) as i32;
    (at_the_top >> (32 - width)) as u32
}

/// "Every value put in R15 has bit 0 cleared".
pub fn even(x: u32) -> u32 {
    x & !1
}

/// "the next address with bit 0 set".
pub fn link(x: u32) -> u32 {
    x | 1
}

/// "that with bit 1 cleared".
pub fn base(x: u32) -> u32 {
    x & !2
}

/// "Address sums in a step, and branch targets, are taken modulo 2^32".
pub fn moved(x: u32, by: i32) -> u32 {
    x.wrapping_add(by as u32)
}

pub fn count(list: u16) -> u32 {
    list.count_ones()
}

pub fn holds(list: u16, register: u8) -> bool {
    bit(u32::from(list), u32::from(register))
}
