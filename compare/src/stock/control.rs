//! Kinds 11 to 15.

use super::{length, with_word, Stock};

const AL: u8 = 14;

pub fn add(stock: &mut Stock) {
    branches(stock);
    others(stock);
    blocks(stock);
}

/// "B with AL and BL -16777216 to 16777214, other B -1048576 to 1048574; BL has condition 14."
fn branches(stock: &mut Stock) {
    for condition in 0..=AL {
        let reach: i32 = if condition == AL { 16_777_216 } else { 1_048_576 };
        for (turn, offset) in [-reach, reach - 2].into_iter().enumerate() {
            let form = length(usize::from(condition) / 2 + turn);
            stock.push(with_word(&[0x11, 0, form, condition], offset as u32));
        }
        stock.push(with_word(&[0x11, 0, length(usize::from(condition)), condition], 0x100));
    }
    for offset in [-16_777_216i32, -4, 16_777_214] {
        stock.push(with_word(&[0x11, 1, 2, AL], offset as u32));
    }
}

/// "BLX not 15."; "Rn 0 to 7, offset 0 to 126, even".
fn others(stock: &mut Stock) {
    for (op, rm) in [(0, 0), (0, 13), (0, 14), (0, 15), (1, 0), (1, 13), (1, 14)] {
        stock.push(vec![0x12, op, 0, rm]);
    }
    for (op, rn) in [(0, 0), (0, 7), (1, 0), (1, 7)] {
        for offset in [0, 126] {
            stock.push(vec![0x13, op, 0, rn, offset]);
        }
    }
    stock.push(vec![0x15, 0]);
    stock.push(vec![0x15, 2]);
}

/// "IT else bits .. 0 past the count"; "IT with AL has no else."
fn blocks(stock: &mut Stock) {
    for (condition, count) in (0..=AL).flat_map(|condition| (1..5).map(move |n| (condition, n))) {
        stock.push(vec![0x14, 0, condition, count, 0]);
        if condition != AL && count > 1 {
            stock.push(vec![0x14, 0, condition, count, (1 << (count - 1)) - 1]);
        }
    }
}
