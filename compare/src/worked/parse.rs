//! The parts of a line, and of a case what more than one sort of file has. An error says what does
//! not fit.

use super::block::{Block, Mistake};
use crate::image::{Image, FLAG_NAMES};
use crate::question::resume::NONE;
use crate::question::Lent;

/// More bytes than any memory or listing has.
const MOST_BYTES: usize = 1 << 22;
const LISTING_BASE: u32 = 0x1000;
const MEMORY_BASE: u32 = 0x2000_0000;
pub const STORED: &str = "stored";

/// The lent memory and its base.
pub fn lent_memory(block: &Block) -> Result<(u32, Vec<u8>), Mistake> {
    Ok(block.may("memory", memory)?.unwrap_or((MEMORY_BASE, Vec::new())))
}

/// What was lent as it is afterwards.
pub fn lent_after(block: &Block, before: Image, memory: &[u8]) -> Result<Lent, Mistake> {
    let (mut after, mut memory) = (before, memory.to_vec());
    block.may("after", |text| change(&mut after, text))?;
    for line in block.all("memory-after") {
        line.read(|text| change_memory(&mut memory, text))?;
    }
    Ok(Lent { image: after.bytes(), memory })
}

/// The listing, whose lines are joined, and its base.
pub fn listing(block: &Block) -> Result<(Vec<u8>, u32), Mistake> {
    let lines: Vec<Vec<u8>> =
        block.all("listing").map(|line| line.read(bytes)).collect::<Result<_, _>>()?;
    if lines.is_empty() {
        return Err(block.lacks("listing"));
    }
    let base = block.may("base", |text| word(text).ok_or_else(|| wrong(text)))?;
    Ok((lines.concat(), base.unwrap_or(LISTING_BASE)))
}

fn wrong(token: &str) -> String {
    format!("'{token}' does not fit here")
}

/// Up to eight hex digits, without a sign.
fn word(text: &str) -> Option<u32> {
    let digits = !text.is_empty() && text.bytes().all(|byte| byte.is_ascii_hexdigit());
    u32::from_str_radix(text, 16).ok().filter(|_| digits)
}

fn decimal<T: std::str::FromStr>(text: &str) -> Option<T> {
    let digits = text.bytes().all(|byte| byte.is_ascii_digit());
    text.parse().ok().filter(|_| digits)
}

pub fn number(text: &str, highest: u32) -> Result<u32, String> {
    decimal(text).filter(|&number| number <= highest).ok_or_else(|| wrong(text))
}

/// A stored place: `none`, or a number that is not the one of "none".
pub fn stored(text: &str) -> Result<u32, String> {
    match text {
        "none" => Ok(NONE),
        _ => number(text, NONE - 1),
    }
}

/// `NUMBER at PLACE steps COUNT`: a number after each of the words, the first of which is the line's
/// own; the first number is at most the highest, and `stored` has a stored place.
pub fn report<const N: usize>(
    text: &str,
    highest: u32,
    words: [&str; N],
) -> Result<[u32; N], String> {
    let tokens: Vec<&str> = words.into_iter().take(1).chain(text.split_whitespace()).collect();
    if tokens.len() != 2 * N || !tokens.iter().step_by(2).eq(&words) {
        return Err(wrong(text));
    }
    let mut numbers = [0; N];
    for (place, token) in tokens.iter().skip(1).step_by(2).enumerate() {
        numbers[place] = match words[place] {
            STORED => stored(token)?,
            _ => number(token, if place == 0 { highest } else { u32::MAX })?,
        };
    }
    Ok(numbers)
}

/// Hex digits in pairs, `zero*N`, and `1500*N` for bytes that are repeated.
pub fn bytes(text: &str) -> Result<Vec<u8>, String> {
    let mut bytes = Vec::new();
    for token in text.split_whitespace() {
        let (once, times) = match token.split_once('*') {
            Some(("zero", times)) => (Some(vec![0]), decimal(times)),
            Some((once, times)) => (pairs(once), decimal(times)),
            None => (pairs(token), Some(1)),
        };
        match (once, times) {
            (Some(once), Some(times)) if once.len().saturating_mul(times) <= MOST_BYTES => {
                bytes.extend(once.repeat(times));
            }
            _ => return Err(wrong(token)),
        }
    }
    Ok(bytes)
}

fn pairs(token: &str) -> Option<Vec<u8>> {
    let digits = token.bytes().map(|digit| char::from(digit).to_digit(16));
    let digits: Vec<u32> = digits.collect::<Option<_>>()?;
    if digits.len() % 2 != 0 {
        return None;
    }
    Some(digits.chunks(2).map(|pair| (pair[0] * 16 + pair[1]) as u8).collect())
}

/// `BASE: BYTES`.
fn memory(text: &str) -> Result<(u32, Vec<u8>), String> {
    let (base, content) = text.split_once(':').ok_or_else(|| wrong(text))?;
    let base = word(base.trim()).ok_or_else(|| wrong(base))?;
    Ok((base, bytes(content)?))
}

/// `OFFSET: BYTES`, written over memory.
fn change_memory(memory: &mut [u8], text: &str) -> Result<(), String> {
    let (offset, content) = text.split_once(':').ok_or_else(|| wrong(text))?;
    let offset: usize = decimal(offset.trim()).ok_or_else(|| wrong(offset))?;
    let content = bytes(content)?;
    let place = memory.get_mut(offset..).and_then(|rest| rest.get_mut(..content.len()));
    place.ok_or_else(|| "not in memory".to_string())?.copy_from_slice(&content);
    Ok(())
}

/// `R0=12345678 C Z wait=0,1`.
pub fn machine(text: &str) -> Result<Image, String> {
    let mut image = Image::FRESH;
    each_once(text, |token| match FLAG_NAMES.iter().position(|name| *name == token) {
        Some(flag) => {
            image.flags[flag] = 1;
            Some(())
        }
        None => match token.split_once('=')? {
            ("wait", list) => waiting(&mut image, list),
            (name, value) => set_register(&mut image, name, value),
        },
    })?;
    Ok(image)
}

/// `R1=12345678 N=1 wait=none`.
fn change(image: &mut Image, text: &str) -> Result<(), String> {
    each_once(text, |token| match token.split_once('=')? {
        ("wait", list) => waiting(image, list),
        (name, value) => match FLAG_NAMES.iter().position(|flag| *flag == name) {
            Some(flag) => {
                image.flags[flag] = decimal(value).filter(|&value| value <= 1)?;
                Some(())
            }
            None => set_register(image, name, value),
        },
    })
}

/// Every token must fit, and none may name what another has named.
fn each_once(text: &str, mut read: impl FnMut(&str) -> Option<()>) -> Result<(), String> {
    let mut names = Vec::new();
    for token in text.split_whitespace() {
        let name = token.split('=').next();
        if names.contains(&name) {
            return Err(format!("'{token}' names something a second time"));
        }
        names.push(name);
        read(token).ok_or_else(|| wrong(token))?;
    }
    Ok(())
}

fn set_register(image: &mut Image, name: &str, value: &str) -> Option<()> {
    let register: usize = decimal(name.strip_prefix('R')?)?;
    *image.registers.get_mut(register)? = word(value)?;
    Some(())
}

fn waiting(image: &mut Image, list: &str) -> Option<()> {
    let list: Vec<u8> = match list {
        "none" => Vec::new(),
        _ => list.split(',').map(decimal).collect::<Option<_>>()?,
    };
    image.conditions = [0; 4];
    image.conditions.get_mut(..list.len())?.copy_from_slice(&list);
    image.count = list.len() as u8;
    Some(())
}
