//! A machine's image as include/simbhoket.h lays it out. It is written here byte by byte and not by
//! the second program, so that a mistake of that one's would show, and so that it can be wrong.

pub const BYTES: usize = 74;
pub const FLAGS: usize = 64;
pub const COUNT: usize = 69;
pub const CONDITIONS: usize = 70;
const AL: u8 = 14;
pub const FLAG_NAMES: [&str; 5] = ["N", "Z", "C", "V", "Q"];

#[derive(Clone, Copy, PartialEq, Eq)]
pub struct Image {
    pub registers: [u32; 16],
    pub flags: [u8; 5],
    pub count: u8,
    pub conditions: [u8; 4],
}

impl Image {
    /// "fresh is all zero with nothing waiting".
    pub const FRESH: Image =
        Image { registers: [0; 16], flags: [0; 5], count: 0, conditions: [0; 4] };

    pub fn bytes(&self) -> Vec<u8> {
        let mut bytes = Vec::with_capacity(BYTES);
        for register in self.registers {
            bytes.extend(register.to_le_bytes());
        }
        bytes.extend(self.flags);
        bytes.push(self.count);
        bytes.extend(self.conditions);
        bytes
    }

    /// What bytes that are an image hold.
    pub fn of(bytes: &[u8]) -> Option<Image> {
        if !is_one(bytes) {
            return None;
        }
        let mut image = Image { count: bytes[COUNT], ..Image::FRESH };
        for (number, value) in image.registers.iter_mut().enumerate() {
            *value = register(bytes, number);
        }
        image.flags.copy_from_slice(&bytes[FLAGS..COUNT]);
        image.conditions.copy_from_slice(&bytes[CONDITIONS..]);
        Some(image)
    }

    /// Lets these conditions wait, up to four.
    pub fn wait(&mut self, conditions: &[u8]) {
        self.count = conditions.len() as u8;
        self.conditions = [0; 4];
        self.conditions[..conditions.len()].copy_from_slice(conditions);
    }

    pub fn waiting(&self) -> &[u8] {
        &self.conditions[..usize::from(self.count)]
    }
}

/// "An image of another length, with another flag byte, a count above 4 or a byte past the count that
/// is not 0" is none, nor is one with a waiting condition above 14 (B23 of docs/DECISIONS.md).
pub fn is_one(image: &[u8]) -> bool {
    let image: &[u8; BYTES] = match image.try_into() {
        Ok(image) => image,
        Err(_) => return false,
    };
    let highest = |place: usize| if place < usize::from(image[COUNT]) { AL } else { 0 };
    let conditions = image[CONDITIONS..].iter().enumerate();
    image[FLAGS..COUNT].iter().all(|&flag| flag <= 1)
        && image[COUNT] <= 4
        && conditions.into_iter().all(|(place, &condition)| condition <= highest(place))
}

/// A register's word in an image that is one.
pub fn register(image: &[u8], register: usize) -> u32 {
    u32::from_le_bytes([0, 1, 2, 3].map(|byte| image[4 * register + byte]))
}

/// What stands in an image of the right length, a name and a value each.
pub fn parts(image: &[u8; BYTES]) -> Vec<(String, String)> {
    let mut parts = Vec::new();
    for number in 0..FLAGS / 4 {
        parts.push((format!("R{number}"), format!("{:08X}", register(image, number))));
    }
    for (name, flag) in FLAG_NAMES.iter().zip(&image[FLAGS..COUNT]) {
        parts.push((name.to_string(), flag.to_string()));
    }
    let conditions: Vec<String> = image[CONDITIONS..].iter().map(u8::to_string).collect();
    let waiting = format!("{} of {}", image[COUNT], conditions.join(","));
    parts.push(("wait".to_string(), waiting));
    parts
}

pub fn text(image: &[u8]) -> String {
    match image.try_into() {
        Ok(image) => {
            let parts: Vec<String> =
                parts(image).iter().map(|(name, value)| format!("{name}={value}")).collect();
            parts.join(" ")
        }
        Err(_) => format!("an image of {} bytes", image.len()),
    }
}
