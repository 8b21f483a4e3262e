//! The sample listings, which a compiler made, and what the program of paper 01 writes for each.

use std::io::{Error, ErrorKind, Result};
use std::path::{Path, PathBuf};

const FOLDER: &str = concat!(env!("CARGO_MANIFEST_DIR"), "/../samples");
const TABLES: &str = concat!(env!("CARGO_MANIFEST_DIR"), "/../samples/tables");
const LOOP: &str = concat!(env!("CARGO_MANIFEST_DIR"), "/../samples/loop/loop.bin");

pub struct Sample {
    pub name: String,
    pub listing: Vec<u8>,
    pub end: String,
}

/// Code with table branches, and the memory that is lent over it.
pub struct Lending {
    pub memory: Vec<u8>,
    /// Bases of listing and memory, R13, budget.
    pub listing_base: u32,
    pub memory_base: u32,
    pub stack: u32,
    pub budget: u32,
}

/// In the order of their names, so that every run is the same.
pub fn samples() -> std::result::Result<Vec<Sample>, String> {
    all(FOLDER, sample)
}

/// Those of samples/tables/, likewise.
pub fn with_tables() -> std::result::Result<Vec<(Sample, Lending)>, String> {
    all(TABLES, |file| Ok((sample(file)?, lending(file)?)))
}

/// "A loop for speed", samples/loop/.
pub fn loop_listing() -> std::result::Result<Vec<u8>, String> {
    std::fs::read(LOOP).map_err(|error| format!("{LOOP}: {error}"))
}

fn all<T>(
    folder: &str,
    sample: impl Fn(&Path) -> Result<T>,
) -> std::result::Result<Vec<T>, String> {
    let samples = files(folder).and_then(|files| files.iter().map(|file| sample(file)).collect());
    match samples {
        Ok(samples) if Vec::is_empty(&samples) => Err(format!("{folder}: no sample listings")),
        Ok(samples) => Ok(samples),
        Err(error) => Err(format!("{folder}: {error}")),
    }
}

fn files(folder: &str) -> Result<Vec<PathBuf>> {
    let mut files = Vec::new();
    for entry in Path::new(folder).read_dir()? {
        let path = entry?.path();
        if path.extension().map_or(false, |extension| extension == "bin") {
            files.push(path);
        }
    }
    files.sort();
    Ok(files)
}

fn sample(file: &Path) -> Result<Sample> {
    let name = file.file_stem().map_or(String::new(), |name| name.to_string_lossy().into_owned());
    let end = std::fs::read_to_string(file.with_extension("out"))?;
    Ok(Sample { name, listing: std::fs::read(file)?, end })
}

/// `NAME-LEVEL.txt` has "base of the listing, base of memory, R13 (hex), budget (decimal)".
fn lending(file: &Path) -> Result<Lending> {
    let text = std::fs::read_to_string(file.with_extension("txt"))?;
    let field = |name: &str, radix: u32| {
        let mut pairs = text.lines().filter_map(|line| line.split_once(' '));
        let value = pairs.find(|(its, _)| *its == name).map_or("", |(_, value)| value.trim());
        u32::from_str_radix(value, radix).map_err(|_| {
            let what = format!("{}: no '{name}' in its text", file.display());
            Error::new(ErrorKind::InvalidData, what)
        })
    };
    Ok(Lending {
        memory: std::fs::read(file.with_extension("mem"))?,
        listing_base: field("listing", 16)?,
        memory_base: field("memory", 16)?,
        stack: field("R13", 16)?,
        budget: field("budget", 10)?,
    })
}
