//! Links the proved functions: libinterface.a in the folder that SIMBHOKET_LIB names.

use std::path::Path;
use std::process::exit;

const FOLDER: &str = "SIMBHOKET_LIB";

fn main() {
    println!("cargo:rerun-if-env-changed={FOLDER}");
    let folder = std::env::var_os(FOLDER).unwrap_or_else(|| {
        eprintln!("{FOLDER} is not set: it names the folder of libinterface.a (tests/common)");
        exit(1);
    });
    let library = Path::new(&folder).join("libinterface.a");
    // A relative name would be looked up from two folders, here and by the linker.
    if !library.is_absolute() || !library.is_file() {
        eprintln!("{FOLDER}: no file {}, by its absolute path", library.display());
        exit(1);
    }
    println!("cargo:rerun-if-changed={}", library.display());
    println!("cargo:rustc-link-search=native={}", Path::new(&folder).display());
    println!("cargo:rustc-link-lib=static=interface");
}
