//! Links the static library: the file that LOCKMGR_LIB names, or the one that
//! `make lib` leaves in build/lib.

use std::env;
use std::path::PathBuf;

const VARIABLE: &str = "LOCKMGR_LIB";
const NAME: &str = "liblockmgr.a";

fn main() {
    println!("cargo:rerun-if-env-changed={VARIABLE}");
    let package = PathBuf::from(env::var("CARGO_MANIFEST_DIR").unwrap());
    let library = match env::var_os(VARIABLE) {
        Some(path) => PathBuf::from(path),
        None => package.join("../build/lib").join(NAME),
    };
    if !library.is_file() || library.file_name().is_none_or(|name| name != NAME) {
        panic!(
            "{} is not a library {NAME}: run `make lib` first",
            library.display()
        );
    }
    println!("cargo:rerun-if-changed={}", library.display());
    let folder = library.parent().unwrap();
    println!("cargo:rustc-link-search=native={}", folder.display());
    println!("cargo:rustc-link-lib=static=lockmgr");
}
