//! Links the proved library: the archive named by HERRINGCART_LIBRARY, or else
//! the one that `tools/native gateway` leaves in the repository.

use std::env;
use std::path::PathBuf;

const VARIABLE: &str = "HERRINGCART_LIBRARY";
const DEFAULT: &str = "../../target/native/libherringcart.a";

fn main() {
    println!("cargo::rerun-if-env-changed={VARIABLE}");
    let here = env::var("CARGO_MANIFEST_DIR").expect("cargo names the crate's folder");
    let archive = env::var(VARIABLE).map_or_else(|_| PathBuf::from(here).join(DEFAULT), Into::into);
    let archive = archive.canonicalize().unwrap_or_else(|why| {
        panic!("{}: {why}; build it by `tools/native gateway` or set {VARIABLE}", archive.display())
    });
    println!("cargo::rerun-if-changed={}", archive.display());
    let folder = archive.parent().expect("a file stands in a folder");
    let name = archive.file_stem().and_then(|stem| stem.to_str()).unwrap_or_default();
    let Some(name) = name.strip_prefix("lib") else {
        panic!("{}: an archive is called libNAME.a", archive.display());
    };
    println!("cargo::rustc-link-search=native={}", folder.display());
    println!("cargo::rustc-link-lib=static={name}");
}
