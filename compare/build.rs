//! Links the proved code of another commit beside today's, where
//! HERRINGCART_BEFORE names its archive. `tools/bench COMMIT` makes it and gives
//! its calls other names. Without the variable nothing is linked. What stands in
//! HERRINGCART_BEFORE_TAKES says what its event call has that older ones have not:
//! `outcomes`, and `visits`.

use std::env;
use std::path::PathBuf;

const VARIABLE: &str = "HERRINGCART_BEFORE";
const TAKES: &str = "HERRINGCART_BEFORE_TAKES";

fn main() {
    println!("cargo::rerun-if-env-changed={VARIABLE}");
    println!("cargo::rerun-if-env-changed={TAKES}");
    println!("cargo::rustc-check-cfg=cfg(before, before_takes_outcomes, before_counts_visits)");
    let Some(archive) = env::var_os(VARIABLE).filter(|path| !path.is_empty()) else {
        return;
    };
    let archive = PathBuf::from(archive);
    let archive = archive.canonicalize().unwrap_or_else(|why| {
        panic!("{}: {why}; build it by `tools/bench COMMIT`", archive.display())
    });
    println!("cargo::rerun-if-changed={}", archive.display());
    let folder = archive.parent().expect("a file stands in a folder");
    let name = archive.file_stem().and_then(|stem| stem.to_str()).unwrap_or_default();
    let Some(name) = name.strip_prefix("lib") else {
        panic!("{}: an archive is called libNAME.a", archive.display());
    };
    println!("cargo::rustc-link-search=native={}", folder.display());
    println!("cargo::rustc-link-lib=static={name}");
    println!("cargo::rustc-cfg=before");
    let takes = env::var(TAKES).unwrap_or_default();
    for (word, name) in [("outcomes", "before_takes_outcomes"), ("visits", "before_counts_visits")]
    {
        if takes.split(' ').any(|taken| taken == word) {
            println!("cargo::rustc-cfg={name}");
        }
    }
}
