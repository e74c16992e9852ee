//! Links the engine: libexprlang.a, in the folder that EXPRLANG_LIB names, in this package, or where bin/hosts puts it.
use std::path::{absolute, Path, PathBuf};
use std::process::exit;

const FILE: &str = "libexprlang.a";

fn main() {
    println!("cargo:rerun-if-env-changed=EXPRLANG_LIB");
    // docs.rs links nothing.
    if std::env::var_os("DOCS_RS").is_some() {
        return;
    }
    let places = places();
    let Some(folder) = places.iter().find(|folder| folder.join(FILE).is_file()) else {
        eprintln!("error: exprlang links {FILE}, which is in none of these folders:");
        places.iter().for_each(|folder| eprintln!("  {}", folder.display()));
        eprintln!("At the top of the repository, `bin/quick hosts/out/quick && bin/hosts hosts/out/quick` makes it without");
        eprintln!("proofs, in minutes. `.ci/run` makes the proved one. Or set EXPRLANG_LIB to the folder that has it.");
        exit(1)
    };
    if named().is_some_and(|named| named != *folder) {
        println!("cargo:warning=EXPRLANG_LIB has no {FILE}, so this is linked: {}", folder.join(FILE).display());
    }
    println!("cargo:rerun-if-changed={}", folder.join(FILE).display());
    println!("cargo:rustc-link-search=native={}", folder.display());
    println!("cargo:rustc-link-lib=static=exprlang");
}

/// The folder that EXPRLANG_LIB names.
fn named() -> Option<PathBuf> {
    let folder = std::env::var_os("EXPRLANG_LIB").filter(|folder| !folder.is_empty())?;
    absolute(folder).ok()
}

/// The folders that may have the library, in the order in which they are searched.
fn places() -> Vec<PathBuf> {
    let here = std::env::var_os("CARGO_MANIFEST_DIR").map(PathBuf::from).unwrap_or_default();
    let out = here.parent().unwrap_or(Path::new("..")).join("out/lib");
    named().into_iter().chain([here.join("lib"), out]).collect()
}
