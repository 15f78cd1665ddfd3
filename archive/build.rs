//! Links the proved archive, from the folder that `QUYNHABET_LIB` names or from
//! `../target/staticlib`.

use std::env;
use std::path::{Path, PathBuf};

fn main() {
    let here = PathBuf::from(env::var_os("CARGO_MANIFEST_DIR").expect("cargo names the package"));
    let named = env::var_os("QUYNHABET_LIB").unwrap_or_else(|| "../target/staticlib".into());
    let folder = here.join(named);
    println!("cargo:rerun-if-env-changed=QUYNHABET_LIB");
    println!("cargo:rustc-link-search=native={}", folder.display());
    link(&folder, "quynhabet");
    if env::var_os("CARGO_FEATURE_MEASURE").is_some() {
        link(&folder, "measure");
    }
}

/// Links `libNAME.a`. Where it is missing that is said here, since the linker would say less.
fn link(folder: &Path, name: &str) {
    let archive = folder.join(format!("lib{name}.a"));
    println!("cargo:rerun-if-changed={}", archive.display());
    if !archive.is_file() {
        eprintln!("there is no {}", archive.display());
        eprintln!("run `bash tools/archive {name}` in the repository's root, or set QUYNHABET_LIB");
        std::process::exit(1);
    }
    println!("cargo:rustc-link-lib=static={name}");
}
