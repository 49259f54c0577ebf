//! Links the archives that `./archive saddlekerf` and, where the profile is asked for, `./archive
//! saddlekerf_profile` write in the repository.

use std::path::Path;
use std::process::exit;

fn link(folder: &Path, name: &str) {
    let archive = folder.join(format!("lib{name}.a"));
    println!("cargo:rerun-if-changed={}", archive.display());
    if !archive.is_file() {
        eprintln!("no {}: run `./archive {name}` in the repository first", archive.display());
        exit(1);
    }
    println!("cargo:rustc-link-lib=static={name}");
}

fn main() {
    let root = Path::new(env!("CARGO_MANIFEST_DIR")).parent().expect("the repository");
    let folder = root.join("target/staticlib");
    println!("cargo:rustc-link-search=native={}", folder.display());
    link(&folder, "saddlekerf");
    if std::env::var_os("CARGO_FEATURE_PROFILE").is_some() {
        link(&folder, "saddlekerf_profile");
    }
}
