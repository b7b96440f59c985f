//! Links the archive that `tools/archive` makes. It is looked for in the directory that QUARTO_YAML_LIB_DIR names, or else
//! where that command leaves it, in `target/staticlib` of the repository.

use std::env;
use std::path::{Path, PathBuf};
use std::process::exit;

const ARCHIVE: &str = "libquarto_yaml.a";

fn folder() -> PathBuf {
    match env::var_os("QUARTO_YAML_LIB_DIR") {
        Some(folder) => PathBuf::from(folder),
        None => Path::new(env!("CARGO_MANIFEST_DIR")).join("../../target/staticlib"),
    }
}

fn main() {
    println!("cargo::rerun-if-env-changed=QUARTO_YAML_LIB_DIR");
    let folder = folder();
    let archive = folder.join(ARCHIVE);
    println!("cargo::rerun-if-changed={}", archive.display());
    if !archive.is_file() {
        println!(
            "cargo::error={ARCHIVE} is not in {}: run `tools/archive` in the repository, or set \
             QUARTO_YAML_LIB_DIR to the directory that has it",
            folder.display()
        );
        exit(1);
    }
    println!("cargo::rustc-link-search=native={}", folder.display());
    println!("cargo::rustc-link-lib=static=quarto_yaml");
}
