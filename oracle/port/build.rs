//! Links the archive that `tools/archive` makes.

fn main() {
    let folder = concat!(env!("CARGO_MANIFEST_DIR"), "/../../target/staticlib");
    println!("cargo::rerun-if-changed={folder}/libquarto_yaml.a");
    println!("cargo::rustc-link-search=native={folder}");
    println!("cargo::rustc-link-lib=static=quarto_yaml");
}
