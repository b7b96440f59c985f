//! Compiles the shim over libyaml with the C compiler that CC names, or `cc`, and links libyaml.

use std::env;
use std::path::Path;
use std::process::{Command, exit};

const SHIM: &str = "shim/libyaml.c";

fn run(command: &mut Command, help: &str) {
    if !command.status().is_ok_and(|status| status.success()) {
        println!("cargo::error={command:?} failed: {help}");
        exit(1);
    }
}

fn main() {
    println!("cargo::rerun-if-changed={SHIM}");
    println!("cargo::rerun-if-env-changed=CC");
    let folder = env::var("OUT_DIR").expect("cargo sets OUT_DIR");
    let object = Path::new(&folder).join("libyaml_shim.o");
    let archive = Path::new(&folder).join("liblibyaml_shim.a");
    let compiler = env::var("CC").unwrap_or_else(|_| "cc".to_string());
    let help = "a C compiler and yaml.h are needed (Debian: gcc, libyaml-dev)";
    run(Command::new(compiler).args(["-O2", "-fPIC", "-Wall", "-Wextra", "-c", SHIM, "-o"]).arg(&object), help);
    run(Command::new("ar").arg("crs").arg(&archive).arg(&object), "ar is needed (Debian: binutils)");
    println!("cargo::rustc-link-search=native={folder}");
    println!("cargo::rustc-link-lib=static=libyaml_shim");
    println!("cargo::rustc-link-lib=yaml");
}
