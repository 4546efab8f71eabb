//! Links the proved library. MEASURE_LIB is its archive, and RATTLE_C the kit's folder of the C code below the standard library;
//! bench/run.sh builds and finds them.

use std::env;
use std::path::{Path, PathBuf};

fn set(variable: &str) -> PathBuf {
    println!("cargo:rerun-if-env-changed={variable}");
    PathBuf::from(env::var_os(variable).unwrap_or_else(|| panic!("{variable} is not set")))
}

fn link(folder: &Path, name: &str) {
    println!("cargo:rerun-if-changed={}", folder.join(format!("lib{name}.a")).display());
    println!("cargo:rustc-link-search=native={}", folder.display());
    println!("cargo:rustc-link-lib=static={name}");
}

fn main() {
    let archive = set("MEASURE_LIB");
    link(archive.parent().expect("MEASURE_LIB is a file in a folder"), "measure");
    let kit = set("RATTLE_C");
    link(&kit, "os_c");
    link(&kit, "libc_c");
}
