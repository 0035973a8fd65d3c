//! Links the proved static library: the file that MODULE_INFO_LIB names (absolute, or from this folder), else target/staticlib/libmodule_info.a of
//! the repository; and librules.a, where that is in the same folder: only `module_info_with_rules` needs it.

use std::path::{Path, PathBuf};

fn main() {
    println!("cargo::rerun-if-env-changed=MODULE_INFO_LIB");
    let root = Path::new(&var("CARGO_MANIFEST_DIR")).join("../..");
    let library = match std::env::var_os("MODULE_INFO_LIB") {
        Some(name) => PathBuf::from(name),
        None => root.join("target/staticlib/libmodule_info.a"),
    };
    println!("cargo::rerun-if-changed={}", library.display());
    if !library.is_file() {
        let shown = library.display();
        println!("cargo::error=the static library is absent: {shown} (`tools/build library module_info` makes it; MODULE_INFO_LIB names another)");
        return;
    }
    // a copy, so that the file may have any name
    let out = var("OUT_DIR");
    let copy = Path::new(&out).join("libmodule_info.a");
    if let Err(e) = std::fs::copy(&library, &copy) {
        println!("cargo::error={} cannot be copied: {e}", library.display());
        return;
    }
    println!("cargo::rustc-link-search=native={out}");
    println!("cargo::rustc-link-lib=static=module_info");
    let rules = library.with_file_name("librules.a");
    println!("cargo::rerun-if-changed={}", rules.display());
    if rules.is_file() {
        if let Err(e) = std::fs::copy(&rules, Path::new(&out).join("librules.a")) {
            println!("cargo::error={} cannot be copied: {e}", rules.display());
            return;
        }
        println!("cargo::rustc-link-lib=static=rules");
    }
}

fn var(name: &str) -> String {
    std::env::var(name).unwrap_or_else(|_| panic!("cargo sets {name}"))
}
