//! Links the proved static library: the folder that DESK_LIB names (absolute, or from this folder) has it as libdesk.a, else
//! target/staticlib of the repository.

fn main() {
    println!("cargo::rerun-if-env-changed=DESK_LIB");
    let root = std::env::var("CARGO_MANIFEST_DIR").expect("cargo sets CARGO_MANIFEST_DIR");
    let folder = std::path::Path::new(&root).join(std::env::var("DESK_LIB").unwrap_or("../../target/staticlib".to_string()));
    let library = folder.join("libdesk.a");
    println!("cargo::rerun-if-changed={}", library.display());
    if !library.is_file() {
        println!(
            "cargo::error=the static library is absent: {} (`tools/build library desk` makes it; DESK_LIB names another folder)",
            library.display()
        );
    }
    println!("cargo::rustc-link-search=native={}", folder.display());
    println!("cargo::rustc-link-lib=static=desk");
}
