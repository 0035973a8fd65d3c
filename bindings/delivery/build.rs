//! Links the proved static library: the folder that DELIVERY_LIB names (absolute, or from this folder) has it as libdelivery.a, else
//! target/staticlib of the repository.

fn main() {
    println!("cargo::rerun-if-env-changed=DELIVERY_LIB");
    let root = std::env::var("CARGO_MANIFEST_DIR").expect("cargo sets CARGO_MANIFEST_DIR");
    let folder = std::path::Path::new(&root).join(std::env::var("DELIVERY_LIB").unwrap_or("../../target/staticlib".to_string()));
    let library = folder.join("libdelivery.a");
    println!("cargo::rerun-if-changed={}", library.display());
    if !library.is_file() {
        println!(
            "cargo::error=the static library is absent: {} (`tools/build library delivery` makes it; DELIVERY_LIB names another folder)",
            library.display()
        );
    }
    println!("cargo::rustc-link-search=native={}", folder.display());
    println!("cargo::rustc-link-lib=static=delivery");
}
