//! Links libkandurzo.a, which callers/library makes; KANDURZO_LIB names another folder.
fn main() {
    let here = std::env::var("CARGO_MANIFEST_DIR").expect("cargo sets it");
    let folder = std::env::var("KANDURZO_LIB").unwrap_or(format!("{here}/../../target/staticlib"));
    println!("cargo:rerun-if-env-changed=KANDURZO_LIB");
    println!("cargo:rerun-if-changed={folder}/libkandurzo.a");
    println!("cargo:rustc-link-search=native={folder}");
    println!("cargo:rustc-link-lib=static=kandurzo");
}
