//! Tells cargo where libgatemurmur.a is: the folder GATEMURMUR_LIB, or target/staticlib of this repository.
use std::env;
use std::path::PathBuf;

fn main() {
    println!("cargo:rerun-if-env-changed=GATEMURMUR_LIB");
    let folder = env::var_os("GATEMURMUR_LIB")
        .map(PathBuf::from)
        .unwrap_or_else(|| PathBuf::from(env::var_os("CARGO_MANIFEST_DIR").unwrap()).join("../../target/staticlib"));
    let library = folder.join("libgatemurmur.a");
    if !library.is_file() {
        panic!(
            "{} is not there: make it with 'bash tools/library', or set GATEMURMUR_LIB to its folder",
            library.display()
        );
    }
    println!("cargo:rerun-if-changed={}", library.display());
    println!("cargo:rustc-link-search=native={}", folder.display());
    println!("cargo:rustc-link-lib=static=gatemurmur");
}
