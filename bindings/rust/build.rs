//! Links libc_api.a out of the folder that DP8_LIB names, or of the repository's crates/c_api/out.
use std::env;
use std::path::PathBuf;

fn main() {
    println!("cargo:rerun-if-env-changed=DP8_LIB");
    let own = PathBuf::from(env::var("CARGO_MANIFEST_DIR").expect("cargo sets it"));
    let folder = match env::var("DP8_LIB") {
        Ok(named) => PathBuf::from(named),
        Err(_) => own.join("../../crates/c_api/out"),
    };
    let archive = folder.join("libc_api.a");
    println!("cargo:rerun-if-changed={}", archive.display());
    assert!(
        archive.is_file(),
        "{} is not there: run `rt lib` in crates/c_api",
        archive.display()
    );
    println!("cargo:rustc-link-search=native={}", folder.display());
    println!("cargo:rustc-link-lib=static=c_api");
}
