//! Tells cargo where the archive libvaskunoor.a of the target machine is: target/archives of the repository, and nowhere else.
use std::env;
use std::path::PathBuf;

fn main() {
    let package = env::var_os("CARGO_MANIFEST_DIR").expect("cargo sets CARGO_MANIFEST_DIR");
    let machine = env::var("CARGO_CFG_TARGET_ARCH").expect("cargo sets CARGO_CFG_TARGET_ARCH");
    let folder = PathBuf::from(package).join("../../target/archives").join(&machine);
    let archive = folder.join("libvaskunoor.a");
    println!("cargo:rerun-if-changed={}", archive.display());
    if !archive.is_file() {
        println!("cargo:warning=there is no archive for {machine}; `make archives` in the root of the repository makes it");
    }
    println!("cargo:rustc-link-search=native={}", folder.display());
    println!("cargo:rustc-link-lib=static=vaskunoor");
}
