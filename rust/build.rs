// Links the proved library that `rt lib` in crates/c_calls writes.
use std::path::PathBuf;

fn main() {
    let root = PathBuf::from(std::env::var("CARGO_MANIFEST_DIR").unwrap());
    let folder = root.join("../crates/c_calls/out");
    println!("cargo:rustc-link-search=native={}", folder.display());
    println!("cargo:rustc-link-lib=static=c_calls");
    println!("cargo:rerun-if-changed={}", folder.join("libc_calls.a").display());
}
