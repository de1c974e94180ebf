//! Links the proved library to the packages that compare it with the twin; where the twin plays both sides, nothing.

use std::env;

fn main() {
    println!("cargo:rerun-if-env-changed=RACK_LINK");
    println!("cargo:rerun-if-env-changed=RACK_LIBC");
    if env::var_os("CARGO_FEATURE_TWIN_ONLY").is_some() {
        return;
    }
    let here = env::var("CARGO_MANIFEST_DIR").expect("cargo names the package's folder");
    let folder =
        env::var("RACK_LINK").unwrap_or_else(|_| format!("{here}/../../crates/rack_link/out"));
    let libc = env::var("RACK_LIBC").unwrap_or_else(|_| "/opt/rattle/c".into());
    println!("cargo:rerun-if-changed={folder}/librack_link.a");
    println!("cargo:rustc-link-search=native={folder}");
    println!("cargo:rustc-link-search=native={libc}");
    println!("cargo:rustc-link-lib=static=rack_link");
    // the allocator that the library calls
    println!("cargo:rustc-link-lib=static=libc_c");
}
