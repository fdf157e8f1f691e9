//! Links the proved library `libwitx_c.a`: from the folder that WITX_C_LIB names, else from where `rt lib`
//! puts it, crates/witx_c/out.

use std::env;
use std::path::PathBuf;

fn main() {
    println!("cargo:rerun-if-env-changed=WITX_C_LIB");
    let folder = match env::var_os("WITX_C_LIB") {
        Some(folder) => PathBuf::from(folder),
        None => PathBuf::from(env::var_os("CARGO_MANIFEST_DIR").expect("cargo sets it"))
            .join("../../crates/witx_c/out"),
    };
    let archive = folder.join("libwitx_c.a");
    println!("cargo:rerun-if-changed={}", archive.display());
    if !archive.exists() {
        panic!(
            "{} isn't there: `tools/check-bindings --prove` builds it, or WITX_C_LIB names the folder of another one",
            archive.display()
        );
    }
    println!("cargo:rustc-link-search=native={}", folder.display());
    println!("cargo:rustc-link-lib=static=witx_c");
}
