//! Links the static library, which `tools/staticlib` writes; or, where
//! SVELGANDUR_SHARED names a folder, the libsvelgandur.so there in its place
//! (`bench/check` has the yardstick compared so).

use std::path::Path;

fn main() {
    println!("cargo:rerun-if-env-changed=SVELGANDUR_SHARED");
    if let Ok(folder) = std::env::var("SVELGANDUR_SHARED") {
        println!("cargo:rerun-if-changed={folder}/libsvelgandur.so");
        println!("cargo:rustc-link-search=native={folder}");
        println!("cargo:rustc-link-lib=dylib=svelgandur");
        println!("cargo:rustc-link-arg=-Wl,-rpath,{folder}");
        return;
    }
    let here = std::env::var("CARGO_MANIFEST_DIR").expect("cargo sets it");
    let folder = Path::new(&here).join("../../target/staticlib");
    let library = folder.join("libsvelgandur.a");
    println!("cargo:rerun-if-changed={}", library.display());
    if !library.exists() {
        panic!("{} is not there: tests/run makes it", library.display());
    }
    println!("cargo:rustc-link-search=native={}", folder.display());
    println!("cargo:rustc-link-lib=static=svelgandur");
}
