//! Tells the linker where the engine's static library is.

use std::env;
use std::path::Path;

fn main() {
    println!("cargo:rerun-if-env-changed=VISORDATE_LIBRARY");
    let folder = env::var("VISORDATE_LIBRARY").unwrap_or_else(|_| {
        let here = env::var("CARGO_MANIFEST_DIR").expect("cargo tells where the package is");
        format!("{here}/../crates/bootloader/out")
    });
    let library = Path::new(&folder).join("libbootloader.a");
    assert!(
        library.is_file(),
        "{} is not there: run `rt lib` in crates/bootloader",
        library.display()
    );
    println!("cargo:rerun-if-changed={}", library.display());
    println!("cargo:rustc-link-search=native={folder}");
    println!("cargo:rustc-link-lib=static=bootloader");
}
