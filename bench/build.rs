//! Links the static library that `tools/build musselpath_c` writes.

use std::path::Path;

fn main() {
    let folder = Path::new(env!("CARGO_MANIFEST_DIR")).join("../target/staticlib");
    let archive = folder.join("libmusselpath.a");
    println!("cargo:rerun-if-changed={}", archive.display());
    assert!(archive.exists(), "there is no {}: run tools/build musselpath_c", archive.display());
    println!("cargo:rustc-link-search=native={}", folder.display());
    println!("cargo:rustc-link-lib=static=musselpath");
}
