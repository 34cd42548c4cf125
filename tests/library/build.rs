//! Links the proved library, which `tools/build` has written.
use std::path::Path;

fn main() {
    let root = Path::new(env!("CARGO_MANIFEST_DIR")).join("../..");
    let library = root.join("target/staticlib");
    println!("cargo:rustc-link-search=native={}", library.display());
    println!("cargo:rustc-link-lib=static=tejorva");
    println!(
        "cargo:rerun-if-changed={}",
        library.join("libtejorva.a").display()
    );
}
