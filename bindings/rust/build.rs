//! Tells the linker where `build` writes the library.

/// Prints the folder of the library, and asks for a new build when the library changes.
fn main() {
    let folder = concat!(env!("CARGO_MANIFEST_DIR"), "/../../target/staticlib");
    println!("cargo:rustc-link-search=native={folder}");
    println!("cargo:rerun-if-changed={folder}/libgraph_name.a");
}
