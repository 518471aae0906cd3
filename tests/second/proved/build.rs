//! Links the proved engine, which `./prove library` makes.

fn main() {
    let folder = concat!(env!("CARGO_MANIFEST_DIR"), "/../../../target/staticlib");
    println!("cargo:rerun-if-changed={folder}/liblibrary.a");
    println!("cargo:rustc-link-search=native={folder}");
    println!("cargo:rustc-link-lib=static=library");
}
