//! Says where the library is: in `lib`, beside the `share` that has this crate.

fn main() {
    let folder = std::env::var("CARGO_MANIFEST_DIR").expect("cargo names the crate's folder") + "/../../../lib";
    println!("cargo:rerun-if-changed={folder}/librl.a");
    println!("cargo:rustc-link-search=native={folder}");
}
