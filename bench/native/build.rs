//! Links the proved library, from the folder that RL_LIBRARY names.

fn main() {
    println!("cargo:rerun-if-env-changed=RL_LIBRARY");
    println!("cargo:rustc-link-lib=static=library");
    if let Ok(folder) = std::env::var("RL_LIBRARY") {
        println!("cargo:rustc-link-search=native={folder}");
        println!("cargo:rerun-if-changed={folder}/liblibrary.a");
    }
}
