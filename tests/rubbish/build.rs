//! Links libnucleus.a of the folder BOARD_DIR, anew whenever it changed.

fn main() {
    let folder = std::env::var("BOARD_DIR").expect("BOARD_DIR: run tests/lent or tests/batches");
    println!("cargo:rustc-link-search=native={folder}");
    println!("cargo:rerun-if-env-changed=BOARD_DIR");
    println!("cargo:rerun-if-changed={folder}/libnucleus.a");
    println!("cargo:rerun-if-changed=build.rs");
}
