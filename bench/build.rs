//! Links libgauge.a of the folder GAUGE_DIR, anew whenever it changed; and libboard.a for the calls for C, if it is there.

fn main() {
    let folder = std::env::var("GAUGE_DIR").expect("GAUGE_DIR: run bench/steps");
    println!("cargo:rustc-link-search=native={folder}");
    println!("cargo:rerun-if-env-changed=GAUGE_DIR");
    println!("cargo:rerun-if-changed={folder}/libgauge.a");
    println!("cargo:rerun-if-changed={folder}/libboard.a");
    println!("cargo:rerun-if-changed=build.rs");
    println!("cargo:rustc-check-cfg=cfg(board)");
    if std::path::Path::new(&folder).join("libboard.a").exists() {
        println!("cargo:rustc-cfg=board");
    }
}
