//! Links the proved library.

const LIBRARY: &str = "../crates/exports/out/libexports.a";

fn main() {
    println!("cargo::rerun-if-changed={LIBRARY}");
    if !std::path::Path::new(LIBRARY).exists() {
        println!("cargo::error={LIBRARY} is missing; run 'rt lib' in crates/exports, which proves and writes it");
    }
    println!("cargo::rustc-link-search=native=../crates/exports/out");
    println!("cargo::rustc-link-lib=static=exports");
}
