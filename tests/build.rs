//! Links the static library that `./library` wrote.

fn main() {
    let here = std::env::var("CARGO_MANIFEST_DIR").unwrap();
    println!("cargo:rustc-link-search=native={here}/../target/staticlib");
    println!("cargo:rustc-link-lib=static=eon");
    println!("cargo:rerun-if-changed={here}/../target/staticlib/libeon.a");
}
