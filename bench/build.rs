//! Links the product's static library: from `EXPORTS`, or from where `./library` writes it.

use std::env;

fn main() {
    println!("cargo:rerun-if-env-changed=EXPORTS");
    let root = env::var("CARGO_MANIFEST_DIR").expect("cargo names the package's folder");
    let place = env::var("EXPORTS").unwrap_or(format!("{root}/../target/staticlib"));
    println!("cargo:rerun-if-changed={place}/libeon.a");
    println!("cargo:rustc-link-search=native={place}");
    println!("cargo:rustc-link-lib=static=eon");
}
