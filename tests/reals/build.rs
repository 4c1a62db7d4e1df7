//! Links the static library of the proved conversions: `rt lib` in crates/number_conversions writes it.

fn main() {
    let folder = std::env::var("BOBBINONYX_STATICLIB").unwrap_or_else(|_| {
        let here = std::env::var("CARGO_MANIFEST_DIR").expect("cargo names the manifest's folder");
        format!("{here}/../../crates/number_conversions/out")
    });
    println!("cargo:rustc-link-search=native={folder}");
    println!("cargo:rustc-link-lib=static=number_conversions");
    println!("cargo:rerun-if-env-changed=BOBBINONYX_STATICLIB");
    println!("cargo:rerun-if-changed={folder}/libnumber_conversions.a");
}
