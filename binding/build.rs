//! Links the product: libcapi.a, which `rt lib` in crates/capi writes. JOSHKAMBER_LIB may name another folder that has it.

fn main() {
    let default = concat!(env!("CARGO_MANIFEST_DIR"), "/../crates/capi/out");
    let folder = std::env::var("JOSHKAMBER_LIB").unwrap_or(default.to_string());
    println!("cargo:rerun-if-env-changed=JOSHKAMBER_LIB");
    println!("cargo:rerun-if-changed={folder}/libcapi.a");
    println!("cargo:rustc-link-search=native={folder}");
    println!("cargo:rustc-link-lib=static=capi");
}
