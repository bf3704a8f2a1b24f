//! Links libshelf_c.a, from the folder that SHELF_LIB_DIR names or else from where tools/native-lib writes it.

fn main() {
    let own = concat!(env!("CARGO_MANIFEST_DIR"), "/../target/native");
    let folder = std::env::var("SHELF_LIB_DIR").unwrap_or_else(|_| own.to_string());
    println!("cargo:rerun-if-env-changed=SHELF_LIB_DIR");
    println!("cargo:rerun-if-changed={folder}/libshelf_c.a");
    println!("cargo:rustc-link-search=native={folder}");
    println!("cargo:rustc-link-lib=static=shelf_c");
}
