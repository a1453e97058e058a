// Links the static library that `rt lib` writes in crates/reader_abi.
fn main() {
    let root = std::env::var("CARGO_MANIFEST_DIR").unwrap();
    println!("cargo:rustc-link-search=native={root}/../crates/reader_abi/out");
    println!("cargo:rustc-link-lib=static=reader_abi");
    println!("cargo:rerun-if-changed={root}/../crates/reader_abi/out/libreader_abi.a");
}
