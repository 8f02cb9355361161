// Links the archive of the proved functions, which `host/archive` writes.
fn main() {
    let here = std::env::var("CARGO_MANIFEST_DIR").expect("cargo sets this");
    let folder = format!("{here}/../target/staticlib");
    println!("cargo:rerun-if-changed={folder}/libabi.a");
    if !std::path::Path::new(&format!("{folder}/libabi.a")).exists() {
        panic!("target/staticlib/libabi.a is not there: `host/archive` proves and writes it");
    }
    println!("cargo:rustc-link-search=native={folder}");
    println!("cargo:rustc-link-lib=static=abi");
}
