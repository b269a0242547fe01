// Links target/staticlib/libselvaigo.a of the repository, which tools/staticlib.sh writes.
fn main() {
    let folder = concat!(env!("CARGO_MANIFEST_DIR"), "/../../target/staticlib");
    println!("cargo:rustc-link-search=native={folder}");
    println!("cargo:rustc-link-lib=static=selvaigo");
    println!("cargo:rerun-if-changed={folder}/libselvaigo.a");
}
