// Links libselvaigo.a, out of the folder in SELVAIGO_LIB or else out of target/staticlib beside this crate's folder.
use std::env;
use std::path::PathBuf;

fn main() {
    println!("cargo::rerun-if-env-changed=SELVAIGO_LIB");
    let folder = match env::var_os("SELVAIGO_LIB") {
        Some(folder) => PathBuf::from(folder),
        None => PathBuf::from(env::var_os("CARGO_MANIFEST_DIR").unwrap()).join("../target/staticlib"),
    };
    let library = folder.join("libselvaigo.a");
    println!("cargo::rerun-if-changed={}", library.display());
    if !library.is_file() {
        println!("cargo::error=there is no {}", library.display());
        println!(
            "cargo::error=run tools/staticlib.sh in the repository, or set SELVAIGO_LIB to the folder that holds libselvaigo.a"
        );
        return;
    }
    // The tests link the example in C with the same library.
    println!("cargo::rustc-env=SELVAIGO_FOLDER={}", folder.display());
    println!("cargo::rustc-link-search=native={}", folder.display());
    println!("cargo::rustc-link-lib=static=selvaigo");
}
