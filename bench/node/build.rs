// Lays the original files into the module tree that their paths ask for.
//
// TYCHO_SRC is the folder that holds core/src/storage/shard_state.
use std::path::Path;
use std::{env, fs};

fn main() {
    println!("cargo:rerun-if-env-changed=TYCHO_SRC");
    let source = env::var("TYCHO_SRC").expect("TYCHO_SRC: the folder that holds core/src/storage/shard_state");
    let folder = Path::new(&source).canonicalize().expect("TYCHO_SRC").join("core/src/storage/shard_state");
    let file = |name: &str| {
        let path = folder.join(name);
        println!("cargo:rerun-if-changed={}", path.display());
        format!("{:?}", path.display().to_string())
    };
    let modules = [("pub mod counters", "counters.rs"), ("pub mod cell_nursery", "cell_nursery.rs"), ("mod util", "util.rs")];
    let mut text: String = modules.iter().map(|(module, name)| format!("#[path = {}]\n{module};\n", file(name))).collect();
    text +=
        &format!("pub mod nursery_persistence {{\n#[path = {}]\npub mod format;\n}}\n", file("nursery_persistence/format.rs"));
    let here = env::var("CARGO_MANIFEST_DIR").unwrap();
    text += &format!("#[path = {:?}]\npub mod compare;\n", format!("{here}/src/compare.rs"));
    fs::write(Path::new(&env::var("OUT_DIR").unwrap()).join("shard_state.rs"), text).unwrap();
}
