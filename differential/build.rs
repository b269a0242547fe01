// Lays the original files, where they stand in the folder TYCHO_SRC, into the module tree that their paths ask for. Behind the text of
// counters.rs and of cell_nursery.rs stands a module of this program, which so sees what is private in them.
use std::path::Path;
use std::{env, fs};

fn main() {
    println!("cargo:rerun-if-env-changed=TYCHO_SRC");
    let source = env::var("TYCHO_SRC").expect("TYCHO_SRC: the folder that holds core/src/storage/shard_state");
    let folder = Path::new(&source).canonicalize().expect("TYCHO_SRC").join("core/src/storage/shard_state");
    let here = env::var("CARGO_MANIFEST_DIR").unwrap();
    let original = |name: &str| {
        let path = folder.join(name);
        println!("cargo:rerun-if-changed={}", path.display());
        format!("{:?}", path.display().to_string())
    };
    let own = |name: &str| format!("{:?}", format!("{here}/src/{name}"));
    let mut text = String::new();
    for name in ["counters", "cell_nursery"] {
        let (file, inside) = (original(&format!("{name}.rs")), own(&format!("inside_{name}.rs")));
        text += &format!("pub mod {name} {{\ninclude!({file});\n#[path = {inside}]\npub mod inside;\n}}\n");
    }
    text += &format!("#[path = {}]\nmod util;\n", original("util.rs"));
    let format = original("nursery_persistence/format.rs");
    text += &format!("pub mod nursery_persistence {{\n#[path = {format}]\npub mod format;\n}}\n");
    text += &format!("#[path = {}]\npub mod original;\n", own("original.rs"));
    fs::write(Path::new(&env::var("OUT_DIR").unwrap()).join("shard_state.rs"), text).unwrap();
}
