//! The C header and the declarations of `sys` can't drift apart: each declaration, put into C, stands in the header word by word, and a C
//! compiler takes it for the same function. The example in C is compiled, linked and run.
use std::path::{Path, PathBuf};
use std::process::Command;

use selvaigo::{Refusal, sys};

const HEADER: &str = include_str!("../../include/selvaigo.h");
const DECLARATIONS: &str = include_str!("../src/sys.rs");

struct Function {
    name: &'static str,
    params: Vec<String>,
    result: &'static str,
}

impl Function {
    fn prototype(&self) -> String {
        format!("{} {}({})", self.result, self.name, self.params.join(", "))
    }
}

fn number(rust: &str) -> &'static str {
    match rust {
        "u8" => "uint8_t",
        "u32" => "uint32_t",
        "u64" => "uint64_t",
        "usize" => "size_t",
        other => panic!("no C type for {other}"),
    }
}

// A parameter in C: an array's length stands in its brackets, that of a record by its name.
fn param(name: &str, rust: &str) -> String {
    let (front, to) = match (rust.strip_prefix("*const "), rust.strip_prefix("*mut ")) {
        (Some(to), _) => ("const ", to),
        (_, Some(to)) => ("", to),
        _ => return format!("{} {name}", number(rust)),
    };
    match to.strip_prefix('[').and_then(|array| array.strip_suffix(']')) {
        Some(array) => {
            let (element, len) = array.split_once("; ").unwrap();
            let prefix = if len.starts_with(char::is_numeric) { "" } else { "SELVAIGO_" };
            format!("{front}{} {name}[{prefix}{len}]", number(element))
        }
        None => format!("{front}{} *{name}", number(to)),
    }
}

fn declared() -> Vec<Function> {
    let (_, block) = DECLARATIONS.split_once("unsafe extern \"C\" {").unwrap();
    let functions = block.split("pub fn ").skip(1).map(|text| {
        let (name, rest) = text.split_once('(').unwrap();
        let (params, rest) = rest.split_once(')').unwrap();
        let params = params.split(',').map(str::trim).filter(|param| !param.is_empty());
        let params = params.map(|one| one.split_once(": ").unwrap()).map(|(name, rust)| param(name, rust)).collect();
        let result = rest.split_once(';').unwrap().0.trim().strip_prefix("-> ").map_or("void", number);
        Function { name, params, result }
    });
    functions.collect()
}

fn compile(name: &str, args: &[&str]) -> PathBuf {
    let out = Path::new(env!("CARGO_TARGET_TMPDIR")).join(name);
    let cc = std::env::var("CC").unwrap_or("cc".into());
    let run = Command::new(cc)
        .args(["-std=c11", "-Wall", "-Wextra", "-Werror", "-I", concat!(env!("CARGO_MANIFEST_DIR"), "/../include")])
        .args(args)
        .arg("-o")
        .arg(&out)
        .output()
        .expect("a C compiler as cc, or named by CC");
    assert!(run.status.success(), "{}", String::from_utf8_lossy(&run.stderr));
    out
}

#[test]
fn every_declaration_stands_in_the_header() {
    let header = HEADER.split_whitespace().collect::<Vec<_>>().join(" ");
    let functions = declared();
    for f in &functions {
        assert!(header.contains(&format!("{};", f.prototype())), "the header hasn't {}", f.prototype());
    }
    let stated = HEADER.lines().filter(|line| line.contains(" selvaigo_") && !line.starts_with([' ', '/', '*'])).count();
    assert_eq!(functions.len(), stated);
}

#[test]
fn a_c_compiler_takes_both_for_the_same() {
    let mut c = String::from("#include \"selvaigo.h\"\n");
    for f in declared() {
        c += &format!("{};\n", f.prototype());
        c += &format!("extern {} (*const to_{})({});\n", f.result, f.name, f.params.join(", "));
        c += &format!("{} (*const to_{})({}) = {};\n", f.result, f.name, f.params.join(", "), f.name);
    }
    for refusal in Refusal::ALL {
        let name = refusal.word().to_uppercase().replace(' ', "_");
        c += &format!("_Static_assert(SELVAIGO_{name} == {}, \"{refusal}\");\n", refusal.number());
    }
    let numbers = [
        ("STATE", sys::STATE as u64),
        ("NURSERY", sys::NURSERY as u64),
        ("STANDARD_DELAY", sys::STANDARD_DELAY),
        ("STANDARD_SHRINK_BASE", sys::STANDARD_SHRINK_BASE),
        ("STANDARD_SHRINK_MAX", sys::STANDARD_SHRINK_MAX),
        ("STANDARD_GOOD_SAVE", sys::STANDARD_GOOD_SAVE),
    ];
    for (name, number) in numbers {
        c += &format!("_Static_assert(SELVAIGO_{name} == {number}, \"{name}\");\n");
    }
    // All that are there.
    assert_eq!(DECLARATIONS.matches("pub const ").count(), numbers.len());
    assert_eq!(HEADER.matches(" = ").count(), 1 + Refusal::ALL.len() + numbers.len());
    let source = Path::new(env!("CARGO_TARGET_TMPDIR")).join("same.c");
    std::fs::write(&source, c).unwrap();
    compile("same.o", &["-c", source.to_str().unwrap()]);
}

#[test]
fn the_example_in_c_runs() {
    let source = concat!(env!("CARGO_MANIFEST_DIR"), "/../examples/c/box.c");
    let library = format!("{}/libselvaigo.a", env!("SELVAIGO_FOLDER"));
    let run = Command::new(compile("box", &[source, &library])).output().unwrap();
    assert!(run.status.success());
    let said = "count 3, snapshot of 167 bytes\n\
                an old count of 2: refused with 5; a shrink base above its maximum: refused with 23\n";
    assert_eq!(String::from_utf8(run.stdout).unwrap(), said);
}
