//! Copies the sources of the original unchanged into the build folder, and writes the file that names them as modules. Behind the last line
//! of `schematic` stands left.rs, which sees what a run leaves.
//! They stand in ../../shared/docs/src/src beside the repository, or where the variable ORIGINAL says.
use std::path::{Path, PathBuf};
use std::{env, fs};

const MODULES: [&str; 5] = ["lex", "sexp", "kernel", "oracle", "schematic"];

fn main() {
    println!("cargo:rerun-if-env-changed=ORIGINAL");
    let here = PathBuf::from(env::var("CARGO_MANIFEST_DIR").expect("cargo says where it builds"));
    let from = env::var("ORIGINAL").map_or(here.join("../../shared/docs/src/src"), PathBuf::from);
    let out = PathBuf::from(env::var("OUT_DIR").expect("cargo says where to write"));
    let mut named = String::new();
    for module in MODULES {
        copy(&from, &out, module);
        named += &format!("#[allow(dead_code)]\n#[path = \"{}\"]\npub mod {module};\n", out.join(module).with_extension("rs").display());
    }
    fs::write(out.join("original.rs"), named).expect("the build folder can be written");
    link(&here);
}

/// Where a part of this product is measured: the static library that `rt lib` writes of its exported functions, in the folder of its crate. The
/// variable STATICLIB names another folder, which has all of them.
fn link(here: &Path) {
    println!("cargo:rerun-if-env-changed=STATICLIB");
    let named = env::var_os("STATICLIB").map(PathBuf::from);
    for (part, library) in [("READER", "exports"), ("TERMS", "exports_terms"), ("TERMS", "exports_store")] {
        if env::var(format!("CARGO_FEATURE_{part}")).is_ok() {
            let folder = named.clone().unwrap_or_else(|| here.join("../crates").join(library).join("out"));
            println!("cargo:rerun-if-changed={}", folder.join(format!("lib{library}.a")).display());
            println!("cargo:rustc-link-search=native={}", folder.display());
            println!("cargo:rustc-link-lib=static={library}");
        }
    }
}

fn copy(from: &Path, out: &Path, module: &str) {
    let file = from.join(module).with_extension("rs");
    println!("cargo:rerun-if-changed={}", file.display());
    let mut text =
        fs::read(&file).unwrap_or_else(|e| panic!("{}: {e}; the variable ORIGINAL names the folder of the original", file.display()));
    if module == "schematic" {
        println!("cargo:rerun-if-changed=left.rs");
        text.extend(fs::read("left.rs").expect("left.rs stands beside this file"));
    }
    fs::write(out.join(module).with_extension("rs"), text).expect("the build folder can be written");
}
