//! Links the proved static library: crates/tariff/out/libtariff.a of the repository, or the file that the variable TARIFF_LIB names.
use std::path::{Path, PathBuf};
use std::{env, process};

fn main() {
    println!("cargo:rerun-if-env-changed=TARIFF_LIB");
    if env::var_os("CARGO_FEATURE_LIBRARY").is_none() {
        return;
    }
    let here = PathBuf::from(env::var_os("CARGO_MANIFEST_DIR").expect("cargo says where it builds"));
    let named = env::var_os("TARIFF_LIB").map(PathBuf::from);
    let file = named.unwrap_or_else(|| here.join("../crates/tariff/out/libtariff.a"));
    println!("cargo:rerun-if-changed={}", file.display());
    match file.canonicalize() {
        Ok(found) if found.is_file() => link(&found),
        _ => fail(&format!("{} is missing", file.display())),
    }
}

fn link(file: &Path) {
    let name = file.file_name().and_then(|n| n.to_str()).and_then(|n| n.strip_prefix("lib")?.strip_suffix(".a"));
    let (Some(name), Some(folder)) = (name, file.parent()) else {
        return fail(&format!("{} is not called libNAME.a", file.display()));
    };
    println!("cargo:rustc-link-search=native={}", folder.display());
    println!("cargo:rustc-link-lib=static={name}");
}

fn fail(why: &str) {
    eprintln!("\nThe checker's static library: {why}.");
    eprintln!("`rt lib`, run in the repository's folder crates/tariff, proves and writes it at crates/tariff/out/libtariff.a;");
    eprintln!("the variable TARIFF_LIB names another file. Without the feature `library` nothing is linked, and there is no checker.\n");
    process::exit(1);
}
