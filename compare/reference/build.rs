//! Finds the reference sources and writes the `mod` lines that point at them.
//!
//! rustc then reads the very files in the reference's directory. No copy is made,
//! save the one inside the program that `driver --verify` compares by bytes.

use std::{
    env, fs,
    path::{Path, PathBuf},
};

/// Modules of the reference's root, and of its `p2p`.
const ROOT: [&str; 2] = ["subscribers", "delivery"];
const P2P: [&str; 6] = ["fetcher", "score", "inflight", "ingress", "wire", "engine"];

/// `RESOLVER_REFERENCE` if it is set, else `../shared/docs/src`; either is taken
/// from the repository's root.
fn reference_directory() -> PathBuf {
    let manifest = env::var("CARGO_MANIFEST_DIR").unwrap();
    let repository = Path::new(&manifest).join("../..");
    let named = env::var("RESOLVER_REFERENCE").unwrap_or_else(|_| "../shared/docs/src".into());
    let directory = repository.join(named);
    directory.canonicalize().unwrap_or_else(|error| {
        panic!("no reference sources at {}: {error}", directory.display());
    })
}

fn module(path: &Path, name: &str) -> String {
    format!("#[path = {path:?}]\npub mod {name};\n")
}

fn main() {
    println!("cargo::rerun-if-env-changed=RESOLVER_REFERENCE");
    let directory = reference_directory();
    let mut root = String::new();
    let mut p2p = String::new();
    let mut compiled = String::new();
    let root_files = ROOT.map(|name| (name, format!("src/{name}.rs")));
    let p2p_files = P2P.map(|name| (name, format!("src/p2p/{name}.rs")));
    for (modules, files) in [(&mut root, &root_files[..]), (&mut p2p, &p2p_files[..])] {
        for (name, file) in files {
            let path = directory.join(file);
            println!("cargo::rerun-if-changed={}", path.display());
            *modules += &module(&path, name);
            compiled += &format!("({file:?}, include_bytes!({path:?})),\n");
        }
    }
    let out = PathBuf::from(env::var("OUT_DIR").unwrap());
    fs::write(out.join("root.rs"), root).unwrap();
    fs::write(out.join("p2p.rs"), p2p).unwrap();
    fs::write(out.join("compiled.rs"), format!("&[\n{compiled}]")).unwrap();
    println!(
        "cargo::rustc-env=REFERENCE_DIRECTORY={}",
        directory.display()
    );
}
