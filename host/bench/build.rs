//! Cuts scaled_error_norm, which the original keeps to one file, out of that file.
use std::path::Path;
use std::{env, fs};

fn main() {
    let package = env::var("CARGO_MANIFEST_DIR").expect("cargo names the package's folder");
    let file = Path::new(&package)
        .join("../../../shared/docs/src/src/solvers/rosenbrock/rosenbrock_extended/steps.rs");
    println!("cargo::rerun-if-changed={}", file.display());
    let text = fs::read_to_string(&file).expect("the original's steps.rs");
    let from = text.find("fn scaled_error_norm(").expect("the norm");
    let end = from + text[from..].find("\n}\n").expect("its end") + 3;
    let out = env::var("OUT_DIR").expect("cargo names the folder for output");
    fs::write(Path::new(&out).join("norm.rs"), &text[from..end]).expect("the cut");
}
