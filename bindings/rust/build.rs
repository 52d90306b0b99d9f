// Finds the planner's static library, libstation.a, and has it linked.

use std::env;
use std::path::PathBuf;
use std::process::exit;

// PLANNER_LIB_DIR, or where the repository builds it.
fn folder() -> PathBuf {
    match env::var_os("PLANNER_LIB_DIR") {
        Some(folder) => folder.into(),
        None => PathBuf::from(env::var_os("CARGO_MANIFEST_DIR").unwrap()).join("../../target/staticlib"),
    }
}

fn main() {
    println!("cargo:rerun-if-env-changed=PLANNER_LIB_DIR");
    let folder = folder();
    let library = folder.join("libstation.a");
    println!("cargo:rerun-if-changed={}", library.display());
    if !library.is_file() {
        eprintln!("{} isn't there: run `bin/library` in the repository,", library.display());
        eprintln!("or name the folder of libstation.a in the environment variable PLANNER_LIB_DIR");
        exit(1);
    }
    println!("cargo:rustc-link-search=native={}", folder.canonicalize().unwrap().display());
    println!("cargo:rustc-link-lib=static=station");
}
