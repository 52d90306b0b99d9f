// Links libstation.a: from the folder PLANNER_LIB_DIR if that is given, else from where bin/library puts it.

use std::env;
use std::path::{Path, PathBuf};

fn main() {
    println!("cargo:rerun-if-env-changed=PLANNER_LIB_DIR");
    let built = || Path::new(&env::var("CARGO_MANIFEST_DIR").unwrap()).join("../../target/staticlib");
    let folder = env::var_os("PLANNER_LIB_DIR").map_or_else(built, PathBuf::from);
    println!("cargo:rerun-if-changed={}", folder.join("libstation.a").display());
    println!("cargo:rustc-link-search=native={}", folder.display());
    println!("cargo:rustc-link-lib=static=station");
}
