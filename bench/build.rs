//! Links the static library, or the object that `PASS_PLANNER` names in its place.

use std::env;
use std::path::PathBuf;

fn main() {
    let library = env::var("PASS_PLANNER").map_or_else(
        |_| PathBuf::from(env!("CARGO_MANIFEST_DIR")).join("../target/staticlib/libscript.a"),
        PathBuf::from,
    );
    println!("cargo:rustc-link-arg={}", library.display());
    println!("cargo:rerun-if-changed={}", library.display());
    println!("cargo:rerun-if-env-changed=PASS_PLANNER");
}
