//! Links the library that is timed, and AGG with the C++ function that draws by it.

use std::process::Command;

/// A folder that `bench/run` or cargo names.
fn folder(name: &str) -> String {
    std::env::var(name).unwrap_or_else(|_| panic!("{name} is not set; bench/run sets it"))
}

fn run(command: &mut Command) {
    let status = command.status();
    let done = matches!(&status, Ok(status) if status.success());
    assert!(done, "{command:?}: {status:?}");
}

fn link_library() {
    let folder = folder("QUORILANTH_LIB");
    println!("cargo:rerun-if-env-changed=QUORILANTH_LIB");
    println!("cargo:rerun-if-changed={folder}/liblinked.a");
    println!("cargo:rustc-link-search=native={folder}");
    println!("cargo:rustc-link-lib=static=linked");
}

/// AGG's objects that may stand in any executable are in `agg_pic`; they use C++'s own library.
fn link_agg() {
    let source = "src/peers/agg.cpp";
    let folder = folder("OUT_DIR");
    let (object, archive) = (
        format!("{folder}/agg.o"),
        format!("{folder}/libagg_points.a"),
    );
    run(Command::new("g++")
        .args(["-O3", "-march=x86-64", "-Wall", "-Wextra"])
        .args(["-isystem", "/usr/include/agg2"])
        .args(["-c", source, "-o", &object]));
    run(Command::new("ar").args(["rcs", &archive, &object]));
    println!("cargo:rerun-if-changed={source}");
    println!("cargo:rustc-link-search=native={folder}");
    println!("cargo:rustc-link-lib=static=agg_points");
    println!("cargo:rustc-link-lib=agg_pic");
    println!("cargo:rustc-link-lib=stdc++");
}

fn main() {
    link_library();
    link_agg();
}
