//! Links the archive for the target: in a release it is inside the crate, and in the repository `./c-library` builds it.

use std::path::Path;

fn main() {
    let target = ["OS", "ARCH", "ENV"].map(|part| variable(&format!("CARGO_CFG_TARGET_{part}"))).join("-");
    let (below, option) = match target.as_str() {
        "linux-x86_64-gnu" | "linux-x86_64-musl" => ("", ""),
        "linux-aarch64-gnu" | "linux-aarch64-musl" => ("aarch64", " --target aarch64"),
        _ => {
            eprintln!(
                "firthnapkin is for Linux on x86-64 or aarch64 with glibc or musl, and this target is {}",
                variable("TARGET")
            );
            std::process::exit(1);
        }
    };
    let here = variable("CARGO_MANIFEST_DIR");
    let inside = Path::new(&here).join("native");
    let archives = if inside.exists() { inside } else { Path::new(&here).join("../../out") };
    let folder = archives.join(below);
    let library = folder.join("libfirthnapkin.a");
    assert!(
        library.exists(),
        "{} is not there: ./c-library{option} builds it, in the repository's folder",
        library.display()
    );
    println!("cargo:rustc-link-search=native={}", folder.display());
    println!("cargo:rustc-link-lib=static=firthnapkin");
    println!("cargo:rerun-if-changed={}", library.display());
    println!("cargo:rerun-if-changed=build.rs");
}

fn variable(name: &str) -> String {
    std::env::var(name).expect("cargo sets it for a build script")
}
