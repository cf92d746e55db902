//! Builds the library from the project's crates, and links a copy of just that archive, so that no older one is ever taken.

use std::path::{Path, PathBuf};
use std::process::{exit, Command};

fn main() {
    let project = Path::new(env!("CARGO_MANIFEST_DIR")).join("../..");
    let folder = PathBuf::from(std::env::var_os("OUT_DIR").expect("cargo sets OUT_DIR"));
    println!("cargo:rerun-if-changed={}", project.join("crates.txt").display());
    for folder in std::fs::read_dir(project.join("crates")).unwrap_or_else(|error| stop(&format!("crates: {error}"))).flatten() {
        for source in ["src", "specs", "proofs"] {
            let source = folder.path().join(source);
            if source.exists() {
                println!("cargo:rerun-if-changed={}", source.display());
            }
        }
    }
    let home = project.join("crates/himm");
    build(&home);
    let archive = home.join("out/libhimm.a");
    std::fs::copy(&archive, folder.join("libhimm.a")).unwrap_or_else(|error| stop(&format!("{}: {error}", archive.display())));
    println!("cargo:rustc-link-search=native={}", folder.display());
    println!("cargo:rustc-link-lib=static=himm");
}

/// `rt lib` in the folder of the crate himm; what it says is shown where it fails.
fn build(home: &Path) {
    let said = Command::new("rt").arg("lib").current_dir(home).output();
    match said {
        Ok(said) if said.status.success() => (),
        Ok(said) => stop(&format!("{}{}", String::from_utf8_lossy(&said.stdout), String::from_utf8_lossy(&said.stderr))),
        Err(error) => stop(&format!("rt: {error}")),
    }
}

/// Ends the build with a reason.
fn stop(reason: &str) -> ! {
    eprintln!("{reason}");
    eprintln!("The library was not built: `rt lib` in crates/himm builds it.");
    exit(1)
}
