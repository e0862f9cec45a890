//! Finds the proved static library: in the directory MIPSUQAL_LIBRARY; else where `tools/staticlib` leaves it
//! in this repository; else where pkg-config says that tools/install put it.
use std::env;
use std::path::{Path, PathBuf};
use std::process::Command;

/// Its name where it is installed, and its name as built.
const NAMES: [&str; 2] = ["mipsuqal", "panel_calls"];

fn main() {
    println!("cargo:rerun-if-env-changed=MIPSUQAL_LIBRARY");
    let places = match env::var_os("MIPSUQAL_LIBRARY") {
        Some(directory) => vec![PathBuf::from(directory)],
        None => [Some(built()), installed()].into_iter().flatten().collect(),
    };
    let found = places.iter().flat_map(|place| NAMES.map(|name| (place, name)));
    let Some((place, name)) = found.into_iter().find(|(place, name)| file(place, name).exists()) else {
        panic!(
            "no libmipsuqal.a: build it (docs/GUIDE.md, step 1), or set MIPSUQAL_LIBRARY to its directory"
        );
    };
    println!("cargo:rerun-if-changed={}", file(place, name).display());
    println!("cargo:rustc-link-search=native={}", place.display());
    println!("cargo:rustc-link-lib=static={name}");
}

fn file(place: &Path, name: &str) -> PathBuf {
    place.join(format!("lib{name}.a"))
}

fn built() -> PathBuf {
    PathBuf::from(env::var_os("CARGO_MANIFEST_DIR").expect("cargo gives it")).join("../../target/staticlib")
}

fn installed() -> Option<PathBuf> {
    let said = Command::new("pkg-config").args(["--variable=libdir", "mipsuqal"]).output().ok()?;
    let directory = String::from_utf8(said.stdout).ok()?;
    said.status.success().then(|| PathBuf::from(directory.trim()))
}
