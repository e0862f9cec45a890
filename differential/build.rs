//! Mounts the original's sources, byte for byte, from the directory ORACLE_SOURCES: nothing of them
//! stands in this repository. OUT_DIR also gets the schema that decode.rs includes from there.
use std::path::{Path, PathBuf};
use std::{env, fs};

fn main() {
    println!("cargo:rerun-if-env-changed=ORACLE_SOURCES");
    let directory = |name| PathBuf::from(env::var(name).unwrap_or_else(|_| panic!("{name} is not set")));
    let original = directory("ORACLE_SOURCES").join("src");
    let here = directory("CARGO_MANIFEST_DIR");
    let out = directory("OUT_DIR");

    let modules = [
        "pub mod rt {".into(),
        mount("alert_text", &here.join("shims/alert_text.rs")),
        mount("overlay", &original.join("rt/overlay.rs")),
        mount("decode", &original.join("rt/decode.rs")),
        "}\npub mod routing {\npub mod journey {".into(),
        format!("include!({:?});", found(&original.join("routing/journey.rs"))),
        mount("parts", &here.join("shims/parts.rs")),
        "}\n}\npub mod gtfs {".into(),
        mount("pack", &here.join("shims/pack.rs")),
        mount("siri_trip_map", &here.join("shims/siri_trip_map.rs")),
        "}".into(),
    ];
    fs::write(out.join("original.rs"), modules.join("\n")).unwrap();
    let schema = found(&here.join("schema/transit_realtime.rs"));
    fs::copy(schema, out.join("transit_realtime.rs")).unwrap();

    if env::var("CARGO_FEATURE_PORT").is_ok() {
        let libraries = directory("PORT_LIBRARIES");
        println!("cargo:rerun-if-env-changed=PORT_LIBRARIES");
        println!("cargo:rustc-link-search=native={}", libraries.display());
        for name in ["wire_probes", "decode_probes", "alerts_probes", "panel_probes", "panel_calls"] {
            found(&libraries.join(format!("lib{name}.a")));
            println!("cargo:rustc-link-lib=static={name}");
        }
    }
}

fn mount(name: &str, file: &Path) -> String {
    format!("#[path = {:?}]\npub mod {name};", found(file))
}

fn found(file: &Path) -> PathBuf {
    println!("cargo:rerun-if-changed={}", file.display());
    fs::canonicalize(file).unwrap_or_else(|_| panic!("no file {}", file.display()))
}
