//! Says where the archives are: target/staticlib of the clone, or the folder that LARNT_STATICLIB names.
use std::{env, path::PathBuf};

fn main() {
    println!("cargo::rerun-if-env-changed=LARNT_STATICLIB");
    let here = PathBuf::from(env::var_os("CARGO_MANIFEST_DIR").unwrap());
    let folder = match env::var_os("LARNT_STATICLIB") {
        Some(named) => PathBuf::from(named),
        None => here.join("../../target/staticlib"),
    };
    for name in [
        "host",
        "host_preview",
        "host_parts",
        "host_account",
        "host_merge",
        "host_text",
        "host_plotter",
    ] {
        let archive = folder.join(format!("lib{name}.a"));
        println!("cargo::rerun-if-changed={}", archive.display());
        if !archive.exists() {
            println!(
                "cargo::error={} is not there: run `tools/archives {name}` in the clone, or name the folder that has it in LARNT_STATICLIB",
                archive.display()
            );
        }
    }
    println!("cargo::rustc-link-search=native={}", folder.display());
}
