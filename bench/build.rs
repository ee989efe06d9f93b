//! Where the proved library stands: the folder that `bench/run` names.

use std::process::Command;

fn main() {
    println!("cargo:rerun-if-env-changed=DECK_DIR");
    println!("cargo:rerun-if-changed=build.rs");
    let deck = std::env::var("DECK_DIR").expect("DECK_DIR names the folder of libdeck.a; bench/run sets it");
    println!("cargo:rustc-link-search=native={deck}");
    println!("cargo:rerun-if-changed={deck}/libdeck.a");
    println!("cargo:rustc-env=RUST_COMPILER={}", compiler());
}

fn compiler() -> String {
    let rustc = std::env::var("RUSTC").expect("cargo names its compiler");
    let said = Command::new(rustc).arg("--version").output().expect("the compiler says its version");
    String::from_utf8_lossy(&said.stdout).trim().to_string()
}
