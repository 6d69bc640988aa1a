//! With feature `unit`: where the static library of crate `unit_words_c` lies.
use std::{env, process};

fn main() {
    println!("cargo:rerun-if-changed=build.rs");
    println!("cargo:rerun-if-env-changed=COWHIRAME_LIB");
    if env::var_os("CARGO_FEATURE_UNIT").is_none() {
        return;
    }
    let Ok(folder) = env::var("COWHIRAME_LIB") else {
        eprintln!("error: COWHIRAME_LIB is not set: it names the folder of libunit_words.a");
        process::exit(1)
    };
    println!("cargo:rerun-if-changed={folder}/libunit_words.a");
    println!("cargo:rustc-link-search=native={folder}");
}
