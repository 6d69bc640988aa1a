//! Copies the published sources, unchanged, from the folder that OPENQASM_SOURCE names.
use std::path::{Path, PathBuf};
use std::{env, fs, process};

const SOURCES: [&str; 4] = ["ast/mod.rs", "ast/utils.rs", "translate/mod.rs", "translate/value.rs"];

fn stop(message: String) -> ! {
    eprintln!("error: {message}");
    process::exit(1)
}

fn main() {
    println!("cargo:rerun-if-changed=build.rs");
    println!("cargo:rerun-if-env-changed=OPENQASM_SOURCE");
    let Some(folder) = env::var_os("OPENQASM_SOURCE") else {
        stop("OPENQASM_SOURCE is not set: it names the folder of openqasm 0.1.2's sources".into())
    };
    let out = PathBuf::from(env::var_os("OUT_DIR").unwrap());
    for source in SOURCES {
        let from = Path::new(&folder).join(format!("src--src--{}.txt", source.replace('/', "--")));
        println!("cargo:rerun-if-changed={}", from.display());
        let to = out.join(source);
        fs::create_dir_all(to.parent().unwrap()).unwrap();
        if let Err(error) = fs::copy(&from, &to) {
            stop(format!("OPENQASM_SOURCE: {}: {error}", from.display()));
        }
    }
}
