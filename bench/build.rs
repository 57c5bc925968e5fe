//! Links the proved library where the feature `library` asks for it.
use std::env;

fn main() {
    println!("cargo:rerun-if-env-changed=PHENGARYL_LIB");
    if env::var_os("CARGO_FEATURE_LIBRARY").is_none() {
        return;
    }
    match env::var("PHENGARYL_LIB") {
        Ok(directory) => {
            println!("cargo:rustc-link-search=native={directory}");
            println!("cargo:rustc-link-lib=static=phengaryl");
            println!("cargo:rerun-if-changed={directory}/libphengaryl.a");
        }
        Err(_) => {
            eprintln!("PHENGARYL_LIB must name the directory of libphengaryl.a");
            std::process::exit(1);
        }
    }
}
