//! Links what is asked for beside our library: Debian's static libbpf (the archive, because its search is not exported by the shared
//! library), and an earlier library of ours.
use std::env;

fn main() {
    if linked("LIBBPF", "bpf") {
        println!("cargo:rustc-link-lib=elf");
        println!("cargo:rustc-link-lib=z");
    }
    linked("EARLIER", "earlier");
}

/// Links the archive of a feature from the folder that a variable names; whether the feature is on.
fn linked(feature: &str, archive: &str) -> bool {
    println!("cargo:rerun-if-env-changed={feature}_DIR");
    if env::var_os(format!("CARGO_FEATURE_{feature}")).is_none() {
        return false;
    }
    let folder = env::var(format!("{feature}_DIR")).expect("the folder of the archive is named");
    println!("cargo:rerun-if-changed={folder}/lib{archive}.a");
    println!("cargo:rustc-link-search=native={folder}");
    println!("cargo:rustc-link-lib=static={archive}");
    true
}
