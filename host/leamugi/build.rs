//! Links the proved static library: that of the folder in `LEAMUGI_LIB`, else the package's own for the processor that is built for.
use std::path::PathBuf;
use std::{env, process};

/// The processors that the package has an archive for.
const PROCESSORS: [&str; 2] = ["x86_64", "aarch64"];

fn main() {
    println!("cargo:rerun-if-env-changed=LEAMUGI_LIB");
    let folder = env::var_os("LEAMUGI_LIB").map_or_else(own, |folder| from_where_the_user_stands(PathBuf::from(folder)));
    let library = folder.join("libleamugi.a");
    println!("cargo:rerun-if-changed={}", library.display());
    if !library.exists() {
        fail(&format!("{} is missing: name the folder of a libleamugi.a in LEAMUGI_LIB", library.display()));
    }
    println!("cargo:rustc-link-search=native={}", folder.display());
    println!("cargo:rustc-link-lib=static=leamugi");
}

/// The folder of the archive that is shipped for the processor that is built for.
fn own() -> PathBuf {
    let processor = env::var("CARGO_CFG_TARGET_ARCH").unwrap_or_default();
    let system = env::var("CARGO_CFG_TARGET_OS").unwrap_or_default();
    if !PROCESSORS.contains(&processor.as_str()) || system != "linux" {
        fail(&format!(
            "there is no libleamugi.a for {processor} and {system}: the archives are for Linux on {}; name the folder of another in LEAMUGI_LIB",
            PROCESSORS.join(" and ")
        ));
    }
    PathBuf::from(env::var_os("CARGO_MANIFEST_DIR").expect("cargo sets CARGO_MANIFEST_DIR")).join("lib").join(processor)
}

/// A path as the user means it: cargo runs this program in the package's folder, and leaves `PWD` as the user's shell has set it.
fn from_where_the_user_stands(path: PathBuf) -> PathBuf {
    if path.is_absolute() {
        return path;
    }
    println!("cargo:rerun-if-env-changed=PWD");
    env::var_os("PWD").map_or_else(PathBuf::new, PathBuf::from).join(path)
}

fn fail(why: &str) -> ! {
    eprintln!("leamugi: {why}");
    process::exit(1);
}
