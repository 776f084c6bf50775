//! Writes the module list that takes the crate's files from the folder given by AYA_OBJ_SRC.

use std::{env, fs, path::PathBuf};

/// Where the crate's sources lie unless AYA_OBJ_SRC says otherwise: a folder `shared` beside the repository.
const BESIDE: &str = "../../../shared/docs/src";

fn main() {
    println!("cargo::rerun-if-env-changed=AYA_OBJ_SRC");
    let here = PathBuf::from(env::var("CARGO_MANIFEST_DIR").unwrap());
    let given = env::var_os("AYA_OBJ_SRC").map_or_else(|| here.join(BESIDE), PathBuf::from);
    let Ok(root) = given.join("src").canonicalize() else {
        println!(
            "cargo::error=the crate's sources are not in {}: set AYA_OBJ_SRC to the folder that holds src/btf/relocation.rs",
            given.display()
        );
        return;
    };
    let file = |name: &str| {
        let path = root.join(name);
        println!("cargo::rerun-if-changed={}", path.display());
        format!("{:?}", path.display().to_string())
    };
    let out = PathBuf::from(env::var("OUT_DIR").unwrap());
    let probe = format!("{:?}", here.join("src/probe.rs").display().to_string());
    let btf = format!(
        "#[path = {}] mod btf;\n#[path = {}] mod info;\n#[path = {}] mod types;\n\
         pub mod relocation {{\n    include!({});\n    #[path = {probe}] pub mod probe;\n}}\n\
         pub use btf::*;\npub use info::*;\npub use relocation::BtfRelocationError;\npub use types::*;\n",
        file("btf/btf.rs"),
        file("btf/info.rs"),
        file("btf/types.rs"),
        file("btf/relocation.rs"),
    );
    fs::write(out.join("btf.rs"), btf).unwrap();
    let root = format!(
        "#[path = {}] mod util;\n#[path = {}] pub(crate) mod btf_internal_bindings;\n",
        file("util.rs"),
        file("generated/btf_internal_bindings.rs"),
    );
    fs::write(out.join("root.rs"), root).unwrap();
}
