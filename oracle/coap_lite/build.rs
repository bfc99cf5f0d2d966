//! Writes the module declarations that take the given files from where they stand, unchanged.

use std::path::PathBuf;
use std::{env, fs};

/// The given files that are compiled, below COAP_LITE_SRC.
const MODULES: [(&str, &str); 3] =
    [("error", "src/error.rs"), ("option_value", "src/option_value.rs"), ("block_handler", "src/block_handler/mod.rs")];

fn main() {
    println!("cargo::rerun-if-env-changed=COAP_LITE_SRC");
    let here = PathBuf::from(env::var_os("CARGO_MANIFEST_DIR").unwrap());
    // By default the folder shared/docs/src beside the repository.
    let given = match env::var_os("COAP_LITE_SRC") {
        Some(folder) => PathBuf::from(folder),
        None => here.join("../../../shared/docs/src"),
    };
    let given = given.canonicalize().unwrap_or_else(|e| panic!("COAP_LITE_SRC: {}: {e}", given.display()));
    println!("cargo::rerun-if-changed={}", given.join("src/block_handler/block_value.rs").display());

    let mut text = String::new();
    for (name, file) in MODULES {
        let path = given.join(file);
        assert!(path.is_file(), "COAP_LITE_SRC has no {file}");
        println!("cargo::rerun-if-changed={}", path.display());
        text += &format!("#[path = {:?}]\npub mod {name};\n", path.to_str().unwrap());
    }
    let out = PathBuf::from(env::var_os("OUT_DIR").unwrap());
    fs::write(out.join("given.rs"), text).unwrap();
}
