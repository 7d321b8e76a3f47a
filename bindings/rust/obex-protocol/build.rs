//! Copies the original's sources from the folder that `OBEX_SRC` names to the build folder and
//! makes the `mod` lines, as `oracle/build.rs` does. Nothing of the original is kept here.
use std::path::{Path, PathBuf};
use std::{env, fs, process};

/// Where the original is if `OBEX_SRC` is not set: beside the project's root.
const DEFAULT_SOURCE: &str = "../../../../shared/docs/src/src";

fn main() {
    let here = PathBuf::from(env::var_os("CARGO_MANIFEST_DIR").unwrap());
    let copy = PathBuf::from(env::var_os("OUT_DIR").unwrap()).join("original");
    let named = env::var_os("OBEX_SRC").map_or(here.join(DEFAULT_SOURCE), PathBuf::from);
    // The folder of the sources, or the one above it.
    let source = if named.join("server.rs").is_file() { named } else { named.join("src") };
    println!("cargo:rerun-if-env-changed=OBEX_SRC");
    println!("cargo:rerun-if-changed=build.rs");
    fs::create_dir_all(copy.join("engine")).unwrap();
    let mut glue = String::new();
    for module in ["action", "auth", "error", "header", "md5", "opcode", "packet", "response", "server", "session", "srm", "tlv"] {
        let file = copy.join(format!("{module}.rs"));
        take(&source.join(format!("{module}.rs")), &file);
        glue += &format!("#[path = {file:?}]\npub mod {module};\n");
    }
    let mut engine = String::new();
    for module in ["body", "io", "server"] {
        let name = format!("{module}.rs");
        take(&source.join("engine").join(&name), &copy.join("engine").join(&name));
        engine += &format!("pub(crate) mod {module};\n");
    }
    fs::write(copy.join("engine/mod.rs"), engine).unwrap();
    glue += &format!("#[path = {:?}]\nmod engine;\n", copy.join("engine/mod.rs"));
    fs::write(copy.join("glue.rs"), glue).unwrap();
}

fn take(from: &Path, to: &Path) {
    println!("cargo:rerun-if-changed={}", from.display());
    if let Err(error) = fs::copy(from, to) {
        eprintln!("cannot read {}: {error}", from.display());
        eprintln!("Set OBEX_SRC to the folder that has server.rs and engine/server.rs");
        process::exit(1);
    }
}
