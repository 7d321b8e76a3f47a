//! Copies the original Rust into the build folder and adds what it lacks to be
//! compiled as a part of this crate.
//!
//! None of the original is kept in the project. What is compiled is the copy, and
//! this is all that is different in it:
//!
//! * `glue.rs` and `engine/mod.rs` are made here. They hold `mod` lines and nothing
//!   else; the original's `lib.rs` and `engine/mod.rs` are not at hand, and its
//!   modules tokio, session, client, transport and target are left out.
//! * One block (`src/inspect.rs`) is appended to the copy of `engine/server.rs`. It
//!   reads the engine's private state and changes nothing.
//!
//! Every other byte is as in the folder that `OBEX_SRC` names.

use std::path::{Path, PathBuf};
use std::{env, fs, process};

/// The modules at the root of the crate, each a file of the original.
const MODULES: [&str; 11] = [
    "action", "auth", "error", "header", "md5", "opcode", "packet", "response", "server", "srm",
    "tlv",
];

/// The modules under `engine`.
const ENGINE_MODULES: [&str; 3] = ["body", "io", "server"];

/// Where the original is if `OBEX_SRC` is not set: beside the project's root.
const DEFAULT_SOURCE: &str = "../../shared/docs/src/src";

fn main() {
    let here = PathBuf::from(env::var_os("CARGO_MANIFEST_DIR").unwrap());
    let copy = PathBuf::from(env::var_os("OUT_DIR").unwrap()).join("original");
    let source = match env::var_os("OBEX_SRC") {
        Some(folder) => PathBuf::from(folder),
        None => here.join(DEFAULT_SOURCE),
    };
    let inspection = here.join("src/inspect.rs");

    println!("cargo:rerun-if-env-changed=OBEX_SRC");
    println!("cargo:rerun-if-changed=build.rs");
    println!("cargo:rerun-if-changed={}", inspection.display());

    let mut glue = String::new();
    for module in MODULES {
        write(
            &copy.join(format!("{module}.rs")),
            &read(&source.join(format!("{module}.rs"))),
        );
        glue += &mod_line(&copy.join(format!("{module}.rs")), module);
    }

    let mut engine = String::new();
    for module in ENGINE_MODULES {
        let mut text = read(&source.join("engine").join(format!("{module}.rs")));
        if module == "server" {
            text.push('\n');
            text += &read(&inspection);
        }
        write(&copy.join("engine").join(format!("{module}.rs")), &text);
        engine += &format!("pub(crate) mod {module};\n");
    }
    write(&copy.join("engine/mod.rs"), &engine);
    glue += &mod_line(&copy.join("engine/mod.rs"), "engine");

    write(&copy.join("glue.rs"), &glue);
}

/// One `mod` line. The path is given whole since `main.rs` takes the lines in by
/// `include!`; much of the original is not used here, hence the `allow`.
fn mod_line(file: &Path, module: &str) -> String {
    format!("#[allow(dead_code)]\n#[path = {file:?}]\nmod {module};\n")
}

fn read(file: &Path) -> String {
    println!("cargo:rerun-if-changed={}", file.display());

    fs::read_to_string(file).unwrap_or_else(|error| {
        eprintln!("cannot read {}: {error}", file.display());
        eprintln!("OBEX_SRC must name the folder with the original Rust (md5.rs, engine/ ...)");
        process::exit(1)
    })
}

fn write(file: &Path, text: &str) {
    fs::create_dir_all(file.parent().unwrap()).unwrap();
    fs::write(file, text).unwrap();
}
