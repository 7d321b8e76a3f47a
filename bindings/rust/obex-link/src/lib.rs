//! For build scripts: finds a static library of the proved crates and links it.
//!
//! `tools/make/staticlib NAME` writes `libNAME.a`. It is looked for in the folder that `OBEX_LIB` names;
//! else in `lib` beside these crates, where a distribution has it; else in `target/staticlib` of
//! the repository. If it is in none of them, or the target is not x86-64 Linux, the build script
//! warns and goes on: checking and documenting a crate need no library, and building it stops
//! with rustc's own message that there is none.
#![warn(missing_docs)]
use std::env;
use std::path::{Path, PathBuf};

/// Links the library `name` into the crate whose build script calls, or warns that it is not there.
pub fn archive(name: &str) {
    let file = format!("lib{name}.a");
    println!("cargo:rerun-if-env-changed=OBEX_LIB");
    println!("cargo:rustc-link-lib=static={name}");
    let target = env::var("TARGET").unwrap_or_default();
    if !is_served(&target) {
        return warn(&format!("{file} is built for x86-64 Linux, and there is none for {target}"));
    }
    let own = PathBuf::from(env::var_os("CARGO_MANIFEST_DIR").unwrap_or_default());
    let folders = folders(&own, env::var_os("OBEX_LIB").map(PathBuf::from));
    for folder in &folders {
        println!("cargo:rerun-if-changed={}", folder.join(&file).display());
    }
    match folders.iter().find(|folder| folder.join(&file).is_file()) {
        Some(folder) => println!("cargo:rustc-link-search=native={}", folder.display()),
        None => warn(&missing(name, &folders)),
    }
}

/// Tells whether the libraries are built for `target`.
fn is_served(target: &str) -> bool {
    target.starts_with("x86_64-") && target.contains("-linux-")
}

/// The folders in which a library is looked for, in this order.
fn folders(crate_folder: &Path, named: Option<PathBuf>) -> Vec<PathBuf> {
    match named {
        Some(folder) => vec![folder],
        None => {
            let above = |levels| crate_folder.ancestors().nth(levels).unwrap_or(crate_folder);
            vec![above(2).join("lib"), above(3).join("target/staticlib")]
        }
    }
}

/// What to do if the library is in none of the folders.
fn missing(name: &str, folders: &[PathBuf]) -> String {
    let places: Vec<String> = folders.iter().map(|folder| folder.display().to_string()).collect();
    format!(
        "no lib{name}.a in {}. Run `tools/make/staticlib {name}` in the repository, which writes it to target/staticlib, or set OBEX_LIB to the \
         folder that has it. Until then this crate can be checked and documented, and not linked",
        places.join(" or "),
    )
}

fn warn(text: &str) {
    println!("cargo:warning={text}");
}

#[cfg(test)]
mod tests {
    use super::*;

    #[test]
    fn a_named_folder_is_the_only_one() {
        assert_eq!(folders(Path::new("/r/obex-engine"), Some("/x".into())), [PathBuf::from("/x")]);
        assert_eq!(
            folders(Path::new("/r/bindings/rust/obex-engine"), None),
            [PathBuf::from("/r/bindings/lib"), PathBuf::from("/r/target/staticlib")]
        );
    }

    #[test]
    fn the_message_names_what_to_do() {
        let text = missing("engine_c", &["/a".into(), "/b".into()]);
        for part in ["/a or /b", "`tools/make/staticlib engine_c`", "target/staticlib", "OBEX_LIB"] {
            assert!(text.contains(part), "{part} is not in: {text}");
        }
    }

    #[test]
    fn targets() {
        assert!(is_served("x86_64-unknown-linux-gnu") && is_served("x86_64-unknown-linux-musl"));
        assert!(!is_served("aarch64-unknown-linux-gnu") && !is_served("x86_64-apple-darwin"));
    }
}
