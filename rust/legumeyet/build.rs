//! Links the library in the folder that `LEGUMEYET_LIBRARY` names, statically; without it that of the crate, where it has one for the target,
//! else the shared one that pkg-config finds, and else that of the machine.

use std::env;
use std::path::{Path, PathBuf};
use std::process::Command;

/// The folder of a path: `LEGUMEYET_LIBRARY` may name the library's file, as it may for Python.
fn folder_of(path: &Path) -> PathBuf {
    if path.is_file() {
        path.parent().unwrap_or(path).to_path_buf()
    } else {
        path.to_path_buf()
    }
}

/// The folder with the library that `LEGUMEYET_LIBRARY` names, if it is set.
fn named_folder() -> Option<PathBuf> {
    // LEGUMEYET_LIB is the older name
    let names = ["LEGUMEYET_LIBRARY", "LEGUMEYET_LIB"];
    for name in names {
        println!("cargo:rerun-if-env-changed={name}");
    }
    let given = names.iter().find_map(|name| env::var_os(name).filter(|it| !it.is_empty()))?;
    let folder = folder_of(Path::new(&given));
    let is_there = folder.is_absolute() && folder.join("liblegumeyet.a").is_file();
    assert!(is_there, "LEGUMEYET_LIBRARY is the absolute path of a folder that has liblegumeyet.a, and {} is not", folder.display());
    Some(folder)
}

/// The folder with the library for the target that a released crate has.
fn own_folder() -> Option<PathBuf> {
    let (crate_folder, target) = (env::var_os("CARGO_MANIFEST_DIR")?, env::var_os("TARGET")?);
    Some(Path::new(&crate_folder).join("lib").join(target)).filter(|it| it.join("liblegumeyet.a").is_file())
}

/// The words of a text of pkg-config: what is behind a backslash, as a space in a path, belongs to its word.
fn words_of(text: &str) -> Vec<String> {
    let (mut words, mut chars) = (vec![String::new()], text.chars());
    while let Some(it) = chars.next() {
        match it {
            '\\' => words.last_mut().unwrap().extend(chars.next()),
            _ if it.is_whitespace() => words.push(String::new()),
            _ => words.last_mut().unwrap().push(it),
        }
    }
    words
}

/// What pkg-config says for the linker, where it knows the library: `PKG_CONFIG` names another command, and `PKG_CONFIG_PATH` folders.
fn said_by_pkg_config() -> Option<String> {
    for name in ["PKG_CONFIG", "PKG_CONFIG_PATH", "PKG_CONFIG_LIBDIR"] {
        println!("cargo:rerun-if-env-changed={name}");
    }
    if env::var_os("HOST") != env::var_os("TARGET") {
        return None;
    }
    let command = env::var_os("PKG_CONFIG").unwrap_or_else(|| "pkg-config".into());
    let said = Command::new(command).args(["--libs", "legumeyet"]).output().ok().filter(|it| it.status.success())?;
    String::from_utf8(said.stdout).ok()
}

fn main() {
    if let Some(folder) = named_folder().or_else(own_folder) {
        println!("cargo:rerun-if-changed={}", folder.join("liblegumeyet.a").display());
        println!("cargo:rustc-link-search=native={}", folder.display());
        println!("cargo:rustc-link-lib=static=legumeyet");
        return;
    }
    let said = said_by_pkg_config().unwrap_or_default();
    for folder in words_of(&said).iter().filter_map(|it| it.strip_prefix("-L")) {
        println!("cargo:rustc-link-search=native={folder}");
    }
    println!("cargo:rustc-link-lib=legumeyet");
}
