//! Finds `libhub.a`, which `tools/library` makes (by `rt lib` of hub_c): in the folder that `VIADUCTLE_LIB` names, as it is, or in the
//! repository's target/staticlib, where it must not be older than the sources that it is made of.

use std::{
    env, fs,
    path::{Path, PathBuf},
    process::exit,
    time::SystemTime,
};

fn main() {
    println!("cargo:rerun-if-env-changed=VIADUCTLE_LIB");
    let named = env::var_os("VIADUCTLE_LIB").map(PathBuf::from);
    let architecture = env::var("CARGO_CFG_TARGET_ARCH").unwrap_or_default();
    if named.is_none() && architecture != "x86_64" {
        stop(&format!(
            "the library is for x86-64 and this build is for {architecture}.\n\
             Build with --target x86_64-unknown-linux-gnu; bindings/rust/test does that, and runs the tests under an emulator.\n\
             Or set VIADUCTLE_LIB to a folder that has another libhub.a: on Arm `tools/library --native` makes one, in compare/target/native."
        ));
    }
    let here = env::var_os("CARGO_MANIFEST_DIR").expect("cargo gives this");
    let root = PathBuf::from(here).join("../..");
    let root = root.canonicalize().unwrap_or(root);
    let own = named.is_none();
    let folder = named.unwrap_or_else(|| root.join("target/staticlib"));
    let archive = folder.join("libhub.a");
    let Ok(made) = fs::metadata(&archive).and_then(|about| about.modified()) else {
        stop(&format!(
            "there is no {}.\n\
             Run `tools/library` in the repository, or set VIADUCTLE_LIB to the folder that has libhub.a.",
            archive.display()
        ));
    };
    if let Some(source) = own.then(|| newer(&root, made)).flatten() {
        stop(&format!(
            "{} is older than {}.\n\
             Run `tools/library` in the repository to build it again, or set VIADUCTLE_LIB to its folder to link it as it is.",
            archive.display(),
            source.display()
        ));
    }
    println!("cargo:rerun-if-changed={}", archive.display());
    println!("cargo:rustc-link-search=native={}", folder.display());
    println!("cargo:rustc-link-lib=static=hub");
}

/// A source of the library that was changed after `made`: of hub or of a crate below it, by crates.txt.
fn newer(root: &Path, made: SystemTime) -> Option<PathBuf> {
    let list = fs::read_to_string(root.join("crates.txt")).ok()?;
    let needs = |name: &str| {
        list.lines()
            .filter_map(|line| line.split_once(':'))
            .find(|(crate_name, _)| crate_name.trim() == name)
            .map(|(_, needs)| needs.split_whitespace())
    };
    let mut crates = vec!["hub"];
    let mut i = 0;
    while i < crates.len() {
        for name in needs(crates[i]).into_iter().flatten() {
            if !crates.contains(&name) {
                crates.push(name);
            }
        }
        i += 1;
    }
    let folders = crates.iter().map(|name| root.join("crates").join(name));
    let mut found = None;
    for folder in folders.filter(|folder| folder.is_dir()) {
        println!("cargo:rerun-if-changed={}", folder.display());
        found = found.or_else(|| newer_in(&folder, made));
    }
    found
}

fn newer_in(path: &Path, made: SystemTime) -> Option<PathBuf> {
    let about = fs::metadata(path).ok()?;
    let source = path
        .extension()
        .is_some_and(|end| end == "rt" || end == "antt");
    if (source || about.is_dir()) && about.modified().is_ok_and(|changed| changed > made) {
        return Some(path.to_path_buf());
    }
    let inside = about.is_dir().then(|| fs::read_dir(path).ok()).flatten()?;
    inside
        .flatten()
        .find_map(|entry| newer_in(&entry.path(), made))
}

fn stop(why: &str) -> ! {
    eprintln!("viaductle: {why}");
    exit(1);
}
