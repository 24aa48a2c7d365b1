//! Links `libhub.a`, which `tools/library` makes; `VIADUCTLE_LIB` names another folder that has it.

fn main() {
    println!("cargo:rerun-if-env-changed=VIADUCTLE_LIB");
    if std::env::var_os("CARGO_FEATURE_PORT").is_none() {
        return;
    }
    let folder = std::env::var("VIADUCTLE_LIB").unwrap_or_else(|_| {
        let here = std::env::var("CARGO_MANIFEST_DIR").expect("cargo gives this");
        format!("{here}/../target/staticlib")
    });
    println!("cargo:rerun-if-changed={folder}/libhub.a");
    println!("cargo:rustc-link-search=native={folder}");
    println!("cargo:rustc-link-lib=static=hub");
}
