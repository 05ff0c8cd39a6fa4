//! Finds the proved library, libdesk.a: in the folder that TSUVRANKHE_LIB names, or else where `tools/desk-lib` puts it.
use std::env;
use std::path::{Path, PathBuf};
use std::process::exit;

fn stop(message: &str) -> ! {
    eprintln!("tsuvrankhe: {message}");
    exit(1)
}

/// The folder of the library, and whether it was named by hand.
fn folder() -> (PathBuf, bool) {
    match env::var_os("TSUVRANKHE_LIB") {
        Some(named) => (PathBuf::from(named), true),
        None => {
            let here = env::var_os("CARGO_MANIFEST_DIR").unwrap_or_default();
            (Path::new(&here).join("../target/staticlib"), false)
        }
    }
}

fn main() {
    println!("cargo:rerun-if-env-changed=TSUVRANKHE_LIB");
    let (folder, named) = folder();
    let library = folder.join("libdesk.a");
    println!("cargo:rerun-if-changed={}", library.display());

    let machine = env::var("CARGO_CFG_TARGET_ARCH").unwrap_or_default();
    if !named && machine != "x86_64" {
        stop(&format!(
            "`tools/desk-lib` makes a library for x86-64 alone, and this is built for {machine}. Name the folder of a libdesk.a for it in \
             TSUVRANKHE_LIB."
        ));
    }
    if !library.is_file() {
        stop(&format!(
            "there is no {}. Run `tools/desk-lib` at the repository's top first, or name the folder of libdesk.a in TSUVRANKHE_LIB.",
            library.display()
        ));
    }
    println!("cargo:rustc-link-search=native={}", folder.display());
    println!("cargo:rustc-link-lib=static=desk");
}
