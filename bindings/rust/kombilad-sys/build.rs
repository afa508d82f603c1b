//! Compiles libkombilad from its one C file, or links an installed library.
//!
//! The published crate has the C file and its header in `c/`; the repository has them in `dist/`.
//! If `KOMBILAD_LIB_DIR` is set, nothing is compiled, and the library in that folder is linked.

use std::env;
use std::path::{Path, PathBuf};
use std::process;

fn main() {
    println!("cargo:rerun-if-env-changed=KOMBILAD_LIB_DIR");
    let done = match env::var_os("KOMBILAD_LIB_DIR") {
        Some(folder) => link_installed(Path::new(&folder)),
        None => compile(),
    };
    if let Err(sentence) = done {
        eprintln!("kombilad-sys: {sentence}");
        process::exit(1);
    }
}

/// Links the shared library in the folder, or the static one if there is only that.
fn link_installed(folder: &Path) -> Result<(), String> {
    if !folder.is_dir() {
        return Err(format!(
            "KOMBILAD_LIB_DIR is \"{}\", which is not a folder: set it to the folder of \
             libkombilad, or unset it to compile the library",
            folder.display()
        ));
    }
    println!("cargo:rustc-link-search=native={}", folder.display());
    println!("cargo:rustc-link-lib=kombilad");
    Ok(())
}

/// Compiles the C file and links it. Crates that depend on this one find the header's folder in
/// `DEP_KOMBILAD_INCLUDE`.
fn compile() -> Result<(), String> {
    let folder = sources()?;
    let file = folder.join("kombilad.c");
    for name in ["kombilad.c", "kombilad.h"] {
        println!("cargo:rerun-if-changed={}", folder.join(name).display());
    }
    println!("cargo:include={}", folder.display());
    // Without optimization the code is many times slower and takes more stack. It was made by a
    // script, so it has nothing to debug.
    cc::Build::new()
        .file(&file)
        .opt_level(2)
        .debug(false)
        .warnings(false)
        .try_compile("kombilad")
        .map_err(|error| {
            format!(
                "{} was not compiled: {error}. Install a C compiler (on Debian: apt-get install \
                 gcc libc6-dev), or set CC to one",
                file.display()
            )
        })
}

/// Returns the folder of the C file.
fn sources() -> Result<PathBuf, String> {
    let here = PathBuf::from(env::var_os("CARGO_MANIFEST_DIR").unwrap_or_default());
    let folders = [here.join("c"), here.join("../../../dist")];
    folders.into_iter().find(|it| it.join("kombilad.c").is_file()).ok_or_else(|| {
        "kombilad.c is neither in c/ of this crate nor in dist/ of the repository: take the \
         published crate or a whole clone, or set KOMBILAD_LIB_DIR to the folder of an installed \
         libkombilad"
            .to_owned()
    })
}
