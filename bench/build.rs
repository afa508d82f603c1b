//! Links the static library that `rt lib` makes of `crates/bench_kombilad`, and the library of the
//! toolchain that it allocates by.

use std::env;

fn main() {
    link("BENCH_LIBRARY", "bench_kombilad");
    link("BENCH_TOOLCHAIN_C", "libc_c");
}

/// Links the static library of this name from the folder that the variable names.
fn link(variable: &str, name: &str) {
    println!("cargo:rerun-if-env-changed={variable}");
    let folder = env::var(variable)
        .unwrap_or_else(|_| panic!("{variable} names no folder: bench/run sets it"));
    println!("cargo:rerun-if-changed={folder}/lib{name}.a");
    println!("cargo:rustc-link-search=native={folder}");
    println!("cargo:rustc-link-lib=static={name}");
}
