//! Links the archive of `crates/wasmi_bench`, and the kit's archive with the C functions that it allocates by.

use std::env;

fn main() {
    for (folder, archive) in [
        ("BENCH_ARCHIVE", "wasmi_bench"),
        ("BENCH_C_ARCHIVE", "libc_c"),
    ] {
        println!("cargo:rerun-if-env-changed={folder}");
        let Ok(path) = env::var(folder) else {
            panic!("{folder} names no folder: build by bench/run");
        };
        println!("cargo:rerun-if-changed={path}/lib{archive}.a");
        println!("cargo:rustc-link-search=native={path}");
        println!("cargo:rustc-link-lib=static={archive}");
    }
}
