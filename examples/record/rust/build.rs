//! Links the library for programs in C, and the toolchain's that it stands on: they are in the folders that DSR_CHECK_LIBRARIES names, as PATH names folders.

use std::env;

fn main() {
    println!("cargo:rerun-if-env-changed=DSR_CHECK_LIBRARIES");
    let folders = env::var_os("DSR_CHECK_LIBRARIES").expect("DSR_CHECK_LIBRARIES names the folders of libdsr_check_c.a and liblibc_c.a");
    for folder in env::split_paths(&folders) {
        println!("cargo:rustc-link-search=native={}", folder.display());
    }
    println!("cargo:rustc-link-lib=static=dsr_check_c");
    println!("cargo:rustc-link-lib=static=libc_c");
}
