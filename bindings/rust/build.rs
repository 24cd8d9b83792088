// SPDX-License-Identifier: MIT OR Apache-2.0
//! SMMUQ_LIB names the folder of libsmmuq.a, as `tools/make-c-library FOLDER` makes it in FOLDER/lib.
fn main() {
    println!("cargo:rerun-if-env-changed=SMMUQ_LIB");
    let folder = std::env::var("SMMUQ_LIB").expect("SMMUQ_LIB names the folder of libsmmuq.a");
    println!("cargo:rerun-if-changed={folder}/libsmmuq.a");
    println!("cargo:rustc-link-search=native={folder}");
    println!("cargo:rustc-link-lib=static=smmuq");
}
