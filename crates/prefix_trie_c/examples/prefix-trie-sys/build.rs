//! Links the two archives, `libprefix_trie_c.a` and `liblibc_c.a`, from the folder `PREFIX_TRIE_LIB_DIR`.
use std::env::var;

fn main() {
    println!("cargo:rerun-if-env-changed=PREFIX_TRIE_LIB_DIR");
    let folder = var("PREFIX_TRIE_LIB_DIR").expect("PREFIX_TRIE_LIB_DIR names the folder with the archives");
    println!("cargo:rerun-if-changed={folder}/libprefix_trie_c.a");
    println!("cargo:rustc-link-search=native={folder}");
    println!("cargo:rustc-link-lib=static=prefix_trie_c");
    println!("cargo:rustc-link-lib=static=libc_c");
}
