//! Links libcuzhaveli.a from the folder named by CUZHAVELI_LIB_DIR, or libcuzhaveli.so where it has
//! no archive.

use std::path::Path;

fn main() {
    println!("cargo:rerun-if-env-changed=CUZHAVELI_LIB_DIR");
    let folder = std::env::var("CUZHAVELI_LIB_DIR")
        .expect("set CUZHAVELI_LIB_DIR to the folder that holds libcuzhaveli.a");
    let archive = Path::new(&folder).join("libcuzhaveli.a").is_file();
    let (kind, file) =
        if archive { ("static", "libcuzhaveli.a") } else { ("dylib", "libcuzhaveli.so") };
    println!("cargo:rerun-if-changed={folder}/{file}");
    println!("cargo:rustc-link-search=native={folder}");
    println!("cargo:rustc-link-lib={kind}=cuzhaveli");
}
