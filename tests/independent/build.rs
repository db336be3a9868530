// Links libteldruf.a. TELDRUF_LIB_DIR names the folder that holds it; without it, the folder that
// `rt lib` in crates/teldruf writes to is taken.

use std::env;
use std::path::PathBuf;

fn main() {
    let here = PathBuf::from(env::var("CARGO_MANIFEST_DIR").expect("cargo sets this"));
    let folder = match env::var("TELDRUF_LIB_DIR") {
        Ok(named) => PathBuf::from(named),
        Err(_) => here.join("../../crates/teldruf/out"),
    };
    let archive = folder.join("libteldruf.a");
    assert!(
        archive.exists(),
        "{} is not there: run `rt lib` in crates/teldruf, or name its folder in TELDRUF_LIB_DIR",
        archive.display()
    );
    println!("cargo:rerun-if-env-changed=TELDRUF_LIB_DIR");
    println!("cargo:rerun-if-changed={}", archive.display());
    println!("cargo:rustc-link-search=native={}", folder.display());
    println!("cargo:rustc-link-lib=static=teldruf");
}
