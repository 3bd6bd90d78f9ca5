//! Links libyelomawin_bytes.a, which `scripts/staticlib yelomawin_bytes` writes. YELOMAWIN_LIB names its folder where that is another.
use std::path::{Path, PathBuf};

fn main() {
    let here = std::env::var("CARGO_MANIFEST_DIR").unwrap();
    let project = Path::new(&here).ancestors().nth(2).unwrap();
    let named = std::env::var_os("YELOMAWIN_LIB").filter(|f| !f.is_empty());
    let folder = named.map_or_else(|| project.join("target/staticlib"), PathBuf::from);
    let library = folder.join("libyelomawin_bytes.a");
    println!("cargo::rerun-if-env-changed=YELOMAWIN_LIB");
    println!("cargo::rerun-if-changed={}", library.display());
    if !library.is_file() {
        println!("cargo::error=no libyelomawin_bytes.a in {}: run `scripts/staticlib yelomawin_bytes`, or set YELOMAWIN_LIB to the folder that has it", folder.display());
    }
    println!("cargo::rustc-link-search=native={}", folder.display());
    println!("cargo::rustc-link-lib=static=yelomawin_bytes");
}
