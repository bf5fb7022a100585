//! Says where libwindgusset.a lies: in the folder that WINDGUSSET_LIBRARY names, which tools/library made.
use std::{env, path::Path, process};

fn main() {
    println!("cargo:rerun-if-env-changed=WINDGUSSET_LIBRARY");
    let folder = env::var("WINDGUSSET_LIBRARY").unwrap_or_default();
    let archive = Path::new(&folder).join("libwindgusset.a");
    if !archive.is_absolute() || !archive.is_file() {
        eprintln!("WINDGUSSET_LIBRARY is to be the whole path of a folder made by tools/library, not '{folder}'");
        process::exit(1);
    }
    println!("cargo:rerun-if-changed={}", archive.display());
    println!("cargo:rustc-link-search=native={folder}");
}
