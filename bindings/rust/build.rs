//! Links the archive libboard.a (tools/build.sh archive): the one that ARCHIVE names, or that of the repository.

use std::env;
use std::path::PathBuf;
use std::process::exit;

fn main() {
    println!("cargo::rerun-if-env-changed=ARCHIVE");
    let home = PathBuf::from(env::var_os("CARGO_MANIFEST_DIR").expect("cargo names the folder"));
    let archive = env::var_os("ARCHIVE").map_or(home.join("../../target/staticlib/libboard.a"), PathBuf::from);
    let folder = match archive.canonicalize() {
        Ok(found) if found.ends_with("libboard.a") => found.with_file_name(""),
        _ => {
            let named = archive.display();
            println!("cargo::error=there is no {named}: tools/build.sh makes it, or name libboard.a by ARCHIVE");
            exit(2);
        }
    };
    println!("cargo::rerun-if-changed={}", archive.display());
    println!("cargo::rustc-link-search=native={}", folder.display());
    println!("cargo::rustc-link-lib=static=board");
}
