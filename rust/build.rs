// Links libluphwezane.a, which tools/archive writes to target/staticlib of the repository.
// The variable LUPHWEZANE_DIR names another folder that holds it. With LUPHWEZANE_LATER the archive may be missing still: the linker waits for it (.ci/linker).
use std::path::PathBuf;

fn main() {
    println!("cargo:rerun-if-env-changed=LUPHWEZANE_DIR");
    println!("cargo:rerun-if-env-changed=LUPHWEZANE_LATER");
    let folder = match std::env::var_os("LUPHWEZANE_DIR") {
        Some(folder) => PathBuf::from(folder),
        None => PathBuf::from(std::env::var_os("CARGO_MANIFEST_DIR").expect("cargo sets it")).join("../target/staticlib"),
    };
    let archive = folder.join("libluphwezane.a");
    println!("cargo:rerun-if-changed={}", archive.display());
    if !archive.is_file() && std::env::var_os("LUPHWEZANE_LATER").is_none() {
        eprintln!("{} is missing: run tools/archive in the repository's root first", archive.display());
        std::process::exit(1);
    }
    println!("cargo:rustc-link-search=native={}", folder.display());
    // Not bundled: only what is linked in the end reads the archive.
    println!("cargo:rustc-link-lib=static:-bundle=luphwezane");
}
