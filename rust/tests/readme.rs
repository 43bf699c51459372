//! The C and the Rust text of README.md are programs: put into the frames of tests/readme, which define what they use and look at
//! what they leave, they compile without a warning and run. The C compiler is the one that CC names, or cc.

use std::fs;
use std::path::{Path, PathBuf};
use std::process::Command;

fn root() -> &'static Path {
    Path::new(env!("CARGO_MANIFEST_DIR")).parent().expect("the repository has a folder rust")
}

/// The frame with the one block of README.md that is marked as this language in it.
fn framed(language: &str, frame: &str) -> String {
    let readme = fs::read_to_string(root().join("README.md")).expect("README.md is text");
    let start = format!("\n```{language}\n");
    let mut blocks = readme.split(&start).skip(1);
    let block = blocks.next().unwrap_or_else(|| panic!("README.md has no {language}")).split_once("\n```\n").expect("a block ends").0;
    assert!(blocks.next().is_none(), "README.md has more {language} than is looked at");
    assert_eq!(frame.matches("    READMETEXT\n").count(), 1);
    frame.replace("    READMETEXT\n", &format!("{block}\n"))
}

fn folder(name: &str) -> PathBuf {
    let folder = Path::new(env!("CARGO_TARGET_TMPDIR")).join(name);
    fs::create_dir_all(folder.join("src")).expect("a folder can be made");
    folder
}

fn run(command: &mut Command) {
    let output = command.output().unwrap_or_else(|error| panic!("{command:?}: {error}"));
    let (out, err) = (String::from_utf8_lossy(&output.stdout), String::from_utf8_lossy(&output.stderr));
    assert!(output.status.success(), "{command:?}\n{out}{err}");
}

#[test]
fn c() {
    let folder = folder("readme-c");
    let (source, program) = (folder.join("src/readme.c"), folder.join("readme"));
    fs::write(&source, framed("c", include_str!("readme/frame.c"))).expect("the program can be written");
    let archive = match std::env::var_os("LUPHWEZANE_DIR") {
        Some(folder) => PathBuf::from(folder),
        None => root().join("target/staticlib"),
    };
    let mut compiler = Command::new(std::env::var("CC").unwrap_or("cc".to_string()));
    compiler.args(["-std=c99", "-O2", "-Wall", "-Wextra", "-Werror", "-pedantic", "-I"]).arg(root().join("include"));
    run(compiler.arg(&source).arg(archive.join("libluphwezane.a")).arg("-o").arg(&program));
    run(&mut Command::new(&program));
}

/// As a crate of its own, with the dependency that README.md gives it.
#[test]
fn rust() {
    let folder = folder("readme-rust");
    let manifest = format!(
        "[package]\nname = \"readme\"\nversion = \"0.1.0\"\nedition = \"2021\"\n\n[workspace]\n\n[dependencies]\n\
         luphwezane = {{ path = {:?} }}\n",
        env!("CARGO_MANIFEST_DIR")
    );
    fs::write(folder.join("Cargo.toml"), manifest).expect("the program can be written");
    fs::write(folder.join("src/main.rs"), framed("rust", include_str!("readme/frame.rs"))).expect("the program can be written");
    let mut cargo = Command::new(env!("CARGO"));
    cargo.args(["run", "--quiet", "--offline", "--manifest-path"]).arg(folder.join("Cargo.toml"));
    run(cargo.env("CARGO_TARGET_DIR", folder.join("target")).env("RUSTFLAGS", "-Dwarnings"));
}
