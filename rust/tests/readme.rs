//! The two programs that README.md prints in its section "Calling it", compiled as printed and run at the repository's root. Each must
//! print what its own comment says: the text after `prints: `. What is built goes to target/readme/.

use std::env;
use std::fs;
use std::path::PathBuf;
use std::process::Command;

/// The repository's root.
fn root() -> PathBuf {
    PathBuf::from(env!("CARGO_MANIFEST_DIR")).join("..").canonicalize().expect("the repository's root")
}

/// The first block of a language in the section, without its fences.
fn block(language: &str) -> String {
    let readme = fs::read_to_string(root().join("README.md")).expect("README.md");
    let (_, from_section) = readme.split_once("\n## Calling it\n").expect("the section \"Calling it\"");
    let section = from_section.split("\n## ").next().expect("a first part");
    let (_, from_block) = section.split_once(&format!("\n```{language}\n")).expect("a block of that language");
    let (program, _) = from_block.split_once("\n```").expect("the block's end");
    format!("{program}\n")
}

/// What a program's comment says that it prints, on one line.
fn promised(program: &str) -> String {
    let (_, text) = program.split_once("prints: ").expect("a comment that says what is printed");
    let line = text.lines().next().expect("a line");
    format!("{}\n", line.trim_end_matches("*/").trim_end())
}

/// What a command prints, run at the root; it must exit with 0.
fn printed(command: &mut Command) -> String {
    let done = command.current_dir(root()).output().expect("the command starts");
    assert!(done.status.success(), "{command:?}\n{}", String::from_utf8_lossy(&done.stderr));
    String::from_utf8(done.stdout).expect("text")
}

/// A folder under target/readme/, made.
fn folder(name: &str) -> PathBuf {
    let path = root().join("target/readme").join(name);
    fs::create_dir_all(&path).expect("a folder under target/");
    path
}

#[test]
fn c_block() {
    let program = block("c");
    let (source, built) = (folder("c").join("program.c"), folder("c").join("program"));
    fs::write(&source, &program).expect("written");
    let named = env::var_os("RMA_LIB_DIR").unwrap_or_else(|| "../target/staticlib".into());
    let library = PathBuf::from(env!("CARGO_MANIFEST_DIR")).join(named).join("librma.a");
    let flags = ["-std=c99", "-Wall", "-Wextra", "-Wpedantic", "-Werror", "-I", "include"];
    printed(Command::new("cc").args(flags).arg(&source).arg(library).arg("-o").arg(&built));
    assert_eq!(printed(&mut Command::new(&built)), promised(&program));
}

/// A small package under target/ that depends on the crate by its path: no registry, no network, and its own build folder.
#[test]
fn rust_block() {
    let program = block("rust");
    let package = folder("rust");
    let dependency = format!("rovgrint = {{ path = {:?} }}", env!("CARGO_MANIFEST_DIR"));
    let front = "[package]\nname = \"readme\"\nversion = \"0.0.0\"\nedition = \"2021\"\n[workspace]\n[dependencies]\n";
    fs::write(package.join("Cargo.toml"), format!("{front}{dependency}\n")).expect("written");
    fs::write(folder("rust/src").join("main.rs"), &program).expect("written");
    let mut cargo = Command::new(env!("CARGO"));
    cargo.args(["run", "--offline", "--quiet", "--manifest-path"]).arg(package.join("Cargo.toml"));
    assert_eq!(printed(cargo.arg("--target-dir").arg(folder("cargo"))), promised(&program));
}
