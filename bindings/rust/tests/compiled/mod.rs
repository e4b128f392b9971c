//! Programs in C: compiled against the header and the archive, and run.

use std::env;
use std::path::{Path, PathBuf};
use std::process::{Command, Output};

fn folder(variable: &str, usual: &str) -> PathBuf {
    let own = Path::new(env!("CARGO_MANIFEST_DIR"));
    env::var_os(variable).map_or_else(|| own.join(usual), PathBuf::from)
}

fn succeed(command: &mut Command) -> Output {
    let output = command.output().expect("it can be started");
    let said = String::from_utf8_lossy(&output.stderr);
    assert!(output.status.success(), "{command:?}: {said}");
    output
}

/// What the program of a source in C prints.
pub fn printed_by(source: &Path) -> String {
    let name = source.file_stem().expect("a file's name");
    let program = Path::new(env!("CARGO_TARGET_TMPDIR")).join(name);
    let library = folder("TURGAMYSK_LIBRARY", "../../target/lib");
    succeed(
        Command::new("cc")
            .args(["-std=c99", "-Wall", "-Wextra", "-Werror", "-pedantic", "-I"])
            .arg(folder("TURGAMYSK_INCLUDE", "../c"))
            .arg(source)
            .arg(library.join("libturgamysk.a"))
            .arg("-o")
            .arg(&program),
    );
    let printed = succeed(&mut Command::new(program)).stdout;
    String::from_utf8(printed).expect("it prints text")
}
