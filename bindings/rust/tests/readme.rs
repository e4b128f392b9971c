//! The programs of bindings/README.md: their texts are taken out of the page and laid into a folder outside the
//! repository, beside a clone. There the page's commands are run, and what they print is what the page says.

use std::env;
use std::fs;
use std::os::unix::fs::symlink;
use std::path::{Path, PathBuf};
use std::process::{self, Command};

const PAGE: &str = include_str!("../../README.md");

/// A fenced part of the page: its language, the last line of text before it, and what stands in it.
struct Part {
    language: &'static str,
    before: &'static str,
    text: String,
}

fn parts(heading: &str) -> Vec<Part> {
    let sections: Vec<&str> = PAGE.split("\n## ").collect();
    let section = sections
        .iter()
        .find(|section| section.lines().next() == Some(heading))
        .expect("the page has the heading");
    let (mut parts, mut before) = (Vec::new(), "");
    let mut lines = section.lines();
    while let Some(line) = lines.next() {
        if let Some(language) = line.strip_prefix("```") {
            let inside = lines.by_ref().take_while(|line| *line != "```");
            let text = inside.map(|line| format!("{line}\n")).collect();
            parts.push(Part {
                language,
                before,
                text,
            });
        } else if !line.is_empty() {
            before = line;
        }
    }
    parts
}

/// The name of the file that a part is: the line before it ends in the name in backticks and a colon.
fn file_name(part: &Part) -> Option<&'static str> {
    let (_, name) = part.before.strip_suffix("`:")?.rsplit_once('`')?;
    Some(name)
}

/// A folder with the clone, as far as a program sees it, and beside it the program's own; it goes when it is dropped.
struct Ground(PathBuf);

impl Ground {
    fn new(name: &str) -> Self {
        let folder = env::temp_dir().join(format!("turgamysk-{name}-{}", process::id()));
        let clone = folder.join("turgamysk");
        let own = Path::new(env!("CARGO_MANIFEST_DIR"));
        for place in [
            clone.join("bindings"),
            clone.join("target"),
            folder.join("program"),
        ] {
            fs::create_dir_all(place).expect("it can be made");
        }
        let given = |variable: &str, usual: &str| {
            let place = env::var_os(variable).map_or_else(|| own.join(usual), PathBuf::from);
            fs::canonicalize(place).expect("it is there")
        };
        for (from, to) in [
            ("bindings/rust", own.to_path_buf()),
            ("bindings/c", given("TURGAMYSK_INCLUDE", "../c")),
            ("target/lib", given("TURGAMYSK_LIBRARY", "../../target/lib")),
        ] {
            symlink(to, clone.join(from)).expect("it can be made");
        }
        Self(folder)
    }

    fn lay(&self, name: &str, text: &str) {
        let path = self.0.join("program").join(name);
        fs::create_dir_all(path.parent().expect("it has a folder")).expect("it can be made");
        fs::write(path, text).expect("it can be written");
    }

    /// What the commands print, in the program's folder; each of them succeeds.
    fn run(&self, commands: &str) -> String {
        let output = Command::new("sh")
            .args(["-e", "-c", commands])
            .current_dir(self.0.join("program"))
            .env_remove("CARGO_TARGET_DIR")
            .output()
            .expect("it can be started");
        let said = String::from_utf8_lossy(&output.stderr);
        assert!(output.status.success(), "{commands}: {said}");
        String::from_utf8(output.stdout).expect("it prints text")
    }
}

impl Drop for Ground {
    fn drop(&mut self) {
        // A folder that is left over hinders nothing.
        let _ = fs::remove_dir_all(&self.0);
    }
}

/// Lays a section's files, and runs each of its commands: they print what the page says.
fn follow(heading: &str, name: &str, files: &[&str], runs: usize) {
    let ground = Ground::new(name);
    let parts = parts(heading);
    let laid: Vec<&str> = parts.iter().filter_map(file_name).collect();
    assert_eq!(laid, files);
    for part in &parts {
        if let Some(name) = file_name(part) {
            ground.lay(name, &part.text);
        }
    }
    let said: Vec<&Part> = parts
        .iter()
        .filter(|part| part.language == "text")
        .collect();
    let commands: Vec<&Part> = parts.iter().filter(|part| part.language == "sh").collect();
    assert_eq!((said.len(), commands.len()), (1, runs));
    for part in commands {
        assert_eq!(ground.run(&part.text), said[0].text);
    }
}

#[test]
fn the_program_in_c() {
    follow("A program in C", "c", &["covenant.c", "Makefile"], 2);
}

#[test]
fn the_program_in_rust() {
    let files = ["Cargo.toml", "src/main.rs"];
    follow("A program in Rust", "rust", &files, 1);
}
