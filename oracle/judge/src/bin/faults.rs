//! Puts each seeded fault into a copy of the reading of 01, runs the copy
//! over the corpora, and says which corpus catches it and where:
//! `faults READING CORPUS WORK EDIT...`.
//!
//! An edit is a text: comment lines with `#`, `file: PATH` in the reading,
//! then `old:` lines, which stand in the file once, and `new:` lines in their
//! place.

use std::path::{Path, PathBuf};
use std::process::{Command, ExitCode};
use std::{fs, io};

use judge::batch::first_difference;
use judge::programs::{Program, lines_of};

const CORPORA: [&str; 4] = ["leaf", "leaf-01", "original", "forged"];

fn main() -> ExitCode {
    let args: Vec<PathBuf> = std::env::args_os().skip(1).map(PathBuf::from).collect();
    let [reading, corpus, work, edits @ ..] = &args[..] else {
        eprintln!("usage: faults READING CORPUS WORK EDIT...");
        return ExitCode::from(2);
    };
    // A corpus that differs from the unedited reading would catch every fault.
    match caught(reading, corpus, work, None) {
        Ok(places) if places.is_empty() => {
            println!("unedited: as stored in {}", CORPORA.join(", "))
        }
        Ok(places) => {
            println!("unedited: differs in {}", places.join(", "));
            return ExitCode::FAILURE;
        }
        Err(why) => {
            println!("unedited: {why}");
            return ExitCode::FAILURE;
        }
    }
    let mut missed = 0;
    for edit in edits {
        let name = edit.file_stem().unwrap_or_default().to_string_lossy();
        match caught(reading, corpus, work, Some(edit)) {
            Ok(places) if places.is_empty() => {
                missed += 1;
                println!("{name}: NOT caught");
            }
            Ok(places) => println!("{name}: caught by {}", places.join(", ")),
            Err(why) => {
                missed += 1;
                println!("{name}: {why}");
            }
        }
    }
    println!("{} faults, {missed} not caught", edits.len());
    if missed == 0 { ExitCode::SUCCESS } else { ExitCode::FAILURE }
}

/// Where the corpora's answers part from the edited reading's.
fn caught(
    reading: &Path,
    corpus: &Path,
    work: &Path,
    edit: Option<&PathBuf>,
) -> Result<Vec<String>, String> {
    let program = edited(reading, work, edit)?;
    let mut places = Vec::new();
    for name in CORPORA {
        let trace = read(&corpus.join(format!("{name}.trace")))?;
        let answers = read(&corpus.join(format!("{name}.answers")))?;
        let ran = program.run(&trace).map_err(|e| e.to_string())?;
        if let Some(line) = first_difference(&lines_of(&answers), &ran.lines) {
            places.push(format!("{name} (line {})", line + 1));
        } else if let Some(how) = ran.failed {
            places.push(format!("{name} ({how})"));
        }
    }
    Ok(places)
}

fn read(path: &Path) -> Result<Vec<u8>, String> {
    fs::read(path).map_err(|e| format!("{}: {e}", path.display()))
}

/// Builds the reading with the edit made, if there is one.
fn edited(reading: &Path, work: &Path, edit: Option<&PathBuf>) -> Result<Program, String> {
    let copy = work.join("reading");
    copy_crate(reading, &copy).map_err(|e| e.to_string())?;
    if let Some(edit) = edit {
        Edit::parse(&String::from_utf8_lossy(&read(edit)?))?.make(&copy)?;
    }
    let built = Command::new("cargo")
        .args(["build", "--quiet", "--offline", "--release", "--jobs", "1", "--manifest-path"])
        .arg(copy.join("Cargo.toml"))
        .arg("--target-dir")
        .arg(work.join("target"))
        .env("RUSTFLAGS", "--cap-lints allow")
        .status()
        .map_err(|e| e.to_string())?;
    if !built.success() {
        return Err("does not build".to_string());
    }
    Ok(Program::built("edited reading", work.join("target/release/reading"), &[]))
}

fn copy_crate(from: &Path, to: &Path) -> io::Result<()> {
    fs::create_dir_all(to.join("src"))?;
    fs::copy(from.join("Cargo.toml"), to.join("Cargo.toml"))?;
    for entry in fs::read_dir(from.join("src"))? {
        let entry = entry?;
        fs::copy(entry.path(), to.join("src").join(entry.file_name()))?;
    }
    Ok(())
}

#[derive(Default)]
struct Edit {
    file: String,
    old: Vec<String>,
    new: Vec<String>,
}

impl Edit {
    fn parse(text: &str) -> Result<Self, String> {
        let mut edit = Edit::default();
        for line in text.lines() {
            let (key, rest) = line.split_once(':').unwrap_or((line, ""));
            let rest = rest.strip_prefix(' ').unwrap_or(rest).to_string();
            match key {
                "file" => edit.file = rest,
                "old" => edit.old.push(rest),
                "new" => edit.new.push(rest),
                _ if line.starts_with('#') || line.is_empty() => {}
                _ => return Err(format!("no edit: {line}")),
            }
        }
        Ok(edit)
    }

    fn make(&self, dir: &Path) -> Result<(), String> {
        let path = dir.join(&self.file);
        let text = String::from_utf8_lossy(&read(&path)?).into_owned();
        let old = self.old.join("\n");
        if text.matches(&old).count() != 1 {
            return Err(format!("{} does not have the old lines once", self.file));
        }
        fs::write(&path, text.replace(&old, &self.new.join("\n"))).map_err(|e| e.to_string())
    }
}
