//! Reads the original's three texts, checks their sums, and puts them where
//! `virtq.rs` includes them. The one change: the line that declares the
//! submodule `canonical` declares `probe` instead, which as a child module
//! sees the private items of ring.rs.

use std::path::{Path, PathBuf};
use std::process::Command;
use std::{env, fs};

const TEXTS: [(&str, &str); 3] = [
    ("desc", "1627323ce26fbb9131840af4ff886570a9020f2dc80db3c0da03e310401b777a"),
    ("event", "a03129c985331afc61a4975cd5034e217c3b792047bcec8b1f2bf1617e3e090e"),
    ("ring", "32f52b4a0d874f6f5e2f48a7c48bb9f6389d683b7e9a3020df2daa0de71f5ed2"),
];
const CANONICAL: &str = "pub mod canonical;\n";

fn main() {
    println!("cargo::rerun-if-env-changed=MINTPIGEON_SRC");
    println!("cargo::rerun-if-changed=build.rs");
    let here = PathBuf::from(env::var_os("CARGO_MANIFEST_DIR").expect("cargo sets it"));
    let out = PathBuf::from(env::var_os("OUT_DIR").expect("cargo sets it"));
    let virtq = env::var_os("MINTPIGEON_SRC")
        .map_or_else(|| here.join("../../../shared/docs/src"), PathBuf::from)
        .join("src/virtq");

    if let Some(fault) = TEXTS.iter().find_map(|(name, sum)| fault(&text_of(&virtq, name), sum)) {
        println!("cargo::error={fault}; {}", needed(&virtq));
        return;
    }

    let mut modules = String::new();
    for (name, _) in TEXTS {
        let from = text_of(&virtq, name);
        println!("cargo::rerun-if-changed={}", from.display());
        let text = fs::read_to_string(&from).expect("its sum was read");
        let file = out.join(format!("{name}.rs"));
        fs::write(&file, with_probe(&text, name, &here)).expect("OUT_DIR takes files");
        modules.push_str(&format!("#[allow(dead_code)]\n#[path = {file:?}]\npub mod {name};\n"));
    }
    fs::write(out.join("modules.rs"), modules).expect("OUT_DIR takes files");
}

fn text_of(virtq: &Path, name: &str) -> PathBuf {
    virtq.join(format!("{name}.rs.txt"))
}

/// Why a text can't be used, if so.
fn fault(path: &Path, sum: &str) -> Option<String> {
    if !path.is_file() {
        return Some(format!("{} is not there", path.display()));
    }
    let said = Command::new("sha256sum").arg(path).output().expect("sha256sum is in coreutils");
    let said = String::from_utf8_lossy(&said.stdout);
    let differs = said.split_whitespace().next() != Some(sum);
    differs.then(|| format!("{} has another sum", path.display()))
}

fn needed(virtq: &Path) -> String {
    let files: Vec<String> =
        TEXTS.iter().map(|(name, sum)| format!("{name}.rs.txt (sha256 {sum})")).collect();
    format!(
        "needed in {}: {}; MINTPIGEON_SRC names another docs/src",
        virtq.display(),
        files.join(", ")
    )
}

fn with_probe(text: &str, name: &str, here: &Path) -> String {
    if name != "ring" {
        return text.to_string();
    }
    assert_eq!(text.matches(CANONICAL).count(), 1, "ring.rs declares canonical once");
    let probe = here.join("src/probe.rs");
    text.replace(CANONICAL, &format!("#[path = {probe:?}] pub mod probe;\n"))
}
