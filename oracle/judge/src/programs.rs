//! Programs that read a trace on standard input and write TRACE.md's lines.

use std::io::{self, Write};
use std::os::unix::process::ExitStatusExt;
use std::path::{Path, PathBuf};
use std::process::{Command, ExitStatus, Stdio};
use std::thread;

/// The original's exit status where it has nothing to say.
const OUTSIDE: i32 = 3;

#[derive(Clone, Debug)]
pub struct Program {
    pub name: String,
    command: Vec<String>,
    /// Whether status 3 means that the original was asked something outside
    /// its domain; any other program's 3 is a failure like the rest.
    is_original: bool,
}

#[derive(Debug)]
pub struct Ran {
    pub lines: Vec<String>,
    /// The original was asked something outside its domain.
    pub outside: bool,
    pub panicked: bool,
    /// How it ended, where that was not with status 0.
    pub failed: Option<String>,
}

impl Program {
    pub fn built(name: &str, path: PathBuf, args: &[&str]) -> Self {
        let mut command = vec![path.to_string_lossy().into_owned()];
        command.extend(args.iter().map(|a| a.to_string()));
        Self { name: name.to_string(), command, is_original: false }
    }

    /// A command line as a shell reads it.
    pub fn shell(name: &str, line: &str) -> Self {
        let command = vec!["sh".into(), "-c".into(), line.to_string()];
        Self { name: name.to_string(), command, is_original: false }
    }

    pub fn run(&self, input: &[u8]) -> io::Result<Ran> {
        let mut child = Command::new(&self.command[0])
            .args(&self.command[1..])
            .stdin(Stdio::piped())
            .stdout(Stdio::piped())
            .stderr(Stdio::piped())
            .spawn()
            .map_err(|e| io::Error::new(e.kind(), format!("{}: {e}", self.command.join(" "))))?;
        let mut stdin = child.stdin.take().expect("it is piped");
        let input = input.to_vec();
        // Written beside the reading, so that neither pipe fills up. A program
        // may end before it has read everything; its lines tell.
        let writer = thread::spawn(move || {
            let _ = stdin.write_all(&input);
        });
        let output = child.wait_with_output()?;
        let _ = writer.join();
        let code = output.status.code();
        Ok(Ran {
            lines: lines_of(&output.stdout),
            outside: self.is_original && code == Some(OUTSIDE),
            panicked: code == Some(101) || code.is_none(),
            failed: failure(output.status),
        })
    }
}

/// Every line ends with a newline and nothing else; a last one without it is
/// marked, so that it equals no other.
pub fn lines_of(output: &[u8]) -> Vec<String> {
    let text = String::from_utf8_lossy(output);
    text.split_inclusive('\n')
        .map(|line| match line.strip_suffix('\n') {
            Some(whole) => whole.to_string(),
            None => format!("{line} (no newline)"),
        })
        .collect()
}

fn failure(status: ExitStatus) -> Option<String> {
    match (status.code(), status.signal()) {
        (Some(0), _) => None,
        (Some(code), _) => Some(format!("ended with status {code}")),
        (None, signal) => Some(format!("was ended by signal {}", signal.unwrap_or(0))),
    }
}

/// The programs that the setup command builds, beside the one that runs now.
pub struct Built {
    dir: PathBuf,
}

impl Built {
    pub fn here() -> io::Result<Self> {
        let exe = std::env::current_exe()?;
        Ok(Self { dir: exe.parent().unwrap_or(Path::new(".")).to_path_buf() })
    }

    pub fn original(&self, args: &[&str]) -> Program {
        let original = Program::built("original", self.dir.join("original"), args);
        Program { is_original: true, ..original }
    }

    /// The original with debug assertions and overflow checks.
    pub fn checked(&self, args: &[&str]) -> Program {
        let path = self.dir.join("../checked/original");
        Program { is_original: true, ..Program::built("original, checked", path, args) }
    }

    pub fn reading(&self) -> Program {
        Program::built("reading of 01", self.dir.join("reading"), &[])
    }
}

#[cfg(test)]
mod tests {
    use super::*;

    fn ran(line: &str) -> Ran {
        Program::shell("a program", line).run(b"").expect("a shell runs")
    }

    #[test]
    fn how_a_program_ends_is_told() {
        assert_eq!(ran("echo 1").failed, None);
        assert_eq!(ran("echo 1; exit 3").failed, Some("ended with status 3".to_string()));
        assert!(!ran("exit 3").outside);
        assert_eq!(ran("kill -9 $$").failed, Some("was ended by signal 9".to_string()));
    }

    #[test]
    fn only_newlines_part_lines() {
        assert_eq!(lines_of(b"0 0 1\nbad\n"), ["0 0 1", "bad"]);
        assert_eq!(lines_of(b"0 0 1\r\n"), ["0 0 1\r"]);
        assert_eq!(lines_of(b"0 0 1"), ["0 0 1 (no newline)"]);
        assert_eq!(lines_of(b"\n\n"), ["", ""]);
        assert!(lines_of(b"").is_empty());
    }
}
