//! The models in Python of rows, of the desk and of the radio record.
use std::io::{self, Write};
use std::process::{Command, Stdio};
use std::thread;

/// The rows at the edges that rows.py has, and seeded ones, each a line.
pub fn lines() -> io::Result<Vec<u8>> {
    run("rows.py", "lines", Vec::new())
}

/// What a model answers to an input.
pub fn answers(name: &str, input: Vec<u8>) -> io::Result<Vec<u8>> {
    run(name, "answers", input)
}

/// What a model prints, or why it cannot be asked. Built without cargo, it is looked for in the current directory.
fn run(name: &str, word: &str, input: Vec<u8>) -> io::Result<Vec<u8>> {
    let path = format!("{}/{name}", option_env!("CARGO_MANIFEST_DIR").unwrap_or("."));
    let mut child = Command::new("python3")
        .env("PYTHONDONTWRITEBYTECODE", "1")
        .args([&path, word])
        .stdin(Stdio::piped())
        .stdout(Stdio::piped())
        .spawn()?;
    let mut stdin = child.stdin.take().ok_or(io::ErrorKind::BrokenPipe)?;
    let feeding = thread::spawn(move || stdin.write_all(&input));
    let output = child.wait_with_output()?;
    feeding.join().map_err(|_| io::ErrorKind::Other)??;
    if output.status.success() {
        Ok(output.stdout)
    } else {
        Err(io::ErrorKind::Other.into())
    }
}
