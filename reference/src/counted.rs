//! What the proved library's calls cost: callgrind's instructions, and the field multiplications that
//! `bench/counted` counts.
//!
//! - [`instructions`]: of each call; [`instructions_of_all`]: of all calls together.
//! - [`multiplications`]: of each call, with what it answered, as [`answered`] writes it.
//! - [`grouped`]: a number for a table.

use std::fs;
use std::io::Write;
use std::path::Path;
use std::process::{Command, Stdio};

use crate::measured::Measured;

/// The instructions of each of so many calls that this program makes with these arguments, inside the
/// exported function only: callgrind dumps its counters after each call.
pub fn instructions(
    dumps: &Path,
    function: &str,
    arguments: &[String],
    calls: u64,
) -> Result<Vec<u64>, String> {
    let after_each = format!("--dump-after={function}");
    callgrind(dumps, function, Some(after_each), arguments)?;
    let counted = |call| {
        let dump = format!("{}.{}", dumps.display(), call + 1);
        total(Path::new(&dump))
    };
    let counts = (0..calls).map(counted).collect();
    let _ = fs::remove_file(dumps);
    counts
}

/// The instructions of all calls of an exported function that this program makes with these arguments.
pub fn instructions_of_all(
    dump: &Path,
    function: &str,
    arguments: &[String],
) -> Result<u64, String> {
    callgrind(dump, function, None, arguments)?;
    total(dump)
}

/// Runs this program under callgrind, which counts inside a function.
fn callgrind(
    out: &Path,
    function: &str,
    option: Option<String>,
    arguments: &[String],
) -> Result<(), String> {
    let program = std::env::current_exe().map_err(|error| error.to_string())?;
    let output = Command::new("valgrind")
        .arg("--tool=callgrind")
        .arg(format!("--toggle-collect={function}"))
        .args(option)
        .arg(format!("--callgrind-out-file={}", out.display()))
        .arg(program)
        .args(arguments)
        .output()
        .map_err(|error| format!("valgrind: {error}"))?;
    match output.status.success() {
        true => Ok(()),
        false => Err(String::from_utf8_lossy(&output.stderr).into_owned()),
    }
}

/// The total of one of callgrind's files, which is taken away.
fn total(dump: &Path) -> Result<u64, String> {
    let problem = |error| format!("{}: {error}", dump.display());
    let text = fs::read_to_string(dump).map_err(problem)?;
    fs::remove_file(dump).map_err(problem)?;
    let line = text.lines().find_map(|line| line.strip_prefix("totals: "));
    line.and_then(|total| total.trim().parse().ok())
        .ok_or(format!("{}: no total", dump.display()))
}

/// The multiplications of each call by the program `counted` of this folder, and what it answered: the
/// number and the buffers' bytes, as [`answered`] writes them.
pub fn multiplications(folder: &Path, calls: &[Measured]) -> Result<Vec<(u64, String)>, String> {
    let problem = |error: std::io::Error| format!("counted: {error}");
    let mut child = Command::new(folder.join("counted"))
        .stdin(Stdio::piped())
        .stdout(Stdio::piped())
        .spawn()
        .map_err(problem)?;
    let input: Vec<u8> = calls.iter().flat_map(Measured::bytes).collect();
    let mut pipe = child.stdin.take().expect("a pipe");
    let writing = std::thread::spawn(move || pipe.write_all(&input));
    let output = child.wait_with_output().map_err(problem)?.stdout;
    writing
        .join()
        .expect("a thread that ends")
        .map_err(problem)?;
    let lines = String::from_utf8_lossy(&output).into_owned();
    let counted = |line: &str| {
        let (count, answer) = line.split_once(' ').ok_or(format!("counted: {line}"))?;
        let count = count.parse().map_err(|_| format!("counted: {line}"))?;
        Ok((count, answer.to_string()))
    };
    let counts: Result<Vec<(u64, String)>, String> = lines.lines().map(counted).collect();
    match counts {
        Ok(counts) if counts.len() != calls.len() => {
            Err("counted: not a line for each call".to_string())
        }
        counts => counts,
    }
}

/// A number returned and the bytes of the buffers, as `counted` prints them.
pub fn answered(number: u8, buffers: &[&[u8]]) -> String {
    let digits: String = buffers
        .concat()
        .iter()
        .map(|byte| format!("{byte:02x}"))
        .collect();
    format!("{number} {digits}")
}

/// 1234567 as 1,234,567.
pub fn grouped(number: u64) -> String {
    let digits = number.to_string();
    let mut text = String::new();
    for (at, digit) in digits.chars().enumerate() {
        if at > 0 && (digits.len() - at).is_multiple_of(3) {
            text.push(',');
        }
        text.push(digit);
    }
    text
}

#[cfg(test)]
mod tests {
    use super::*;

    #[test]
    fn numbers_and_answers_are_written_as_they_are_read() {
        assert_eq!(grouped(0), "0");
        assert_eq!(grouped(999), "999");
        assert_eq!(grouped(1_234_567), "1,234,567");
        assert_eq!(grouped(100_000), "100,000");
        assert_eq!(answered(12, &[&[0, 255], &[16]]), "12 00ff10");
    }
}
