//! The original, by way of the oracle's program.
use std::io::{BufRead, BufReader, BufWriter, Write};
use std::process::{Command, Stdio};

/// The oracle's answers, a line each. It is fed from another thread, so that neither pipe fills up
/// while both sides wait.
pub fn original<'a>(oracle: &str, lines: impl Iterator<Item = &'a String> + Send) -> Vec<String> {
    let mut child = Command::new(oracle)
        .env_remove("ORACLE_ECHO")
        .stdin(Stdio::piped())
        .stdout(Stdio::piped())
        .spawn()
        .unwrap_or_else(|e| panic!("{oracle}: {e}"));
    let stdin = child.stdin.take().unwrap();
    let stdout = BufReader::new(child.stdout.take().unwrap());
    let answers = std::thread::scope(|scope| {
        scope.spawn(move || {
            let mut stdin = BufWriter::new(stdin);
            for line in lines {
                writeln!(stdin, "{line}").unwrap();
            }
        });
        stdout.lines().map(Result::unwrap).collect()
    });
    assert!(child.wait().unwrap().success(), "the oracle failed");
    answers
}
