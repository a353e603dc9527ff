//! Runs another program on a sheet and holds what it prints against what is expected.

use std::io::{Read, Write};
use std::process::{Command, Stdio};
use std::sync::mpsc;
use std::thread;
use std::time::Duration;

const MOST_SECONDS: u64 = 60;

/// What a program prints on the input, at most `most` bytes of it; or why there is nothing.
/// Input is written while output is read, so neither can hold up the other.
pub fn run(program: &str, input: &[u8], most: usize) -> Result<Vec<u8>, String> {
    let mut child = Command::new(program)
        .stdin(Stdio::piped())
        .stdout(Stdio::piped())
        .spawn()
        .map_err(|error| format!("{program}: {error}"))?;
    let mut child_input = child.stdin.take().unwrap();
    let child_output = child.stdout.take().unwrap();
    let input = input.to_vec();
    // A program may end before it has read all; a failed write is then no fault.
    let writer = thread::spawn(move || child_input.write_all(&input).is_ok());
    let (sender, receiver) = mpsc::channel();
    let reader = thread::spawn(move || {
        let mut output = Vec::new();
        let result = child_output.take(most as u64).read_to_end(&mut output);
        // The receiver is gone only where the time was up.
        let _ = sender.send(result.map(|_| output));
    });
    let received = receiver.recv_timeout(Duration::from_secs(MOST_SECONDS));
    if received.is_err() {
        child.kill().map_err(|error| error.to_string())?;
    }
    let status = child.wait().map_err(|error| error.to_string())?;
    writer.join().map_err(|_| "the writer failed".to_string())?;
    reader.join().map_err(|_| "the reader failed".to_string())?;
    match received {
        Err(_) => Err(format!("not ended after {MOST_SECONDS} seconds")),
        Ok(Err(error)) => Err(error.to_string()),
        Ok(Ok(output)) => match status.code() {
            Some(_) => Ok(output),
            None => Err(format!("ended by a signal: {status}")),
        },
    }
}

/// Compares every byte; where the outputs differ, leaves sheet and outputs in files named
/// after the case and says why.
pub fn compare(program: &str, case: &str, input: &[u8], expected: &[u8]) -> Result<(), String> {
    let most = expected.len() + 1_000_000;
    let (output, reason) = match run(program, input, most) {
        Ok(output) if output == expected => return Ok(()),
        Ok(output) => {
            let same = output
                .iter()
                .zip(expected)
                .take_while(|pair| pair.0 == pair.1)
                .count();
            let line = expected[..same]
                .iter()
                .filter(|byte| **byte == b'\n')
                .count()
                + 1;
            (output, format!("output differs from line {line}"))
        }
        Err(reason) => (Vec::new(), reason),
    };
    let files = [
        ("sheet", input),
        ("expected", expected),
        ("output", &output[..]),
    ];
    for (end, bytes) in files {
        let path = format!("failed-{case}.{end}");
        if let Err(error) = std::fs::write(&path, bytes) {
            return Err(format!("{reason}; {path}: {error}"));
        }
    }
    Err(reason)
}
