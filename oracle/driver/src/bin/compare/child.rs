//! The program that is compared, started for one batch.

use std::{
    io::{self, Read, Write},
    process::{Command, Stdio},
    thread,
};

/// All that the program writes if it is given this input, and whether it ended
/// well. A thread of its own writes the input, so that neither side waits for
/// the other. What it says on standard error is passed on.
pub fn answers(command: &[String], input: &[u8]) -> io::Result<(Vec<u8>, bool)> {
    let cannot = |e| io::Error::other(format!("{} cannot be started: {e}", command[0]));
    let mut child = Command::new(&command[0])
        .args(&command[1..])
        .stdin(Stdio::piped())
        .stdout(Stdio::piped())
        .spawn()
        .map_err(cannot)?;
    let mut to = child.stdin.take().unwrap();
    let mut from = child.stdout.take().unwrap();
    let mut all = Vec::new();
    thread::scope(|scope| {
        // A program that ends too early is seen by its answers.
        scope.spawn(move || to.write_all(input).ok());
        from.read_to_end(&mut all)
    })?;
    let status = child.wait()?;
    if !status.success() {
        eprintln!("\nthe program ended with {status}");
    }
    Ok((all, status.success()))
}

/// Takes the next line, with its end, off the front.
pub fn next_line<'a>(rest: &mut &'a [u8]) -> &'a [u8] {
    let end = rest.iter().position(|c| *c == b'\n');
    let (line, after) = rest.split_at(end.map_or(rest.len(), |at| at + 1));
    *rest = after;
    line
}

/// An answer as it is shown.
pub fn shown(line: &[u8]) -> String {
    match line {
        [] => "(nothing)".into(),
        _ => line.escape_ascii().to_string(),
    }
}
