//! Runs another program and this one on the same drawn calls and compares what they print.

use crate::table_run::table_run;
use crate::watch::{self, Counts};
use crate::{draw_calls, lines};
use std::io::{self, Read, Write};
use std::process::{Command, Stdio};

/// The calls of one run.
const CALLS: u64 = 1_000;

/// Compares `count` runs, the first drawn from `seed`, and watches each. The answer is
/// whether all agree and keep what is promised.
pub fn compare(seed: u64, count: u64, program: &str, out: &mut impl Write) -> io::Result<bool> {
    let mut agreeing = 0;
    let mut counts = Counts::default();
    for seed in seed..seed + count {
        let mut text = Vec::new();
        draw_calls::draw(seed, CALLS, &mut text)?;
        let mut expected = Vec::new();
        table_run(&text, &mut expected)?;
        let difference = match answers(program, &text)? {
            Ok(printed) => difference(&text, &printed, &expected),
            Err(status) => Some(status),
        };
        let watched = watch::run(&text);
        agreeing += u64::from(difference.is_none() && watched.is_ok());
        if let Some(difference) = difference {
            writeln!(out, "seed {seed}: {difference}")?;
        }
        match watched {
            Ok(run) => counts.add(&run),
            Err(breach) => writeln!(out, "seed {seed}: breach at {breach}")?,
        }
    }
    writeln!(out, "{counts}")?;
    if agreeing == count {
        writeln!(out, "{count} runs agree")?;
    } else {
        writeln!(out, "{} of {count} runs differ", count - agreeing)?;
    }
    Ok(agreeing == count)
}

/// What the program prints for this input, or how it failed.
fn answers(program: &str, text: &[u8]) -> io::Result<Result<Vec<u8>, String>> {
    let mut child = Command::new(program)
        .stdin(Stdio::piped())
        .stdout(Stdio::piped())
        .spawn()?;
    let mut input = child.stdin.take().expect("a pipe");
    let mut output = child.stdout.take().expect("a pipe");
    let mut printed = Vec::new();
    std::thread::scope(|scope| {
        // A program that ends early breaks the pipe; what it printed tells where.
        scope.spawn(move || input.write_all(text));
        output.read_to_end(&mut printed)
    })?;
    let status = child.wait()?;
    Ok(if status.success() {
        Ok(printed)
    } else {
        Err(status.to_string())
    })
}

/// The first line in which the two differ.
fn difference(text: &[u8], printed: &[u8], expected: &[u8]) -> Option<String> {
    if printed == expected {
        return None;
    }
    let (mut printed, mut expected) = (lines(printed), lines(expected));
    let shown = |line: Option<&[u8]>| match line {
        Some(line) => line.escape_ascii().to_string(),
        None => "no line".into(),
    };
    for (number, call) in (1..).zip(lines(text)) {
        let (printed, expected) = (printed.next(), expected.next());
        if printed != expected {
            let call = call.escape_ascii();
            let (printed, expected) = (shown(printed), shown(expected));
            return Some(format!("line {number}: {call}: {printed}, not {expected}"));
        }
    }
    Some("something is printed behind the last line, or its line feed is missing".into())
}
