//! Replays a script from standard input by the engine: `replay [EXPECTED]`. It prints what the machine prints; where a file of what is
//! expected is named it prints how many lines were as expected, or the first difference, and then exits with 1.

use std::io::{Read, Write};
use std::process::ExitCode;

use fuzz::engine::Engine;
use reference::entries::Reply;
use reference::line::numbers;
use reference::machine::{Machine, DEAL};

/// The call that a line makes, by its name, and nothing for another line.
fn name(machine: &mut Machine<Engine>, line: &[u8]) -> String {
    match numbers(line) {
        Some(all) if all[0] >= DEAL && all.len() <= 64 => {
            // the line's registers name the call, and the record before it
            machine.perform(&[&[0], &all[1..]].concat());
            machine.name(all[0])
        }
        _ => "no call".to_string(),
    }
}

/// The answer that stands in a printed line of a call.
fn reply(printed: &str) -> Option<Reply> {
    match numbers(format!("{printed}\n").as_bytes())?[..] {
        [call, number, read, bytes, ..] if call >= DEAL => Some(Reply { number, read: read as usize, bytes: bytes as usize }),
        _ => None,
    }
}

fn difference(printed: &str, expected: &str) -> String {
    match (reply(printed), reply(expected)) {
        (Some(one), Some(other)) if one != other => format!("{one}; expected: {other}"),
        (Some(one), Some(_)) => format!("{one}, as expected, but other bytes are left"),
        _ => format!("prints {printed}; expected: {expected}"),
    }
}

/// How many lines are as expected, where all are.
fn compared(script: &[u8], expected: &str) -> Result<usize, String> {
    let mut machine = Machine::<Engine>::default();
    let mut lines = expected.lines();
    for (i, line) in script.split_inclusive(|b| *b == b'\n').enumerate() {
        let name = name(&mut machine, line);
        for printed in machine.line(line).lines() {
            let expected = lines.next().unwrap_or("nothing");
            if printed != expected {
                return Err(format!("line {} of the script, {name}: {}", i + 1, difference(printed, expected)));
            }
        }
    }
    match lines.count() {
        0 => Ok(expected.lines().count()),
        more => Err(format!("{more} lines more are expected than are printed")),
    }
}

fn main() -> ExitCode {
    let mut script = Vec::new();
    std::io::stdin().read_to_end(&mut script).expect("the script is read");
    let Some(file) = std::env::args().nth(1) else {
        let printed = Machine::<Engine>::default().script(&script);
        std::io::stdout().write_all(printed.as_bytes()).expect("standard output takes it");
        return ExitCode::SUCCESS;
    };
    match compared(&script, &std::fs::read_to_string(file).expect("what is expected is read")) {
        Ok(count) => {
            println!("{count} lines as expected");
            ExitCode::SUCCESS
        }
        Err(why) => {
            println!("{why}");
            ExitCode::FAILURE
        }
    }
}
