//! Prints the stored script. How often each call got each answer goes to standard error, and it exits with 1 where a call never got an
//! answer that it can get, or got one that it cannot.

use std::process::ExitCode;

use reference::script::{cases, reach};

fn main() -> ExitCode {
    let mut writer = cases::all();
    print!("{}", writer.script);
    eprint!("{}", reach::shown(&writer.tally));
    // one line is no call
    writer.tally.answers.remove(&("none".to_string(), ""));
    let faults = reach::faults(&writer.tally);
    faults.iter().for_each(|fault| eprintln!("the script: {fault}"));
    if faults.is_empty() {
        ExitCode::SUCCESS
    } else {
        ExitCode::FAILURE
    }
}
