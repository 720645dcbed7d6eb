//! The dealer's program: makes two matched files of tapes, and shows what files of tapes hold. Such a file is a pool as it is, words of 32
//! bits with the lowest byte first, and nothing else.

mod arguments;
mod dealing;
mod files;
mod ledger;
mod show;
mod tapes;

use std::io::Write;
use std::process::ExitCode;

use arguments::Command;

/// Why nothing more was done, as a sentence.
pub enum Failure {
    /// The arguments ask for what can't be: exit status 2.
    Usage(String),
    /// Exit status 1.
    Failed(String),
}

fn main() -> ExitCode {
    match arguments::parse(std::env::args_os().skip(1)).and_then(run) {
        Ok(()) => ExitCode::SUCCESS,
        Err(Failure::Failed(sentence)) => {
            eprintln!("yuthsaok-deal: {sentence}");
            ExitCode::from(1)
        }
        Err(Failure::Usage(sentence)) => {
            eprintln!("yuthsaok-deal: {sentence} (yuthsaok-deal --help says more)");
            ExitCode::from(2)
        }
    }
}

fn run(command: Command) -> Result<(), Failure> {
    match command {
        Command::Help => print(arguments::HELP),
        Command::Version => print(&format!("yuthsaok-deal {}\n", yuthsaok::version())),
        Command::Deal(order) => {
            let made = dealing::fill(&order)?;
            print(&made).map_err(|_| Failure::Failed(format!("the output can't be written, but the tapes were made: {}", made.trim_end())))
        }
        Command::Show { files, slot_words } => {
            for (i, file) in files.iter().enumerate() {
                let table = show::table(file, slot_words)?;
                print(&format!("{}{table}", if i > 0 { "\n" } else { "" }))?;
            }
            Ok(())
        }
    }
}

fn print(text: &str) -> Result<(), Failure> {
    std::io::stdout().write_all(text.as_bytes()).map_err(|error| Failure::Failed(format!("the output can't be written: {error}")))
}
