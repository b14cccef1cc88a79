//! How a command ends, and why it could not do what was asked.

use crate::faults::Fault;
use std::io;
use std::process::ExitCode;

/// The exit status.
#[derive(Clone, Copy, Debug, PartialEq, Eq)]
pub enum Ending {
    /// Done, and nothing is refused: 0.
    Good,
    /// Refused by the rules: 1.
    Refused,
    /// Wrong use, or what cannot be read or written: 2.
    NotRun,
}

impl Ending {
    /// As the process ends with it.
    pub fn code(self) -> ExitCode {
        ExitCode::from(match self {
            Ending::Good => 0,
            Ending::Refused => 1,
            Ending::NotRun => 2,
        })
    }
}

/// Why a command ends early.
#[derive(Debug)]
pub enum Trouble {
    /// The command line asks for what there is not.
    Use(String),
    /// A file cannot be read, or what stands there is no plan or script.
    Input(String),
    /// The rules refuse, and all else is told already.
    Told(String),
    /// The faults of a plan, from this source.
    Faults(String, Vec<Fault>),
    /// A file or the standard output cannot be written.
    Output(String, io::Error),
}

/// What a command gives.
pub type Outcome<T> = Result<T, Trouble>;

impl Trouble {
    /// The exit status.
    pub fn ending(&self) -> Ending {
        match self {
            Trouble::Told(_) => Ending::Refused,
            Trouble::Faults(_, faults) if faults.iter().all(Fault::is_refusal) => Ending::Refused,
            Trouble::Output(_, error) if error.kind() == io::ErrorKind::BrokenPipe => Ending::Good,
            _ => Ending::NotRun,
        }
    }

    /// Whether there is nobody to tell.
    pub fn is_quiet(&self) -> bool {
        matches!(self, Trouble::Output(_, error) if error.kind() == io::ErrorKind::BrokenPipe)
    }

    /// In words, for the error stream.
    pub fn lines(&self) -> Vec<String> {
        match self {
            Trouble::Use(why) | Trouble::Input(why) => {
                vec![format!("parchbeetle: {why}")]
            }
            Trouble::Told(line) => vec![line.clone()],
            Trouble::Faults(source, faults) => {
                faults.iter().map(|fault| fault.line(source)).collect()
            }
            Trouble::Output(what, error) => vec![format!("parchbeetle: {what}: {error}")],
        }
    }
}
