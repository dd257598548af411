//! How a command can end other than well, with the words for standard error and the exit status.

use sirveshan::Refusal;
use std::io::{self, Write};

pub enum Failure {
    /// A record or a cut was refused.
    Refused(Refusal),
    /// Records of a run, or blocks of a volume, were refused, each told of already.
    SomeRefused,
    /// The command was not called as it can be.
    Usage(String),
    /// Something that is needed cannot be had, such as a file.
    Cannot(String, io::Error),
    /// Output could not be written.
    Output(io::Error),
}

impl Failure {
    pub fn status(&self) -> u8 {
        match self {
            Failure::Refused(_) | Failure::SomeRefused => 1,
            Failure::Usage(_) | Failure::Cannot(..) => 2,
            Failure::Output(_) => 3,
        }
    }

    /// A usage failure with how the command is called.
    pub fn with_usage(self, usage: &str) -> Failure {
        match self {
            Failure::Usage(words) => Failure::Usage(format!("{words}\nusage: sirveshan {usage}")),
            other => other,
        }
    }

    /// Tells it on standard error. A reader that closed its end early knows what it did.
    pub fn tell(&self) {
        match self {
            Failure::Refused(refusal) => tell(&refusal_line(refusal)),
            Failure::SomeRefused => {}
            Failure::Usage(words) => tell(&format!("sirveshan: {}", words.trim_end())),
            Failure::Cannot(what, error) => tell(&format!("sirveshan: {what}: {error}")),
            Failure::Output(error) if error.kind() == io::ErrorKind::BrokenPipe => {}
            Failure::Output(error) => tell(&format!("sirveshan: cannot write: {error}")),
        }
    }
}

/// A line on standard error. Where even that cannot be written, there is nobody to tell.
pub fn tell(line: &str) {
    let _ = writeln!(io::stderr(), "{line}");
}

/// The number of a refusal and its three numbers, as the listing has them.
pub fn refusal_numbers(refusal: &Refusal) -> String {
    let [a, b, c] = refusal.values;
    format!("refused {} {a} {b} {c}", refusal.number)
}

/// The same with the words.
pub fn refusal_line(refusal: &Refusal) -> String {
    format!("{}: {refusal}", refusal_numbers(refusal))
}

/// Tells of a refused record, by its number where it is one of a run.
pub fn tell_refusal(refusal: &Refusal, number: usize, alone: bool) {
    let line = refusal_line(refusal);
    tell(&if alone { line } else { format!("{line} (record {number})") });
}
