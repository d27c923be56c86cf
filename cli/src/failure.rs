//! What ends a command before it has answered, and the exit status that it gives.

use crate::output::{Output, Paint};
use crate::refused::Refused;
use std::io::{self, Write};
use std::process::ExitCode;

/// Why a command ended early. The exit status is 1 for what is refused, 2 for what cannot be done
/// as it was asked, 130 for a run that was broken off.
#[derive(Debug)]
pub enum Failure {
    /// The proved library refused.
    Refused(Box<Refused>),
    /// It refused, or two recordings differ, and the answer has said so.
    Told,
    /// A wrong use, or a file that cannot be read or written.
    Trouble(String),
    /// Of several files one could not be read, and standard error has said so.
    TroubleTold,
    /// Whoever read standard output reads no more.
    Closed,
    /// The answer is what had been reached when the run was broken off.
    BrokenOff,
}

impl Failure {
    /// What an error of standard output means.
    pub fn of_output(error: io::Error) -> Failure {
        match error.kind() {
            io::ErrorKind::BrokenPipe => Failure::Closed,
            _ => Failure::Trouble(format!("standard output: {error}")),
        }
    }

    /// Says what there is to say, and gives the exit status.
    pub fn report(self, out: &mut Output) -> ExitCode {
        let status = match self {
            Failure::Refused(refused) => {
                return out
                    .refusal(&refused)
                    .map_or_else(|failure| failure.report(out), ExitCode::from)
            }
            Failure::Told => 1,
            Failure::Trouble(message) => {
                tell(&message);
                2
            }
            Failure::TroubleTold => 2,
            Failure::Closed => 0,
            Failure::BrokenOff => 130,
        };
        ExitCode::from(status)
    }
}

/// A message of this program on standard error.
pub fn tell(message: &str) {
    let paint = Paint::of(&io::stderr());
    say(&format!("{} {message}\n", paint.red("gutkavu:")));
}

/// A text on standard error. That nobody can read it changes nothing of the exit status.
pub fn say(text: &str) {
    let _ = io::stderr().write_all(text.as_bytes());
}

impl From<Box<Refused>> for Failure {
    fn from(refused: Box<Refused>) -> Failure {
        Failure::Refused(refused)
    }
}
