//! How a command ends: with what it says and its status.

use crate::text::shown;
use crate::words::calling;
use std::io::Write;
use std::process::exit;

/// The statuses of a command; what 0 and 1 mean is the command's own matter.
pub const GOOD: i32 = 0;
pub const BAD: i32 = 1;
pub const REFUSED: i32 = 2;
const FAILED: i32 = 3;

/// What a command says, and the status with which it ends.
pub struct Answer {
    pub text: String,
    pub status: i32,
}

/// The answer of a command, or one that comes before its question can be put.
pub type Answered = Result<Answer, Answer>;

pub fn answer(text: String, status: i32) -> Answer {
    Answer { text, status }
}

/// A file or the program failed, or the call is none.
pub fn failure(message: String) -> Answer {
    Answer {
        text: format!("eon: {}\n", shown(&message)),
        status: FAILED,
    }
}

/// Says on standard error; where that cannot be written, nobody is there to hear it.
pub fn note(text: &str) {
    std::io::stderr().write_all(text.as_bytes()).unwrap_or(());
}

/// Says on standard error that a file or the program failed, and ends.
fn complain(failure: &Answer) -> ! {
    note(&failure.text);
    exit(failure.status)
}

/// Says an answer and ends: a failure on standard error, all else on standard output.
pub fn end(answer: &Answer) -> ! {
    if answer.status == FAILED {
        complain(answer);
    }
    let mut out = std::io::stdout().lock();
    if out.write_all(answer.text.as_bytes()).and_then(|_| out.flush()).is_err() {
        complain(&failure(calling::not_written()));
    }
    exit(answer.status)
}
