//! What a hand-in is worth, in one line.

use crate::calls::{self, Handin, Mark, Refusal, Replay};
use crate::files::Source;
use crate::model::Model;
use crate::reasons;
use crate::say::meetings;
use crate::story;
use crate::text::{line_of, or, readable};
use crate::words::{class, refusals};

/// The grades, from the best to the worst.
#[derive(Clone, Copy, PartialEq, Eq, PartialOrd, Ord)]
pub enum Grade {
    Right,
    Wrong,
    /// The model is refused, or there is no verdict.
    Refused,
    /// The hand-in is no verdict and no run.
    Unreadable,
    /// The answer, or every model, is missing.
    Incomplete,
    /// A file cannot be read.
    NoFile,
}

impl Grade {
    pub fn word(self) -> String {
        match self {
            Grade::Right => class::right(),
            Grade::Wrong => class::wrong(),
            Grade::Refused => class::refused(),
            Grade::Unreadable => class::unreadable(),
            Grade::Incomplete => class::incomplete(),
            Grade::NoFile => class::no_file(),
        }
    }
}

/// A grade, and where and why it is not right.
pub struct Graded {
    pub grade: Grade,
    pub why: String,
}

pub fn graded(grade: Grade, why: String) -> Graded {
    Graded { grade, why }
}

/// Grades a hand-in by a model.
pub fn grade(text: &Source, handin: &Source) -> Graded {
    let mark = calls::mark(&text.bytes, &handin.bytes);
    let (grade, said) = match &mark {
        Mark::Refused(r) => (Grade::Refused, refused(text, *r)),
        Mark::Unreadable { line } => (Grade::Unreadable, unreadable(handin, *line)),
        Mark::Right => (Grade::Right, String::new()),
        Mark::Other { reached: true } => (Grade::Wrong, class::says_no()),
        Mark::Other { reached: false } => (Grade::Wrong, class::says_yes()),
        Mark::Breaks => (Grade::Wrong, String::new()),
    };
    let broken = if mark.breaks() { break_of(text, handin) } else { String::new() };
    let why: Vec<String> = [said, broken].into_iter().filter(|w| !w.is_empty()).collect();
    graded(grade, why.join("; "))
}

/// Why a model is refused.
fn refused(text: &Source, r: Refusal) -> String {
    let (reason, _) = refusals::row(r.number);
    match r.line as usize {
        0 => class::refused_why(r.number, &reason),
        line => class::refused_line_why(r.number, line, &or(readable(line_of(&text.bytes, line)), refusals::no_line_of_text()), &reason),
    }
}

/// Why a hand-in is unreadable.
fn unreadable(handin: &Source, line: usize) -> String {
    match line {
        0 => class::too_long(),
        line => class::unreadable_why(line, &or(readable(line_of(&handin.bytes, line)), refusals::no_line_of_file())),
    }
}

/// Where and why the run of a hand-in breaks.
fn break_of(text: &Source, handin: &Source) -> String {
    let Handin::Yes { first, run } = calls::handin(&handin.bytes) else {
        return String::new();
    };
    let model = Model::new(text.bytes.clone());
    let (stood, replay) = calls::replay(&model.bytes, &run);
    let (events, states) = story::tell(&model, &[], &run[..stood.len()], &stood);
    let met = meetings(&events);
    match replay {
        Replay::Kept => String::new(),
        Replay::Ends => class::ends_early(first + run.len() - 1, met.len() + 1),
        Replay::Breaks { place, reason } => {
            let line = first + place;
            let why = reasons::brief(&model, run[place], reason, &states, &met);
            class::breaks_at(line, &readable(line_of(&handin.bytes, line)), &why)
        }
    }
}
