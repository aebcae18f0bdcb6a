//! The mark of one hand-in.

use crate::answer::{answer, Answered, BAD, GOOD, REFUSED};
use crate::arguments::Call;
use crate::calls::{self, Handin, Mark};
use crate::files::{read, Source};
use crate::parts::{plain, Part};
use crate::say;
use crate::words::marks;

pub fn run(call: &Call) -> Answered {
    let [model, handin] = call.names.as_slice() else {
        return Err(call.other_names());
    };
    let text = read(model, calls::MODEL)?;
    let handin = read(handin, calls::HANDIN)?;
    let mark = calls::mark(&text.bytes, &handin.bytes);
    let (mut parts, status) = said(&text, &handin, &mark);
    if mark.breaks() {
        parts.extend(say::break_of(&text, &handin));
    }
    Ok(answer(plain(&parts), status))
}

/// What a mark says first, and its status.
pub fn said(text: &Source, handin: &Source, mark: &Mark) -> (Vec<Part>, i32) {
    let sentence = |words: String, status: i32| (vec![Part::Says(words)], status);
    match mark {
        Mark::Refused(r) => (say::refusal(text, *r), REFUSED),
        Mark::Unreadable { line } => (say::unreadable(handin, *line), REFUSED),
        Mark::Right => sentence(right(handin), GOOD),
        Mark::Other { reached: true } => sentence(marks::wrong_no(&text.name), BAD),
        Mark::Other { reached: false } => sentence(marks::wrong_yes(), BAD),
        Mark::Breaks => sentence(marks::wrong_run(), BAD),
    }
}

/// Why a hand-in is right.
fn right(handin: &Source) -> String {
    match calls::handin(&handin.bytes) {
        Handin::Yes { run, .. } => marks::right_yes(run.len()),
        _ => marks::right_no(),
    }
}
