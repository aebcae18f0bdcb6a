//! The text for processes with Asbestos labels.

use crate::answer::{answer, failure, Answer, Answered, GOOD, REFUSED};
use crate::arguments::Call;
use crate::calls;
use crate::files::{read, Source};
use crate::kinds::{self, Fault};
use crate::parts::{plain, Part};
use crate::say;
use crate::text::{line_of, readable};
use crate::words::{calling, questions, refusals};

/// Writes the text alone.
pub const TEXT: &str = "--text";

pub fn run(call: &Call) -> Answered {
    let [name] = call.names.as_slice() else {
        return Err(call.other_names());
    };
    let file = read(name, calls::MODEL)?;
    let system = kinds::read(&file.bytes).map_err(|fault| no_system(&file, fault))?;
    let text = calls::asbestos(&system.kinds, system.count, system.port, system.asked).map_err(|r| say::refused(&file, r))?;
    let analysis = calls::analyze(&text).map_err(|_| failure(calling::own_text_refused()))?;
    let text = String::from_utf8_lossy(&text);
    if call.has(TEXT) {
        return Ok(answer(text.to_string(), GOOD));
    }
    let level = kinds::level(system.asked);
    let said = if analysis.run.is_some() {
        questions::marked_reached(&level)
    } else {
        questions::marked_unreached(&level)
    };
    Ok(answer(format!("{text}\n{said}\n"), GOOD))
}

/// What a file of kinds does not say.
fn no_system(file: &Source, fault: Fault) -> Answer {
    let parts = match fault {
        Fault::Line(line) => vec![
            Part::Says(refusals::unreadable(line, &file.name)),
            Part::Quote(readable(line_of(&file.bytes, line))),
            Part::Says(refusals::kinds_line()),
        ],
        Fault::Missing(word) => vec![Part::Says(refusals::kinds_missing(&file.name, word)), Part::Says(refusals::kinds_line())],
    };
    answer(plain(&parts), REFUSED)
}
