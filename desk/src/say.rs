//! What is said of models that are refused, hand-ins that are unreadable, and runs that break.

use crate::answer::{answer, Answer, REFUSED};
use crate::calls::{self, Analysis, Handin, Refusal, Replay, TOO_MANY};
use crate::files::Source;
use crate::model::Model;
use crate::parts::{plain, Part};
use crate::reasons;
use crate::story::{self, Event, Meeting};
use crate::text::{capital, line_of, or, readable};
use crate::words::{refusals, runs};

/// A refused model: its line, the reason and the cure.
pub fn refusal(text: &Source, r: Refusal) -> Vec<Part> {
    let (reason, cure) = refusals::row(r.number);
    let cure = Part::Says(refusals::cure(&cure));
    if r.line == 0 {
        return vec![Part::Says(refusals::refused(r.number, &text.name, &reason)), cure];
    }
    let line = r.line as usize;
    vec![
        Part::Says(refusals::refused_line(r.number, line, &text.name)),
        Part::Line(line, or(readable(line_of(&text.bytes, line)), refusals::no_line_of_text())),
        Part::Says(format!("{}.", capital(&reason))),
        cure,
    ]
}

/// The answer to a refused model.
pub fn refused(text: &Source, r: Refusal) -> Answer {
    answer(plain(&refusal(text, r)), REFUSED)
}

/// The analysis of a model whose lines are accepted; only that it has too many label sets is left to the caller.
pub fn accepted(text: &Source) -> Result<Result<Analysis, Refusal>, Answer> {
    match calls::analyze(&text.bytes) {
        Err(r) if r.number != TOO_MANY => Err(refused(text, r)),
        analysis => Ok(analysis),
    }
}

/// An unreadable hand-in.
pub fn unreadable(handin: &Source, line: usize) -> Vec<Part> {
    if line == 0 {
        return vec![
            Part::Says(refusals::too_long(&handin.name)),
            Part::Says(refusals::cure(&refusals::too_long_cure())),
        ];
    }
    let text = line_of(&handin.bytes, line);
    let mut parts = vec![
        Part::Says(refusals::unreadable(line, &handin.name)),
        Part::Quote(or(readable(text), refusals::no_line_of_file())),
        Part::Says(if line == 1 { refusals::first_line() } else { refusals::further_lines() }),
    ];
    if text.ends_with(b"\r") {
        parts.push(Part::Says(refusals::carriage_return()));
    }
    parts
}

/// The objects at a moment, one a line.
pub fn objects(model: &Model, states: &[u32]) -> Vec<Part> {
    if states.is_empty() {
        return vec![Part::Says(runs::no_object_yet())];
    }
    let items = states.iter().enumerate().map(|(o, &s)| runs::object_is(o, &model.state(s))).collect();
    vec![Part::Says(runs::objects_then()), Part::List(items)]
}

/// The meetings among events.
pub fn meetings(events: &[Event]) -> Vec<&Meeting> {
    events.iter().filter_map(|e| if let Event::Meeting(m) = e { Some(m) } else { None }).collect()
}

/// The run of a hand-in.
pub struct Handed<'a> {
    pub handin: &'a Source,
    /// The line of its first place.
    pub first: usize,
    pub run: &'a [u32],
}

/// The break of a run: the place, why it is not allowed, and the objects at that moment; nothing where the run is kept.
pub fn broken(model: &Model, handed: &Handed) -> Vec<Part> {
    let (stood, replay) = calls::replay(&model.bytes, handed.run);
    let (events, states) = story::tell(model, &[], &handed.run[..stood.len()], &stood);
    let met = meetings(&events);
    let mut parts = match replay {
        Replay::Kept => return Vec::new(),
        Replay::Ends => vec![Part::Says(ends(handed, met.len()))],
        Replay::Breaks { place, reason } => {
            let line = handed.first + place;
            let mut parts = vec![
                Part::Says(runs::breaks_at(line, &handed.handin.name)),
                Part::Quote(readable(line_of(&handed.handin.bytes, line))),
            ];
            parts.extend(reasons::why(model, handed.run[place], reason, &states, &met));
            parts
        }
    };
    parts.extend(objects(model, &states));
    parts
}

/// The break of a run at its end.
fn ends(handed: &Handed, met: usize) -> String {
    let line = handed.first + handed.run.len() - 1;
    if met == 1 {
        runs::breaks_at_end_one(line, &handed.handin.name)
    } else {
        runs::breaks_at_end(line, &handed.handin.name, met, met + 1)
    }
}

/// Where and why the run of a hand-in breaks; nothing where it has none.
pub fn break_of(text: &Source, handin: &Source) -> Vec<Part> {
    match calls::handin(&handin.bytes) {
        Handin::Yes { first, run } => broken(&Model::new(text.bytes.clone()), &Handed { handin, first, run: &run }),
        _ => Vec::new(),
    }
}
