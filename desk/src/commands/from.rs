//! What can still become of an object (document 02, R-7).

use crate::answer::{answer, Answer, Answered, BAD, GOOD, REFUSED};
use crate::arguments::Call;
use crate::calls::{self, Handin, Refusal, Replay};
use crate::commands::explain::ALL;
use crate::files::{read, Source};
use crate::model::Model;
use crate::parts::{plain, Part};
use crate::reasons;
use crate::say::{self, Handed};
use crate::show;
use crate::story;
use crate::table::Run;
use crate::text::{line_of, readable};
use crate::words::{questions, refusals};

/// The number of the refusal that says that a place is broken or the object was not created.
const PLACES: u32 = 16;

pub fn run(call: &Call) -> Answered {
    let [model, handin, places, object] = call.names.as_slice() else {
        return Err(call.other_names());
    };
    let (places, object) = (call.number(places)? as usize, call.number(object)?);
    let text = read(model, calls::MODEL)?;
    let handin = read(handin, calls::HANDIN)?;
    let plain_question = say::accepted(&text)?;
    let (first, run) = places_of(&handin, places)?;
    let model = Model::new(text.bytes.clone());
    let handed = Handed {
        handin: &handin,
        first,
        run: &run,
    };
    let analysis = calls::from(&text.bytes, &run, object).map_err(|r| refused(&text, &model, &handed, r))?;
    let (stood, _) = calls::replay(&text.bytes, &run);
    let (_, states) = story::tell(&model, &[], &run, &stood);
    let parts = stopped(&model, &handed, object as usize, &states);
    let name = reasons::first_variable(&model, 1);
    match analysis.run {
        Some(shown) => {
            let table = show::run(&Run::from(&model, &states, &shown), call.has(ALL));
            let said = questions::from_reached(object as usize, &name);
            Ok(answer(format!("{said}\n{}\n{}\n\n{table}", plain(&parts), questions::run_from_there()), GOOD))
        }
        None => {
            let alone = match plain_question {
                Ok(analysis) if analysis.run.is_some() => questions::plain_reached(),
                _ => questions::plain_unreached(),
            };
            Ok(answer(
                format!("{}\n{alone}\n{}", questions::from_unreached(object as usize, &name), plain(&parts)),
                BAD,
            ))
        }
    }
}

/// The first so many places of a hand-in's run, and the line of the first.
fn places_of(handin: &Source, places: usize) -> Result<(usize, Vec<u32>), Answer> {
    let unreadable = |said: Vec<Part>| answer(plain(&said), REFUSED);
    let cured = |said: String, cure: String| unreadable(vec![Part::Says(said), Part::Says(refusals::cure(&cure))]);
    match calls::handin(&handin.bytes) {
        Handin::Unreadable { line } => Err(unreadable(say::unreadable(handin, line))),
        Handin::No => Err(cured(refusals::says_no(&handin.name), refusals::no_run_cure())),
        Handin::Yes { run, .. } if run.len() < places => {
            let cure = match run.len() {
                0 => refusals::no_run_cure(),
                most => refusals::too_few_places_cure(most),
            };
            Err(cured(refusals::too_few_places(&handin.name, places, run.len()), cure))
        }
        Handin::Yes { first, mut run } => {
            run.truncate(places);
            Ok((first, run))
        }
    }
}

/// A refusal, and for places and objects which of them is at fault.
fn refused(text: &Source, model: &Model, handed: &Handed, r: Refusal) -> Answer {
    let mut parts = say::refusal(text, r);
    if r.number == PLACES {
        parts.extend(fault(model, handed));
    }
    answer(plain(&parts), REFUSED)
}

/// Where the places break, or else the objects that there are.
fn fault(model: &Model, handed: &Handed) -> Vec<Part> {
    let (stood, replay) = calls::replay(&model.bytes, handed.run);
    if let Replay::Breaks { .. } = replay {
        return say::broken(model, handed);
    }
    let (_, states) = story::tell(model, &[], handed.run, &stood);
    say::objects(model, &states)
}

/// Where the run is stopped, and what the objects are then.
fn stopped(model: &Model, handed: &Handed, object: usize, states: &[u32]) -> Vec<Part> {
    let line = handed.first + handed.run.len() - 1;
    let mut parts = vec![
        Part::Says(questions::stopped_after(handed.run.len(), &handed.handin.name, line)),
        Part::Quote(readable(line_of(&handed.handin.bytes, line))),
        Part::Says(questions::object_then(object, &model.state(states[object]))),
    ];
    parts.extend(say::objects(model, states));
    parts
}
