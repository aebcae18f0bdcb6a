//! A run, step by step.

use crate::answer::{answer, Answer, Answered, BAD, GOOD, REFUSED};
use crate::arguments::Call;
use crate::calls::{self, Analysis, Handin, Replay};
use crate::files::{read, Source};
use crate::model::Model;
use crate::parts::{plain, Part};
use crate::say::{self, Handed};
use crate::show;
use crate::table::Run;
use crate::words::marks;

/// Unfolds the steps of helpers.
pub const ALL: &str = "--all";

/// The files that the call names: a model, and maybe a hand-in.
pub fn sources(call: &Call) -> Result<(Source, Option<Source>), Answer> {
    let (model, handin) = match call.names.as_slice() {
        [model] => (model, None),
        [model, handin] => (model, Some(handin)),
        _ => return Err(call.other_names()),
    };
    let text = read(model, calls::MODEL)?;
    let handin = handin.map(|h| read(h, calls::HANDIN)).transpose()?;
    Ok((text, handin))
}

pub fn run(call: &Call) -> Answered {
    let (text, handin) = sources(call)?;
    let analysis = say::accepted(&text)?;
    let model = Model::new(text.bytes.clone());
    if let Some(handin) = &handin {
        match calls::handin(&handin.bytes) {
            Handin::Unreadable { line } => return Ok(answer(plain(&say::unreadable(handin, line)), REFUSED)),
            Handin::Yes { first, run } => return Ok(handed(&model, &Handed { handin, first, run: &run }, call.has(ALL))),
            Handin::No => {}
        }
    }
    let analysis = analysis.map_err(|r| say::refused(&text, r))?;
    Ok(answer(analyzed(&model, &analysis, call.has(ALL)), GOOD))
}

/// The run of a hand-in.
fn handed(model: &Model, handed: &Handed, all: bool) -> Answer {
    let (run, replay) = Run::handed(model, handed);
    let table = show::run(&run, all);
    let name = &handed.handin.name;
    match replay {
        Replay::Kept => answer(format!("{}\n\n{table}", marks::run_kept(name)), GOOD),
        _ => answer(format!("{}\n\n{table}\n{}", marks::run_breaks(name), plain(&say::broken(model, handed))), BAD),
    }
}

/// The run that the analysis shows, or what an object can be where there is none.
fn analyzed(model: &Model, analysis: &Analysis, all: bool) -> String {
    match &analysis.run {
        Some(run) => {
            let table = show::run(&Run::analyzed(model, run), all);
            format!("{} {}\n\n{table}", marks::reached(), marks::shown_run())
        }
        None => plain(&unreached(model, analysis)),
    }
}

/// An unreached question, and what an object can be.
fn unreached(model: &Model, analysis: &Analysis) -> Vec<Part> {
    let states = analysis.states.iter().map(|&s| model.state(s)).collect();
    vec![Part::Says(marks::unreached()), Part::Says(marks::can_be()), Part::List(states)]
}
