//! The shortest way from one label set to another (document 02, R-13).

use crate::answer::{answer, Answer, Answered, BAD, GOOD, REFUSED};
use crate::arguments::Call;
use crate::calls::{self, Analysis, Refusal};
use crate::files::{read, Source};
use crate::model::{Model, NoSet};
use crate::parts::{plain, Part};
use crate::say;
use crate::show::{table, Line};
use crate::table::{change, signed, CLEARS, SETS};
use crate::text::{or, readable};
use crate::words::{marks, questions, refusals, runs};

/// The number of the refusal of a state that no object can have.
const NO_STATE: u32 = 23;

pub fn run(call: &Call) -> Answered {
    let [model, from, to] = call.names.as_slice() else {
        return Err(call.other_names());
    };
    let text = read(model, calls::MODEL)?;
    let analysis = say::accepted(&text)?;
    let model = Model::new(text.bytes.clone());
    let state = |word: &str| model.read_state(word).map_err(|fault| no_set(&text, &model, word, fault));
    let (from, to) = (state(from)?, state(to)?);
    let way = calls::way(&text.bytes, from, to).map_err(|r| refused(&text, &model, &analysis, r))?;
    Ok(match way {
        None => answer(format!("{}\n", questions::no_way(&model.state(from), &model.state(to))), BAD),
        Some(lines) if lines.is_empty() => answer(format!("{}\n", questions::way_none_needed(&model.state(from))), GOOD),
        Some(lines) => answer(shown(&model, from, to, &lines), GOOD),
    })
}

/// A word that is no label set of the model.
fn no_set(text: &Source, model: &Model, word: &str, fault: NoSet) -> Answer {
    let mut parts = match fault {
        NoSet::Empty => vec![Part::Says(refusals::no_set(&readable(word.as_bytes())))],
        NoSet::Undeclared(name) => vec![
            Part::Says(refusals::undeclared(&readable(name.as_bytes()), &text.name)),
            Part::List(vec![or(model.declared().join(" "), runs::none())]),
        ],
    };
    parts.push(Part::Says(refusals::label_set()));
    answer(plain(&parts), REFUSED)
}

/// A refusal; beside one of the two states stand those that an object can have.
fn refused(text: &Source, model: &Model, analysis: &Result<Analysis, Refusal>, r: Refusal) -> Answer {
    let mut parts = say::refusal(text, r);
    if let (NO_STATE, Ok(analysis)) = (r.number, analysis) {
        let states = analysis.states.iter().map(|&s| model.state(s)).collect();
        parts.extend([Part::Says(marks::can_be()), Part::List(states)]);
    }
    answer(plain(&parts), REFUSED)
}

/// The steps of a way, one a line.
fn shown(model: &Model, from: u32, to: u32, lines: &[u32]) -> String {
    let (start, end) = (model.state(from), model.state(to));
    let said = match lines.len() {
        1 => questions::way_one(&start, &end),
        n => questions::way(n, &start, &end),
    };
    let heads = [
        questions::head_step(),
        runs::head_model(),
        runs::head_sets(),
        runs::head_clears(),
        runs::head_then(),
        questions::head_text(),
    ];
    let table = table(&heads, &steps(model, from, lines));
    format!("{said}\n\n{table}\n{}\n", questions::way_helpers())
}

/// What each step of a way sets and clears, and what the object is then.
fn steps(model: &Model, from: u32, lines: &[u32]) -> Vec<Line> {
    let mut state = from;
    lines
        .iter()
        .enumerate()
        .map(|(i, &line)| {
            let after = calls::effect(&model.bytes, line, state).map_or(state, |(_, after)| after);
            let (sets, clears) = change(model, state, after);
            state = after;
            Line::Cells(vec![
                (i + 1).to_string(),
                runs::line(line as usize),
                signed(&sets, SETS),
                signed(&clears, CLEARS),
                model.state(after),
                readable(model.line(line as usize)),
            ])
        })
        .collect()
}
