//! Lines to strike, and the share of the ways to strike them (document 02, R-8 and R-10).

use crate::answer::{answer, Answer, Answered, BAD, GOOD, REFUSED};
use crate::arguments::Call;
use crate::calls::{self, Clause, Refusal};
use crate::files::{read, Source};
use crate::model::Model;
use crate::parts::{plain, Part};
use crate::say;
use crate::words::questions;

/// The number of the refusal of a list of lines.
const LISTED: u32 = 19;

/// The model and the lines that a call names.
fn listed(call: &Call) -> Result<(Source, Vec<u32>), Answer> {
    let [model, lines @ ..] = call.names.as_slice() else {
        return Err(call.other_names());
    };
    let lines = call.numbers(lines.iter().map(String::as_str))?;
    Ok((read(model, calls::MODEL)?, lines))
}

/// A refusal; beside one of the list stand the lines that can be listed.
fn refused(text: &Source, r: Refusal) -> Answer {
    let mut parts = say::refusal(text, r);
    if r.number == LISTED {
        parts.extend(choice(text, &[Clause::New, Clause::Next]));
    }
    answer(plain(&parts), REFUSED)
}

/// The lines of these kinds that a model has.
pub fn choice(text: &Source, kinds: &[Clause]) -> Vec<Part> {
    let model = Model::new(text.bytes.clone());
    let lines = model.lines_of(kinds);
    vec![Part::Says(questions::lines_to_choose()), numbered(&model, &lines)]
}

/// Lines with their numbers.
fn numbered(model: &Model, lines: &[usize]) -> Part {
    Part::List(lines.iter().map(|&l| model.numbered(l)).collect())
}

/// The lines of a list by rising number.
fn sorted(lines: &[u32]) -> Vec<usize> {
    let mut lines: Vec<usize> = lines.iter().map(|&l| l as usize).collect();
    lines.sort_unstable();
    lines
}

pub fn strike(call: &Call) -> Answered {
    let (text, lines) = listed(call)?;
    let struck = calls::strike(&text.bytes, &lines).map_err(|r| refused(&text, r))?;
    let model = Model::new(text.bytes.clone());
    let all = sorted(&lines);
    let (parts, status) = match struck.map(|s| sorted(&s)) {
        None => (
            vec![
                Part::Says(questions::strike_impossible()),
                Part::Says(questions::listed_lines()),
                numbered(&model, &all),
            ],
            BAD,
        ),
        Some(struck) if struck.is_empty() => (vec![Part::Says(questions::strike_none())], GOOD),
        Some(struck) => (cure(&model, &all, &struck), GOOD),
    };
    Ok(answer(plain(&parts), status))
}

/// The lines to strike, and those of the list that can stay.
fn cure(model: &Model, all: &[usize], struck: &[usize]) -> Vec<Part> {
    let stay: Vec<usize> = all.iter().copied().filter(|l| !struck.contains(l)).collect();
    let mut parts = vec![
        Part::Says(questions::strike_these()),
        numbered(model, struck),
        Part::Says(questions::strike_fewest()),
    ];
    if !stay.is_empty() {
        parts.extend([Part::Says(questions::stay_lines()), numbered(model, &stay)]);
    }
    parts
}

pub fn share(call: &Call) -> Answered {
    let (text, lines) = listed(call)?;
    let tally = calls::tally(&text.bytes, &lines).map_err(|r| refused(&text, r))?;
    let model = Model::new(text.bytes.clone());
    let ways = tally.reached + tally.unreached;
    let parts = vec![
        Part::Says(questions::shared(tally.reached, ways, tally.unreached)),
        Part::Says(questions::share(tally.share, tally.reached, ways, tally.remainder)),
        Part::Says(questions::listed_lines()),
        numbered(&model, &sorted(&lines)),
    ];
    Ok(answer(plain(&parts), GOOD))
}
