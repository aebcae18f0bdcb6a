//! Attacker and guardian (document 02, R-12).

use crate::answer::{answer, Answer, Answered, GOOD, REFUSED};
use crate::arguments::Call;
use crate::calls::{self, Clause, Outcome, Refusal};
use crate::commands::strike::choice;
use crate::files::{read, Source};
use crate::model::Model;
use crate::parts::{plain, Part};
use crate::say;
use crate::show::{table, Line};
use crate::text::readable;
use crate::words::questions;

/// The lines of the two sides.
pub const ATTACKER: &str = "--attacker";
pub const GUARDIAN: &str = "--guardian";

/// The number of the refusal of a side's lines.
const SIDES: u32 = 21;

pub fn run(call: &Call) -> Answered {
    let [model] = call.names.as_slice() else {
        return Err(call.other_names());
    };
    let side = |option: &str| call.numbers(std::iter::once(call.word(option)));
    let (attacker, guardian) = (side(ATTACKER)?, side(GUARDIAN)?);
    let text = read(model, calls::MODEL)?;
    let outcomes = calls::game(&text.bytes, &attacker, &guardian).map_err(|r| refused(&text, r))?;
    let model = Model::new(text.bytes.clone());
    let mut parts = vec![Part::Says(questions::game_rules(&readable(model.line(model.question()))))];
    parts.extend(lines(&model, questions::attacker_lines(), &attacker));
    parts.extend(lines(&model, questions::guardian_lines(), &guardian));
    Ok(answer(format!("{}\n{}", plain(&parts), told(&model, &outcomes)), GOOD))
}

/// A refusal; beside one of a side's lines stand those that can be given.
fn refused(text: &Source, r: Refusal) -> Answer {
    let mut parts = say::refusal(text, r);
    if r.number == SIDES {
        parts.extend(choice(text, &[Clause::Next]));
    }
    answer(plain(&parts), REFUSED)
}

/// The lines of a side.
fn lines(model: &Model, heading: String, lines: &[u32]) -> Vec<Part> {
    let items = if lines.is_empty() {
        vec![questions::always_passes()]
    } else {
        lines.iter().map(|&l| model.numbered(l as usize)).collect()
    };
    vec![Part::Says(heading), Part::List(items)]
}

/// Who can force the outcome, for each state.
fn told(model: &Model, outcomes: &[Outcome]) -> String {
    let heads = [questions::head_start(), questions::head_winner(), questions::head_moves()];
    let lines: Vec<Line> = outcomes.iter().map(|o| Line::Cells(cells(model, o))).collect();
    let attacker = outcomes.iter().filter(|o| o.moves.is_some()).count();
    let counts = questions::game_counts(outcomes.len(), attacker, outcomes.len() - attacker);
    format!("{}\n{counts}\n", table(&heads, &lines))
}

fn cells(model: &Model, outcome: &Outcome) -> Vec<String> {
    let (winner, moves) = match outcome.moves {
        Some(0) => (questions::attacker(), questions::at_once()),
        Some(moves) => (questions::attacker(), moves.to_string()),
        None => (questions::guardian(), questions::never_met()),
    };
    vec![model.state(outcome.state), winner, moves]
}
