//! Why a place of a run is not allowed, in words.

use crate::calls::{self, Reason};
use crate::model::Model;
use crate::parts::Part;
use crate::story::{self, Meeting, Place};
use crate::text::{or, readable};
use crate::words::runs;

/// The variables of a stage.
fn variables(line: &[u8], stage: usize) -> Vec<String> {
    (0..3).map_while(|j| calls::variable(line, stage, j)).map(readable).collect()
}

/// The first variable of a stage of the question.
pub fn first_variable(model: &Model, stage: usize) -> String {
    variables(model.line(model.question()), stage).into_iter().next().unwrap_or_default()
}

/// The numbers that objects have, where another was named.
fn numbers(states: &[u32]) -> String {
    match states.len() {
        0 => runs::no_object_at_all(),
        1 => runs::no_object_but_one(),
        n => runs::no_object_above(n - 1),
    }
}

/// The number of objects that a meeting names.
fn arity(names: &[String]) -> String {
    match names {
        [] => runs::no_variables(),
        [name] => runs::one_variable(name),
        _ => runs::variables(names.len(), &names.join(", ")),
    }
}

/// A literal of a line that no objects make true; literals are tried from left to right, those with `not` last.
fn blamed(line: &[u8], object: usize, literal: &str) -> String {
    let own = calls::variable(line, 0, 0).filter(|_| line.starts_with(b"(next ")).map(readable);
    match (own, literal.starts_with("(not ")) {
        (None, false) => runs::literal_of_new(literal),
        (None, true) => runs::not_literal_of_new(literal),
        (Some(name), false) => runs::literal_of_next(literal, object, &name),
        (Some(name), true) => runs::not_literal_of_next(literal, object, &name),
    }
}

/// The variables of a stage that stand for other objects since earlier meetings.
fn carried(line: &[u8], stage: usize, objects: &[usize], met: &[&Meeting]) -> String {
    let since = |name: &String| {
        met.iter().find_map(|m| {
            let j = variables(line, m.stage).iter().position(|n| n == name)?;
            Some((m.stage, *m.objects.get(j)?))
        })
    };
    let others: Vec<String> = variables(line, stage)
        .iter()
        .zip(objects)
        .filter_map(|(name, &object)| {
            let (stage, chosen) = since(name).filter(|(_, chosen)| *chosen != object)?;
            Some(runs::since(name, chosen, stage))
        })
        .collect();
    runs::carried(&others.join(", "))
}

/// What a place would do: its heading, and the line of the model.
fn heading(model: &Model, place: &Place) -> (String, usize) {
    match place {
        Place::Step { line, object } => (runs::would_take(*object, *line), *line),
        Place::Meeting { stage, objects } => {
            let question = model.question();
            let names = variables(model.line(question), *stage);
            let with: Vec<String> = objects
                .iter()
                .enumerate()
                .map(|(j, &o)| names.get(j).map_or(runs::object(o), |n| runs::object_for(o, n)))
                .collect();
            if with.is_empty() {
                (runs::would_meet(*stage), question)
            } else {
                (runs::would_meet_with(*stage, &with.join(", ")), question)
            }
        }
    }
}

/// The line of the model that a place is about, and the stage in it; 0 where it is no question.
fn stands<'a>(model: &'a Model, place: &Place) -> (&'a [u8], usize) {
    match place {
        Place::Step { line, .. } => (model.line(*line), 0),
        Place::Meeting { stage, .. } => (model.line(model.question()), *stage),
    }
}

/// Literal k of a place's line or stage.
fn literal(model: &Model, place: &Place, k: usize) -> String {
    let (line, stage) = stands(model, place);
    calls::literal(line, stage, k).map(readable).unwrap_or_default()
}

/// The objects that a place names.
fn named(place: &Place) -> &[usize] {
    match place {
        Place::Step { object, .. } => std::slice::from_ref(object),
        Place::Meeting { objects, .. } => objects,
    }
}

/// Why a place is not allowed, after the meetings before it.
fn because(model: &Model, place: &Place, reason: Reason, states: &[u32], met: &[&Meeting]) -> String {
    let (line, stage) = stands(model, place);
    match reason {
        Reason::Done => runs::all_met(),
        Reason::NoLine => runs::no_step_line(),
        Reason::NotNext => runs::other_number(states.len()),
        Reason::NoObject => numbers(states),
        Reason::OtherStage => runs::other_stage(met.len() + 1),
        Reason::Variables => arity(&variables(line, stage)),
        Reason::Carried => carried(line, stage, named(place), met),
        Reason::Literal(k) => match place {
            Place::Meeting { .. } => runs::literal_of_stage(&literal(model, place, k)),
            Place::Step { object, .. } => blamed(line, *object, &literal(model, place, k)),
        },
    }
}

/// What a place would do, and why it is not allowed there.
pub fn why(model: &Model, number: u32, reason: Reason, states: &[u32], met: &[&Meeting]) -> Vec<Part> {
    let place = story::place(number);
    let (heading, line) = heading(model, &place);
    vec![
        Part::Says(heading),
        Part::Line(line, or(readable(model.line(line)), runs::no_such_line())),
        Part::Says(runs::not_allowed(&because(model, &place, reason, states, met))),
    ]
}

/// Why a place is not allowed, in one short sentence.
pub fn brief(model: &Model, number: u32, reason: Reason, states: &[u32], met: &[&Meeting]) -> String {
    let place = story::place(number);
    match (reason, &place) {
        (Reason::Literal(k), Place::Meeting { .. }) => runs::literal_of_stage_fails(&literal(model, &place, k)),
        (Reason::Literal(k), Place::Step { .. }) => runs::literal_of_step_fails(&literal(model, &place, k)),
        _ => because(model, &place, reason, states, met).trim_end_matches('.').to_string(),
    }
}
