//! Guessed pairs, places and runs, which are often allowed.

use crate::meaning::{Action, Carried, Model, Place, Session, Stage};
use crate::random::Random;

/// A pair that is often allowed, and sometimes far off.
pub fn pair(r: &mut Random, m: &Model, objects: usize) -> (u32, usize) {
    let clause = &m.clauses[r.below(m.clauses.len())];
    let object = match clause.action {
        Action::New(_) => objects,
        _ => r.below(objects + 1),
    };
    match r.below(12) {
        0 => (r.word(), object),
        1 => (clause.line, 1_000_000_000_000 + r.below(300)),
        2 => (clause.line, object + 1),
        3 => (0, 0),
        _ => (clause.line, object),
    }
}

/// The object that a variable of a stage has to stand for.
fn chosen(stage: &Stage, carried: &Carried, variable: usize) -> Option<usize> {
    stage.carried.iter().zip(carried).find(|(seat, _)| **seat == Some(variable)).and_then(|(_, object)| *object)
}

/// A place that is often allowed with so many objects, stages met and these objects carried.
pub fn place(r: &mut Random, m: &Model, objects: usize, met: usize, carried: &Carried) -> u32 {
    if r.chance(10) {
        return r.word();
    }
    if let (Some(stage), true) = (m.stages.get(met), r.chance(50)) {
        let object = |x: usize| match chosen(stage, carried, x) {
            Some(o) if r.chance(70) => o,
            _ => r.below(objects + 1),
        };
        let named: Vec<usize> = (0..stage.body.variables).map(object).collect();
        return Place::meeting(met + 1, &named).encode();
    }
    let (line, object) = pair(r, m, objects);
    Place::Step(line % 8_388_608, object % 255).encode()
}

/// A run of guessed places that are allowed, now and then with one at its end that is not.
pub fn run(r: &mut Random, m: &Model) -> Vec<u32> {
    let mut session = Session::default();
    let mut run = Vec::new();
    for _ in 0..24 {
        let n = place(r, m, session.db.len(), session.met, &session.carried);
        let after = Place::decode(n).and_then(|p| session.after(m, &m.facts(&session.db), p));
        match after {
            Some(next) => {
                session = next;
                run.push(n);
            }
            None if r.chance(3) => {
                run.push(n);
                return run;
            }
            None => {}
        }
    }
    run
}
