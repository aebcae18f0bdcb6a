//! One object beside one object of each reachable state: these stand by and never change (document 02, R-12 and R-13).

use crate::meaning::{Action, Model};
use std::collections::{BTreeMap, BTreeSet};

/// What the object can do where it has one of the reachable states.
pub struct Stand {
    /// Whether it meets the first stage of the question, which then has no other variable.
    pub meets: bool,
    /// The `next` lines that hold for it, each with the state that it is led to.
    pub steps: BTreeMap<u32, u32>,
}

/// What the object can do in each reachable state.
pub type Stands = BTreeMap<u32, Stand>;

/// The object is behind those that stand by; each line is tried on it in the database of all of them.
fn stand(m: &Model, states: &BTreeSet<u32>, state: u32) -> Stand {
    let mut db: Vec<u32> = states.iter().copied().collect();
    let object = db.len();
    db.push(state);
    let facts = m.facts(&db);
    let next = m.clauses.iter().filter(|c| matches!(c.action, Action::Next(..)));
    let step = |line: u32| m.step(&db, &facts, line, object).map(|after| (line, after[object]));
    Stand { meets: m.stage_holds(&db, &facts, 0, &[object]), steps: next.filter_map(|c| step(c.line)).collect() }
}

/// What the object can do in each of these states, which are all that are reachable.
pub fn stands(m: &Model, states: &BTreeSet<u32>) -> Stands {
    states.iter().map(|state| (*state, stand(m, states, *state))).collect()
}
