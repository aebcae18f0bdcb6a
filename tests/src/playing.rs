//! Playing on (demand 3): the shown run follows after any list of pairs that somebody played before.

use crate::guess::pair;
use crate::meaning::{play, Carried, Model, Place, NONE};
use crate::random::Random;
use crate::report::Report;
use crate::subject::Subject;

/// The database that a random list of pairs leaves, each tried on what the one before left.
fn played(r: &mut Random, m: &Model, length: usize) -> Vec<u32> {
    let mut db = Vec::new();
    for _ in 0..length {
        let (line, object) = pair(r, m, db.len());
        if let Some(after) = m.step(&db, &m.facts(&db), line, object) {
            db = after;
        }
    }
    db
}

/// The run as it is played on among other objects.
struct Playing<'a> {
    m: &'a Model,
    /// How many objects the list left.
    k: usize,
    db: Vec<u32>,
    met: usize,
    carried: Carried,
}

impl Playing<'_> {
    /// Plays one place, and says whether it is allowed.
    fn place(&mut self, n: u32) -> bool {
        match Place::decode(n) {
            Some(Place::Step(line, o)) => self.step(line, o),
            Some(Place::Meeting(stage, os)) => self.meet(stage, &os),
            None => false,
        }
    }

    fn step(&mut self, line: u32, o: usize) -> bool {
        let after = self.m.step(&self.db, &self.m.facts(&self.db), line, self.k + o);
        let allowed = after.is_some();
        self.db = after.unwrap_or_default();
        allowed
    }

    /// A stage is met among all objects, and also among those from k up alone.
    fn meet(&mut self, stage: usize, os: &[usize]) -> bool {
        let own: Vec<usize> = os.iter().copied().filter(|o| *o != NONE).collect();
        let named: Vec<usize> = own.iter().map(|o| self.k + o).collect();
        let alone = &self.db[self.k..];
        let good = stage == self.met + 1
            && stage <= self.m.stages.len()
            && self.m.stage_holds(&self.db, &self.m.facts(&self.db), self.met, &named)
            && self.m.stage_holds(alone, &self.m.facts(alone), self.met, &own);
        if !good {
            return false;
        }
        let carried = self.m.stages[self.met].carry(&self.carried, &named);
        let agrees = carried.is_some();
        self.carried = carried.unwrap_or_default();
        self.met += 1;
        agrees
    }
}

/// The first place at which the run cannot be played on, or its length if stages are left.
fn fault(m: &Model, before: &[u32], run: &[u32]) -> Option<usize> {
    let alone = play(m, run).sessions;
    let mut p = Playing { m, k: before.len(), db: before.to_vec(), met: 0, carried: Carried::default() };
    for (i, n) in run.iter().enumerate() {
        let allowed = p.place(*n);
        let right = allowed && p.db.starts_with(before) && alone.get(i + 1).is_some_and(|s| s.db == p.db[before.len()..]);
        if !right {
            return Some(i);
        }
    }
    (p.met < m.stages.len()).then_some(run.len())
}

/// Plays a shown run on after random lists.
pub fn play_on(report: &mut Report, r: &mut Random, subject: &Subject, m: &Model, run: &[u32]) {
    for length in [0, 6, 12 + r.below(12)] {
        let before = played(r, m, length);
        let at = fault(m, &before, run);
        report.check(at.is_none(), || format!("after {before:?} the run {run:?} is broken at {at:?} in\n{}", subject.show()));
        report.cover("played on");
        if !before.is_empty() {
            report.cover("played on after other objects");
        }
    }
}
