//! A text under test: each call on it is compared with the plain reader and the plain meaning.

use crate::beside::{self, Stands};
use crate::calls::{self, Analysis, Answer, Lent, CARRIED_OBJECTS, KEPT, MET, OBJECTS, RUN, WORK};
use crate::meaning::{broken_at, play, Action, Clause, Model, Place, Session};
use crate::reader::{self, Outcome};
use crate::report::Report;
use crate::search::reachable;
use std::cell::OnceCell;
use std::collections::BTreeSet;

pub struct Subject {
    pub text: Vec<u8>,
    /// The model of an accepted text, or the refusal's number and line.
    pub read: Result<Model, (u32, u32)>,
    /// What `states` gives, once it was asked for.
    states: OnceCell<Option<BTreeSet<u32>>>,
    /// What `stands` gives, once it was asked for.
    stands: OnceCell<Option<Stands>>,
}

/// The most places that a shown run has: by document 02's count 8,128 steps and 505 for each carried object, and the meetings.
fn longest(m: &Model) -> usize {
    8_128 + 505 * m.carried + m.stages.len()
}

/// Whether a run that is lent for reading has too many places.
pub fn too_long(run: &[u32]) -> bool {
    run.len() > RUN
}

impl Subject {
    pub fn new(text: &[u8]) -> Subject {
        let read = match reader::read(text) {
            Outcome::Accepted(t) => Ok(Model::new(&t)),
            Outcome::Refused(number, line) => Err((number, line)),
        };
        Subject { text: text.to_vec(), read, states: OnceCell::new(), stands: OnceCell::new() }
    }

    /// The reachable states of an accepted text; none if the text is refused, or if more than 127 of them are not empty.
    pub fn states(&self) -> Option<&BTreeSet<u32>> {
        self.states.get_or_init(|| self.read.as_ref().ok().and_then(reachable)).as_ref()
    }

    /// What one object can do in each reachable state, where one object of each of these stands by; none where `states` gives none.
    pub fn stands(&self) -> Option<&Stands> {
        let all = || self.read.as_ref().ok().zip(self.states()).map(|(m, states)| beside::stands(m, states));
        self.stands.get_or_init(all).as_ref()
    }

    pub fn show(&self) -> String {
        String::from_utf8_lossy(&self.text[..self.text.len().min(2_000)]).into_owned()
    }

    /// The refusal of a call: row 1, then what the call adds, then the lines.
    pub fn refusal(&self, others: &[(u32, bool)]) -> Option<(u32, u32)> {
        if self.read.as_ref().is_err_and(|r| r.0 == 1) {
            return Some((1, 0));
        }
        let row = others.iter().find(|(_, given)| *given).map(|(row, _)| (*row, 0));
        row.or(self.read.as_ref().err().copied())
    }

    /// Compares the accepted lines, and one behind them, with the plain reader's.
    fn lines(&self, report: &mut Report) {
        let clauses: &[Clause] = self.read.as_ref().map_or(&[], |m| &m.clauses);
        for i in 0..=clauses.len() {
            let wanted = clauses.get(i).map_or(0, line_and_kind);
            let given = calls::line(&self.text, i);
            report.check(given == wanted, || format!("clause {i} is {given}, not {wanted}:\n{}", self.show()));
        }
    }

    /// Analyzes the text with buffers that are large enough, and looks at its accepted lines.
    pub fn analyze(&self, report: &mut Report) -> Analysis {
        self.lines(report);
        self.analyze_with(report, WORK + 9, RUN + 5)
    }

    /// Analyzes the text with buffers of these sizes; refusals, buffers and the shown run are held to document 01.
    pub fn analyze_with(&self, report: &mut Report, work: usize, places: usize) -> Analysis {
        let a = calls::analyze(&self.text, work, places);
        let about = || format!("analysis with {work} bytes and {places} places answers {:?} to\n{}", a.answer, self.show());
        report.check(a.area, || format!("work area: {}", about()));
        report.check(a.table, || format!("run table: {}", about()));
        report.check(a.shape, || format!("states and last place: {}", about()));
        let too_many = || self.states().is_none().then_some((15, 0));
        let refusal = self.refusal(&[(12, work < WORK || places < RUN)]).or_else(too_many);
        report.cover(&format!("analysis: {}", covered(&a.answer)));
        if refusal.is_none() {
            report.check(self.states().is_some_and(|states| a.states.iter().eq(states)), || format!("states {:?}: {}", a.states, about()));
        }
        match (refusal, &self.read, a.answer) {
            (None, Ok(m), Answer::Reached(n)) => {
                report.check(n == a.run.len() && n <= longest(m), || format!("{n} places: {}", about()));
                report.check(broken_at(m, &a.run).is_none(), || format!("shown run {:?}: {}", a.run, about()));
                report.check(matches!(a.run.last().and_then(|p| Place::decode(*p)), Some(Place::Meeting(s, _)) if s == m.stages.len()), || {
                    format!("last place: {}", about())
                });
            }
            (None, _, answer) => report.check(answer == Answer::Unreached, || about()),
            (Some((number, line)), _, answer) => report.check(answer == Answer::Refused(number, line), || format!("{number} @ {line} expected: {}", about())),
        }
        a
    }

    /// Replays a run with buffers that are large enough.
    pub fn replay(&self, report: &mut Report, run: &[u32]) -> Answer {
        self.replay_with(report, run, WORK + 9, RUN + 5)
    }

    /// Replays a run with a work area and a table of these sizes, and compares the answer and the whole table with the plain ones.
    pub fn replay_with(&self, report: &mut Report, run: &[u32], work: usize, numbers: usize) -> Answer {
        let (plain, notes) = match (self.refusal(&[(12, work < WORK || numbers < RUN), (14, too_long(run))]), &self.read) {
            (None, Ok(m)) => {
                let played = play(m, run);
                (played.broken_at(m, run).map_or(Answer::Kept, Answer::Broken), played.notes)
            }
            (refusal, _) => (refused(refusal), Vec::new()),
        };
        let r = calls::replay(&self.text, run, work, numbers);
        let about = || {
            format!(
                "replay with {work} bytes and {numbers} numbers answers {:?}, not {plain:?}, to {:?} in\n{}",
                r.answer,
                &run[..run.len().min(60)],
                self.show()
            )
        };
        report.check(r.answer == plain, about);
        report.check(r.has(&notes), || format!("who stood by is {:?}, not {notes:?}: {}", r.first(notes.len()), about()));
        report.check(r.area, || format!("work area: {}", about()));
        report.cover(&format!("replay: {}", covered(&r.answer)));
        for (number, _) in notes.iter().zip(run).filter(|(_, place)| **place >> 31 == 0) {
            report.cover(stood(*number));
        }
        r.answer
    }

    /// Puts a place to a lent state with a work area that is large enough.
    pub fn place(&self, report: &mut Report, lent: &mut Lent, place: u32) -> Answer {
        self.place_with(report, lent, place, WORK + 9)
    }

    /// Puts a place to a lent state with a work area of this size, and compares the answer and the whole state with the plain ones.
    pub fn place_with(&self, report: &mut Report, lent: &mut Lent, place: u32, work: usize) -> Answer {
        let (plain, after, stood) = match (self.refusal(&[(12, work < WORK), (14, lent[KEPT] as usize == RUN)]), &self.read) {
            (None, Ok(m)) => placed(m, lent, place),
            (refusal, _) => (refused(refusal), *lent, None),
        };
        let before = *lent;
        let r = calls::place(&self.text, lent, place, work);
        let about = || {
            format!(
                "place {place} with {work} bytes answers {:?}, not {plain:?}, and leaves {lent:?}, not {after:?}, of {before:?} in\n{}",
                r.answer,
                self.show()
            )
        };
        report.check(r.answer == plain, about);
        report.check(r.stood == stood, || format!("who stood by is {:?}, not {stood:?}: {}", r.stood, about()));
        report.check(*lent == after, || format!("state: {}", about()));
        report.check(r.area, || format!("work area: {}", about()));
        report.cover(&format!("place: {}", covered(&r.answer)));
        r.answer
    }
}

/// The answer of a refusal that is there.
fn refused(refusal: Option<(u32, u32)>) -> Answer {
    let (number, line) = refusal.expect("a text without a model is refused");
    Answer::Refused(number, line)
}

/// How many objects a number of those who stood by has.
fn stood(number: u32) -> &'static str {
    let none = [number >> 16, number >> 8 & 255, number & 255].iter().filter(|o| **o == 255).count();
    ["stood by: three objects", "stood by: two objects", "stood by: one object", "stood by: nobody"][none]
}

/// The kind of an answer.
fn covered(answer: &Answer) -> String {
    match answer {
        Answer::Reached(_) => "reached".into(),
        Answer::Unreached => "unreached".into(),
        Answer::Refused(number, _) => format!("refused {number:2}"),
        Answer::Kept => "kept".into(),
        Answer::Broken(_) => "broken".into(),
        Answer::Unknown(code) => format!("unknown {code}"),
    }
}

/// Line × 4, and 1 for a rule, 2 for a `new` line, 3 for a `next` line.
fn line_and_kind(clause: &Clause) -> u64 {
    let kind = match clause.action {
        Action::Rule(..) => 1,
        Action::New(..) => 2,
        Action::Next(..) => 3,
    };
    u64::from(clause.line) * 4 + kind
}

/// A state before the first place.
pub fn fresh() -> Lent {
    let mut lent = [0; 260];
    for cell in CARRIED_OBJECTS {
        lent[cell] = 255;
    }
    lent
}

/// The session that a lent state has, if it fits the text.
fn session_of(m: &Model, lent: &Lent) -> Option<Session> {
    let [objects, met, kept] = [OBJECTS, MET, KEPT].map(|i| lent[i] as usize);
    let carried = CARRIED_OBJECTS.map(|i| lent[i] as usize);
    if objects > 255 || met > m.stages.len() || kept > RUN || carried.iter().any(|o| *o != 255 && *o >= objects) {
        return None;
    }
    let db = lent[..objects].to_vec();
    let declared = db.iter().all(|state| state >> m.states == 0);
    declared.then_some(Session { db, met, carried: carried.map(|o| (o != 255).then_some(o)) })
}

/// The plain answer to a place put to a lent state, the state after it, and beside kept the number of those who stood by.
fn placed(m: &Model, lent: &Lent, n: u32) -> (Answer, Lent, Option<u32>) {
    let Some(session) = session_of(m, lent) else { return (Answer::Broken(0), *lent, None) };
    let facts = m.facts(&session.db);
    let Some((place, after)) = Place::decode(n).and_then(|p| Some((p, session.after(m, &facts, p)?))) else {
        return (Answer::Broken(lent[KEPT] as usize), *lent, None);
    };
    let stood = m.stood_by(&session.db, &facts, place);
    let mut left = *lent;
    left[..after.db.len()].copy_from_slice(&after.db);
    left[OBJECTS] = after.db.len() as u32;
    left[MET] = after.met as u32;
    for (cell, object) in CARRIED_OBJECTS.into_iter().zip(after.carried) {
        left[cell] = object.map_or(255, |o| o as u32);
    }
    left[KEPT] += 1;
    (Answer::Kept, left, Some(stood))
}
