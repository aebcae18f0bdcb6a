//! What can still become of an object (document 02, R-7): the question put anew from where kept places lead, with one object pointed at.

use crate::calls::{self, Analysis, Answer, OBJECTS, RUN, WORK};
use crate::guess;
use crate::meaning::{play, Carried, Model, Place, Session};
use crate::random::Random;
use crate::report::Report;
use crate::search::{led_from, search_from};
use crate::subject::{too_long, Subject};

/// The most objects that may exist when the question is put.
const EXISTING: usize = 126;
/// The steps of a shown run: one object of each state, the object pointed at, and two carried objects.
const STEPS: usize = 8_128 + 126 + 2 * 505;
/// The most sessions that the plain search looks at, and how many objects it makes besides those that are there.
const SESSIONS: usize = 1_500;
const MORE: usize = 3;
/// The most tries to lead objects about, by the number of states.
const TRIES: usize = 3_000;

/// A question put from where places lead.
struct Put<'a> {
    subject: &'a Subject,
    before: &'a [u32],
    object: u32,
}

impl Put<'_> {
    fn about(&self, answer: &Answer) -> String {
        let places = &self.before[..self.before.len().min(60)];
        format!("{answer:?} about object {} after {places:?} in\n{}", self.object, self.subject.show())
    }

    /// The refusal that comes from the places and the object, where the text is accepted; else where the places lead.
    fn stands(&self, m: &Model) -> Result<Session, u32> {
        let played = play(m, self.before);
        let s = played.sessions.last().expect("a session before the first place");
        if played.notes.len() < self.before.len() || self.object as usize >= s.db.len() {
            return Err(16);
        }
        if m.stages[0].body.variables == 0 {
            return Err(17);
        }
        if s.db.len() > EXISTING {
            return Err(18);
        }
        if self.subject.states().is_none() {
            return Err(15);
        }
        Ok(s.clone())
    }

    /// Puts the question with buffers of these sizes, and compares refusal, buffers, states and verdict with the plain ones.
    fn ask(&self, report: &mut Report, work: usize, places: usize) -> Answer {
        let a = calls::from_here(&self.subject.text, self.before, self.object, work, places);
        let about = || self.about(&a.answer);
        report.check(a.area && a.table && a.shape, || format!("area {}, table {}, shape {}: {}", a.area, a.table, a.shape, about()));
        report.cover(&format!("from here: {}", kind(&a.answer)));
        let refusal = self.subject.refusal(&[(12, work < WORK || places < RUN), (14, too_long(self.before))]);
        let stands = match (refusal, &self.subject.read) {
            (None, Ok(m)) => self.stands(m).map_err(|number| (number, 0)).map(|s| (m, s)),
            (refusal, _) => Err(refusal.expect("a text without a model is refused")),
        };
        match stands {
            Err((number, line)) => report.check(a.answer == Answer::Refused(number, line), || format!("{number} @ {line} expected: {}", about())),
            Ok((m, s)) => self.verdict(report, m, &s, &a),
        }
        a.answer
    }

    /// Compares a verdict with the plain search and with objects that are led about, and plays the run shown.
    fn verdict(&self, report: &mut Report, m: &Model, s: &Session, a: &Analysis) {
        let p = self.object as usize;
        let states = self.subject.states().expect("a text with a verdict has few states");
        report.check(a.states.iter().eq(states), || format!("states {:?}: {}", a.states, self.about(&a.answer)));
        let reached = match a.answer {
            Answer::Reached(n) => {
                let fault = fault(m, &s.db, p, &a.run);
                report.check(n == a.run.len() && fault.is_none(), || format!("{n} places {:?}, {fault:?}: {}", a.run, self.about(&a.answer)));
                true
            }
            answer => {
                report.check(answer == Answer::Unreached, || self.about(&answer));
                false
            }
        };
        let anew = Session { db: s.db.clone(), ..Session::default() };
        let found = search_from(m, anew, Some(p), s.db.len() + MORE, SESSIONS);
        report.check(reached || found.run.is_none(), || format!("plain run {:?}: {}", found.run, self.about(&a.answer)));
        if found.run.is_some() {
            report.cover("from here: a plain run is found");
        }
        if let Some(led) = led_from(m, states, Some(s.db[p]), TRIES / (states.len() + 1)) {
            report.check(led == reached, || format!("objects that are led about say {led}: {}", self.about(&a.answer)));
            report.cover(&format!("from here: led about, {}", if led { "reached" } else { "unreached" }));
        }
        if !reached && matches!(self.subject.analyze(report).answer, Answer::Reached(_)) {
            report.cover("from here: unreached where the plain question is reached");
        }
        let carried = m.stages[0].carried.contains(&Some(0));
        report.cover(&format!("from here: the first variable is {}", if carried { "carried" } else { "in stage 1 alone" }));
    }
}

fn kind(answer: &Answer) -> String {
    match answer {
        Answer::Reached(_) => "reached".into(),
        Answer::Refused(number, _) => format!("refused {number:2}"),
        other => format!("{other:?}"),
    }
}

/// What is wrong with a run shown from a database for an object.
fn fault(m: &Model, before: &[u32], p: usize, run: &[u32]) -> Option<String> {
    let mut s = Session { db: before.to_vec(), met: 0, carried: Carried::default() };
    let mut facts = m.facts(&s.db);
    let mut steps = 0;
    for (i, n) in run.iter().enumerate() {
        let Some(place) = Place::decode(*n) else { return Some(format!("place {i} has no form")) };
        let Some(next) = s.after(m, &facts, place) else { return Some(format!("place {i} is not allowed")) };
        match place {
            Place::Step(_, o) if o < before.len() && o != p => return Some(format!("place {i} relabels old object {o}")),
            Place::Step(..) => steps += 1,
            Place::Meeting(1, os) if os[0] != p => return Some(format!("place {i} names {}", os[0])),
            Place::Meeting(..) => {}
        }
        if next.db != s.db {
            facts = m.facts(&next.db);
        }
        s = next;
    }
    if s.met < m.stages.len() {
        return Some("stages are left".into());
    }
    if s.db.len() > OBJECTS || steps > STEPS {
        return Some(format!("{} objects, {steps} steps", s.db.len()));
    }
    None
}

/// Puts the question after guessed runs and after the beginnings of a shown one.
pub fn ask(report: &mut Report, r: &mut Random, subject: &Subject, m: &Model, run: &[u32]) {
    let mut befores = vec![guess::run(r, m), guess::run(r, m)];
    if run.len() <= 60 {
        befores.push(run[..r.below(run.len() + 1)].to_vec());
        befores.push(run.to_vec());
    }
    for before in &befores {
        let objects = play(m, before).sessions.last().map_or(0, |s| s.db.len());
        let object = if r.chance(8) { r.word() } else { r.below(objects + 1) as u32 };
        Put { subject, before, object }.ask(report, WORK + 9, RUN + 5);
    }
}

/// Puts the question to a damaged text, or with buffers that are too short or places that are too many.
pub fn refused(report: &mut Report, r: &mut Random, subject: &Subject) {
    let before = vec![r.word(); r.pick(&[0, 0, 3, RUN, RUN + 1])];
    let work = r.pick(&[WORK, WORK, WORK - 1, 0]);
    let places = r.pick(&[RUN, RUN, RUN - 1, 0]);
    Put { subject, before: &before, object: r.below(3) as u32 }.ask(report, work, places);
}

/// Exactly 126 objects are fine, one more is refused; a wiped object and one whose label never returns play no part; a stage without variables is refused.
pub fn all(report: &mut Report) {
    let text = "(state A)\n(state B)\n(new (A))\n(next x (B) () (A x))\n(next x () (A) (A x))\n(ask ((A x)) ((B x)))\n";
    let subject = Subject::new(text.as_bytes());
    let made: Vec<u32> = (0..200).map(|o| Place::Step(3, o).encode()).collect();
    for (n, number) in [(1, None), (125, None), (126, None), (127, Some(18)), (200, Some(18))] {
        let answer = Put { subject: &subject, before: &made[..n], object: n as u32 - 1 }.ask(report, WORK, RUN);
        let right = number.map_or(matches!(answer, Answer::Reached(_)), |number| answer == Answer::Refused(number, 0));
        report.check(right, || format!("{n} objects: {answer:?}"));
    }
    for (after, reached) in
        [(vec![], true), (vec![Place::Step(4, 0)], true), (vec![Place::Step(5, 0)], false), (vec![Place::Step(4, 0), Place::Step(5, 0)], false)]
    {
        let before: Vec<u32> = [Place::Step(3, 0)].iter().chain(&after).map(Place::encode).collect();
        let answer = Put { subject: &subject, before: &before, object: 0 }.ask(report, WORK, RUN);
        report.check(matches!(answer, Answer::Reached(_)) == reached, || format!("after {after:?}: {answer:?}"));
    }
    for text in [vec![], vec![b'('; 16_385]] {
        Put { subject: &Subject::new(&text), before: &[], object: 0 }.ask(report, WORK - 1, RUN);
    }
    let bare = Subject::new(b"(state A)\n(rel N 0)\n(new (A))\n(rule (N) (A x))\n(ask ((N)) ((A x)))\n");
    let answer = Put { subject: &bare, before: &[Place::Step(3, 0).encode()], object: 0 }.ask(report, WORK, RUN);
    report.check(answer == Answer::Refused(17, 0), || format!("a stage without variables: {answer:?}"));
}
