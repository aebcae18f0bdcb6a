//! A plain breadth-first search over sessions, with a bound on the number of objects.

use crate::meaning::{Action, Clause, Facts, Model, Place, Session};
use crate::reader::CARRIED;
use std::collections::{BTreeSet, HashSet};

/// The most non-empty states that an analysis follows: document 02, R-6.
pub const FOLLOWED: usize = 127;

/// How many of some states are not empty.
pub fn non_empty<'a>(states: impl IntoIterator<Item = &'a u32>) -> usize {
    states.into_iter().filter(|s| **s != 0).count()
}

/// The states that one line makes where one object of each of these states stands by.
fn made(m: &Model, db: &[u32]) -> BTreeSet<u32> {
    let facts = m.facts(db);
    let objects = |c: &Clause| if let Action::New(_) = c.action { db.len()..db.len() + 1 } else { 0..db.len() };
    let steps = m.clauses.iter().flat_map(|c| objects(c).map(|o| (c.line, o)));
    steps.filter_map(|(line, o)| m.step(db, &facts, line, o).map(|after| after[o])).collect()
}

/// All reachable states, or none if more than 127 that are not empty come. By document 01's count the reachable states can be put in an order in which
/// each is made with one object of each state before it, so it is enough to let one object of each state found stand by until no line makes another.
pub fn reachable(m: &Model) -> Option<BTreeSet<u32>> {
    let mut states: BTreeSet<u32> = BTreeSet::new();
    loop {
        let db: Vec<u32> = states.iter().copied().collect();
        states.extend(made(m, &db));
        if non_empty(&states) > FOLLOWED {
            return None;
        }
        if states.len() == db.len() {
            return Some(states);
        }
    }
}

/// What a search found with at most so many objects.
pub struct Found {
    /// A shortest run that meets the stages in order.
    pub run: Option<Vec<u32>>,
    /// The atomic states that some object had.
    pub states: BTreeSet<u32>,
    /// Whether every session with so many objects was looked at.
    pub whole: bool,
}

/// A session up to the order of its objects: each object's state with the carried variables that it stands for, sorted, and the stages met.
type Key = (Vec<(u32, Vec<usize>)>, usize);

fn key(s: &Session) -> Key {
    let stands_for = |o: usize| (0..s.carried.len()).filter(|c| s.carried[*c] == Some(o)).collect();
    let mut objects: Vec<(u32, Vec<usize>)> = s.db.iter().enumerate().map(|(o, state)| (*state, stands_for(o))).collect();
    objects.sort_unstable();
    (objects, s.met)
}

/// Every place that may be tried in a session with at most so many objects.
fn places(m: &Model, s: &Session, facts: &Facts, objects: usize) -> Vec<Place> {
    let mut all = Vec::new();
    if let Some(stage) = m.stages.get(s.met) {
        let all_choices = stage.body.choices(&s.db, facts, &[]);
        all.extend(all_choices.iter().map(|c| Place::meeting(s.met + 1, c)));
    }
    for c in &m.clauses {
        match c.action {
            Action::New(_) if s.db.len() < objects => all.push(Place::Step(c.line, s.db.len())),
            Action::Next(..) => all.extend((0..s.db.len()).map(|o| Place::Step(c.line, o))),
            _ => {}
        }
    }
    all
}

/// A session that was found, from which session and by which place.
struct Node {
    session: Session,
    from: usize,
    place: u32,
}

fn run_to(nodes: &[Node], mut at: usize) -> Vec<u32> {
    let mut run = Vec::new();
    while at != 0 {
        run.push(nodes[at].place);
        at = nodes[at].from;
    }
    run.reverse();
    run
}

/// Looks at sessions with at most so many objects until all or so many sessions are found.
pub fn search(m: &Model, objects: usize, most: usize) -> Found {
    search_from(m, Session::default(), None, objects, most)
}

/// The same from a session on, where the object pointed at stands for the first variable of stage 1.
pub fn search_from(m: &Model, from: Session, pointed: Option<usize>, objects: usize, most: usize) -> Found {
    let mut seen: HashSet<(Key, Option<u32>)> = HashSet::new();
    let mut know = |s: &Session| seen.insert((key(s), pointed.filter(|_| s.met == 0).map(|p| s.db[p])));
    know(&from);
    let mut nodes = vec![Node { session: from, from: 0, place: 0 }];
    let mut found = Found { run: None, states: BTreeSet::new(), whole: true };
    let mut at = 0;
    while at < nodes.len() {
        let s = nodes[at].session.clone();
        found.states.extend(s.db.iter().copied());
        if s.met == m.stages.len() {
            found.run.get_or_insert_with(|| run_to(&nodes, at));
        }
        if nodes.len() > most {
            found.whole = false;
            return found;
        }
        let facts = m.facts(&s.db);
        for place in places(m, &s, &facts, objects) {
            let another = |p: usize| matches!(place, Place::Meeting(1, os) if os[0] != p);
            if pointed.is_some_and(another) {
                continue;
            }
            let Some(next) = s.after(m, &facts, place) else { continue };
            if know(&next) {
                nodes.push(Node { session: next, from: at, place: place.encode() });
            }
        }
        at += 1;
    }
    found
}

/// The object pointed at is led about too, as long as stage 1 is not met.
const LED: usize = CARRIED + 1;
const POINTED: usize = CARRIED;

/// How far a question is met: the stages met, and the state of each carried object that is chosen, and of the object pointed at.
type Led = (usize, [Option<u32>; LED]);

/// One object of each reachable state, which stands by and never changes, and behind these the objects that are led about.
struct Crowd {
    db: Vec<u32>,
    walkers: [Option<usize>; LED],
    facts: Facts,
}

impl Crowd {
    fn new(m: &Model, states: &BTreeSet<u32>, led: &Led) -> Crowd {
        let mut db: Vec<u32> = states.iter().copied().collect();
        let mut walkers = [None; LED];
        for (walker, state) in walkers.iter_mut().zip(led.1) {
            let Some(state) = state else { continue };
            *walker = Some(db.len());
            db.push(state);
        }
        let facts = m.facts(&db);
        Crowd { db, walkers, facts }
    }

    /// Where one `next` line leads one of the objects that are led about.
    fn walks(&self, m: &Model, led: &Led) -> Vec<Led> {
        let mut all = Vec::new();
        for (c, walker) in self.walkers.iter().enumerate().filter_map(|(c, w)| w.map(|o| (c, o))) {
            let next = m.clauses.iter().filter(|c| matches!(c.action, Action::Next(..)));
            for db in next.filter_map(|clause| m.step(&self.db, &self.facts, clause.line, walker)) {
                let mut after = *led;
                after.1[c] = Some(db[walker]);
                all.push(after);
            }
        }
        all
    }

    /// What is carried after the next stage is met, for each choice of objects; an object that is chosen now is another one of the same state.
    fn meetings(&self, m: &Model, led: &Led) -> Vec<Led> {
        let stage = &m.stages[led.0];
        let pointed = |x: usize| if x == 0 { self.walkers[POINTED] } else { None };
        let walker = |x: usize| stage.carried.iter().position(|seat| *seat == Some(x)).and_then(|c| self.walkers[c]).or(pointed(x));
        let fixed: Vec<Option<usize>> = (0..stage.body.variables).map(walker).collect();
        let meeting = |choice: Vec<usize>| {
            let chosen = |c: usize| stage.carried.get(c).and_then(|seat| seat.map(|x| self.db[choice[x]]).or(led.1[c]));
            (led.0 + 1, std::array::from_fn(chosen))
        };
        stage.body.choices(&self.db, &self.facts, &fixed).into_iter().map(meeting).collect()
    }
}

/// Whether the stages are met where one object of each reachable state stands by and the carried objects are led about; none after so many tries.
/// By document 02's count a run needs no more than this.
pub fn led_about(m: &Model, states: &BTreeSet<u32>, most: usize) -> Option<bool> {
    led_from(m, states, None, most)
}

/// The same where an object in this state is pointed at, and stands for the first variable of stage 1.
pub fn led_from(m: &Model, states: &BTreeSet<u32>, pointed: Option<u32>, most: usize) -> Option<bool> {
    let mut found: Vec<Led> = vec![(0, [None, None, pointed])];
    let mut seen: HashSet<Led> = HashSet::from([found[0]]);
    let mut at = 0;
    while let Some(led) = found.get(at).copied() {
        if led.0 == m.stages.len() {
            return Some(true);
        }
        if at == most {
            return None;
        }
        let crowd = Crowd::new(m, states, &led);
        let after = crowd.meetings(m, &led).into_iter().chain(crowd.walks(m, &led));
        found.extend(after.filter(|next| seen.insert(*next)));
        at += 1;
    }
    Some(false)
}
